// Times the solvers and the checks of two builds of the library, in turns, and prints their ratio for each load and each largest
// certificate of a folder: two FOLDER. The systems have one right side. Both builds are linked: bench/two renames the symbols of the
// earlier one.
#include <stdio.h>
#include <stdlib.h>
#include <string.h>
#include <time.h>
#include "../include/yezsdolak.h"
#include "loads.h"

enum { REPETITIONS = 41, DEEPER = 112, FIRST_TOLD_SIDES = 1000 };

// The earlier build: its solver and its check have two names each, of which one is right. Before version 0.10.0 they were told no right
// side; a build without a version is older.
uint64_t earlier_version(void) __attribute__((weak));
uint64_t earlier_solve_side(const uint8_t *system, size_t system_bytes, uint64_t side, uint8_t *certificate, size_t lent_bytes);
uint64_t earlier_solve(const uint8_t *system, size_t system_bytes, uint8_t *certificate, size_t lent_bytes);
uint64_t earlier_check_side(const uint8_t *system, size_t system_bytes, uint64_t side, const uint8_t *certificate,
                            size_t certificate_bytes);
uint64_t earlier_check(const uint8_t *system, size_t system_bytes, const uint8_t *certificate, size_t certificate_bytes);

static uint64_t solve_before_sides(const uint8_t *system, size_t system_bytes, uint8_t *certificate, size_t lent_bytes)
{
    return earlier_solve(system, system_bytes, certificate, lent_bytes);
}

static uint64_t solve_earlier(const uint8_t *system, size_t system_bytes, uint8_t *certificate, size_t lent_bytes)
{
    return earlier_solve_side(system, system_bytes, 0, certificate, lent_bytes);
}

static uint64_t solve_later(const uint8_t *system, size_t system_bytes, uint8_t *certificate, size_t lent_bytes)
{
    return yezsdolak_solve(system, system_bytes, 0, certificate, lent_bytes);
}

static uint64_t check_before_sides(const uint8_t *system, size_t system_bytes, const uint8_t *certificate, size_t certificate_bytes)
{
    return earlier_check(system, system_bytes, certificate, certificate_bytes);
}

static uint64_t check_earlier(const uint8_t *system, size_t system_bytes, const uint8_t *certificate, size_t certificate_bytes)
{
    return earlier_check_side(system, system_bytes, 0, certificate, certificate_bytes);
}

static uint64_t check_later(const uint8_t *system, size_t system_bytes, const uint8_t *certificate, size_t certificate_bytes)
{
    return yezsdolak_check(system, system_bytes, 0, certificate, certificate_bytes);
}

struct build {
    uint64_t (*solve)(const uint8_t *system, size_t system_bytes, uint8_t *certificate, size_t lent_bytes);
    uint64_t (*check)(const uint8_t *system, size_t system_bytes, const uint8_t *certificate, size_t certificate_bytes);
};

static struct build builds[2] = {{solve_before_sides, check_before_sides}, {solve_later, check_later}};
static const double least_time = 1e-3;

// systems to be solved, or one whose certificate is checked
struct batch {
    int systems;
    size_t bytes[SYSTEMS];
    size_t certificate_bytes; // 0 where systems are to be solved
    uint8_t system[SYSTEMS][YEZSDOLAK_SYSTEM_BYTES], certificate[YEZSDOLAK_CERTIFICATE_BYTES];
};

static double seconds(void)
{
    struct timespec t;
    clock_gettime(CLOCK_PROCESS_CPUTIME_ID, &t);
    return (double)t.tv_sec + 1e-9 * (double)t.tv_nsec;
}

static double run(const struct batch *b, const struct build *build, int turns)
{
    static uint8_t certificate[YEZSDOLAK_CERTIFICATE_BYTES];
    double before = seconds();
    for (int t = 0; t < turns; t++)
        for (int i = 0; i < b->systems; i++)
            if (b->certificate_bytes > 0)
                build->check(b->system[i], b->bytes[i], b->certificate, b->certificate_bytes);
            else
                build->solve(b->system[i], b->bytes[i], certificate, sizeof certificate);
    return seconds() - before;
}

// Runs so many bytes deeper in the stack: where a frame lies in its page makes up to 6 percent of the check's time.
static double run_deeper(const struct batch *b, const struct build *build, int turns, size_t bytes)
{
    volatile uint8_t above[bytes];
    above[0] = 0;
    double time = run(b, build, turns);
    above[bytes - 1] = above[0];
    return time;
}

static void fail(const char *what)
{
    fprintf(stderr, "two: %s\n", what);
    exit(1);
}

// Both builds must give the same bytes.
static void compare_solvers(const struct batch *b)
{
    static uint8_t first[YEZSDOLAK_CERTIFICATE_BYTES], second[YEZSDOLAK_CERTIFICATE_BYTES];
    for (int i = 0; i < b->systems; i++) {
        memset(first, 0, sizeof first);
        memset(second, 0, sizeof second);
        uint64_t a = builds[0].solve(b->system[i], b->bytes[i], first, sizeof first);
        uint64_t c = builds[1].solve(b->system[i], b->bytes[i], second, sizeof second);
        if (a != c || memcmp(first, second, sizeof first) != 0)
            fail("the builds differ");
    }
}

// Both builds must accept.
static void compare_checks(const struct batch *b)
{
    for (int k = 0; k < 2; k++)
        if (builds[k].check(b->system[0], b->bytes[0], b->certificate, b->certificate_bytes) != 0)
            fail(k == 0 ? "the earlier build refuses a right certificate" : "the later build refuses a right certificate");
}

static int by_value(const void *a, const void *b)
{
    double x = *(const double *)a, y = *(const double *)b;
    return (x > y) - (x < y);
}

// the median of the ratios of neighbouring measurements, later by earlier
static double ratio(const struct batch *b)
{
    double ratios[REPETITIONS];
    int turns = 1 + (int)(least_time / run(b, &builds[0], 1));
    for (int r = 0; r < REPETITIONS; r++) {
        double times[2];
        for (int k = 0; k < 2; k++)
            times[(k + r) % 2] = run_deeper(b, &builds[(k + r) % 2], turns, DEEPER * (1 + (size_t)r));
        ratios[r] = times[1] / times[0];
    }
    qsort(ratios, REPETITIONS, sizeof ratios[0], by_value);
    return ratios[REPETITIONS / 2];
}

// the number of bytes of the file, 0 where there is none
static size_t read_file(uint8_t *bytes, size_t limit, const char *folder, const char *name)
{
    char path[4096];
    snprintf(path, sizeof path, "%s/%s", folder, name);
    FILE *file = fopen(path, "rb");
    if (file == NULL)
        return 0;
    size_t count = fread(bytes, 1, limit, file);
    fclose(file);
    return count;
}

static bool read_systems(struct batch *b, const char *folder, const struct load *load, uint32_t p)
{
    char name[64];
    b->certificate_bytes = 0;
    for (b->systems = 0; b->systems < SYSTEMS; b->systems++) {
        snprintf(name, sizeof name, "%s-%u-%d.system", load->name, p, b->systems);
        b->bytes[b->systems] = read_file(b->system[b->systems], sizeof b->system[0], folder, name);
        if (b->bytes[b->systems] == 0)
            break;
    }
    return b->systems > 0;
}

static void read_largest(struct batch *b, const char *folder, uint32_t p)
{
    char name[64];
    b->systems = 1;
    snprintf(name, sizeof name, "largest-%u.system", p);
    b->bytes[0] = read_file(b->system[0], sizeof b->system[0], folder, name);
    snprintf(name, sizeof name, "largest-%u.certificate", p);
    b->certificate_bytes = read_file(b->certificate, sizeof b->certificate, folder, name);
    if (b->bytes[0] == 0 || b->certificate_bytes == 0)
        fail("a largest certificate is missing");
}

// prints the ratio, and raises the worst to it
static void print_ratio(const struct batch *b, const char *name, uint32_t p, double *worst)
{
    double r = ratio(b);
    *worst = r > *worst ? r : *worst;
    printf("%-16s %6u %6.3f\n", name, p, r);
}

int main(int argc, char **argv)
{
    static struct batch batch;
    double solver = 0, check = 0;
    if (argc != 2) {
        fprintf(stderr, "usage: two FOLDER\n");
        return 2;
    }
    if (earlier_version != NULL && earlier_version() >= FIRST_TOLD_SIDES)
        builds[0] = (struct build){solve_earlier, check_earlier};
    for (int l = 0; l < LOADS; l++)
        for (int k = 0; k < PRIMES; k++)
            if (read_systems(&batch, argv[1], &loads[l], primes[k])) {
                compare_solvers(&batch);
                print_ratio(&batch, loads[l].name, primes[k], &solver);
            }
    for (int k = 0; k < PRIMES; k++) {
        read_largest(&batch, argv[1], primes[k]);
        compare_checks(&batch);
        print_ratio(&batch, "largest, check", primes[k], &check);
    }
    printf("greatest ratio, later build by earlier: solver %.3f, check %.3f\n", solver, check);
    return 0;
}
