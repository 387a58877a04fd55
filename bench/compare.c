// Times the check and the solver against their rivals on the systems of a folder, and prints a table: compare FOLDER.
// All contestants take turns, in several passes over all rows, so that what disturbs the machine for some seconds falls on all alike;
// a time is the median of all passes, of processor time, a ratio the median of the ratios within a repetition. What they answer is
// compared before it is timed.
#include <stdio.h>
#include <stdlib.h>
#include <string.h>
#include <time.h>
#include <unistd.h>
#include "loads.h"
#include "ours.h"
#include "rivals/reading.h"
#include "rivals/writing.h"

enum { PASSES = 5, REPETITIONS = 15, FEWER_REPETITIONS = 3, DEEPER = 112, NOT_DONE = 63 };
enum { ROWS = PRIMES + SHAPES * PRIMES + LOADS - SHAPES };

// seconds that one measurement takes at least: so long that what the program before it left in the caches counts little
static const double least_time = 1e-3;

check_function check_O2, check_O3;
solve_function solve_O3, solve_shared;
#ifdef FLINT
solve_function flint_solve;
#else
#define flint_solve NULL
#endif
#ifdef PARI
solve_function pari_solve;
#else
#define pari_solve NULL
#endif

enum { OURS, C_O2, C_O3, SHARED, BY_FLINT, BY_PARI, CONTESTANTS };

static const char *const labels[CONTESTANTS] = {"ours", "C -O2", "C -O3", "shared", "FLINT", "PARI"};
static check_function *const checks[CONTESTANTS] = {yezsdolak_check, check_O2, check_O3, NULL, NULL, NULL};
static solve_function *const solvers[CONTESTANTS] = {solve_ours, NULL, solve_O3, solve_shared, flint_solve, pari_solve};

// a row of a table: seconds for one system
struct row {
    const char *load;
    uint32_t p;
    bool check, not_done[CONTESTANTS];
    double times[CONTESTANTS][PASSES * REPETITIONS], median[CONTESTANTS]; // 0 for those that do not take part
};

// the systems of a row, with certificates where these are what is checked
struct batch {
    struct row *row;
    bool check;
    int systems;
    size_t system_bytes[SYSTEMS], certificate_bytes[SYSTEMS];
    uint8_t system[SYSTEMS][4 * LONGEST_SYSTEM], certificate[SYSTEMS][4 * LONGEST_CERTIFICATE];
};

static bool takes_part(const struct batch *b, int contestant)
{
    return b->check ? checks[contestant] != NULL : solvers[contestant] != NULL && !b->row->not_done[contestant];
}

static uint64_t run(struct batch *b, int contestant, int i)
{
    if (b->check)
        return checks[contestant](b->system[i], b->system_bytes[i], 0, b->certificate[i], b->certificate_bytes[i]);
    return solvers[contestant](b->system[i], b->system_bytes[i], 0, b->certificate[i], sizeof b->certificate[i]);
}

static double seconds(clockid_t clock)
{
    struct timespec t;
    clock_gettime(clock, &t);
    return (double)t.tv_sec + 1e-9 * (double)t.tv_nsec;
}

static double run_all(struct batch *b, int contestant, int turns)
{
    double before = seconds(CLOCK_PROCESS_CPUTIME_ID);
    for (int t = 0; t < turns; t++)
        for (int i = 0; i < b->systems; i++)
            run(b, contestant, i);
    return seconds(CLOCK_PROCESS_CPUTIME_ID) - before;
}

// Runs so many bytes deeper in the stack: where a frame lies in its page makes up to 6 percent of a check's time.
static double run_deeper(struct batch *b, int contestant, int turns, size_t bytes)
{
    volatile uint8_t above[bytes];
    above[0] = 0;
    double time = run_all(b, contestant, turns);
    above[bytes - 1] = above[0];
    return time;
}

static int by_value(const void *a, const void *b)
{
    double x = *(const double *)a, y = *(const double *)b;
    return (x > y) - (x < y);
}

static int repetitions(int contestant)
{
    return contestant == BY_PARI ? FEWER_REPETITIONS : REPETITIONS;
}

// Every repetition begins at another depth of the stack.
static void measure(struct batch *b, int pass)
{
    int turns[CONTESTANTS];
    for (int k = 0; k < CONTESTANTS; k++)
        turns[k] = takes_part(b, k) ? 1 + (int)(least_time / run_all(b, k, 1)) : 0;
    for (int r = 0; r < REPETITIONS; r++)
        for (int k = 0; k < CONTESTANTS; k++) {
            int c = (k + r) % CONTESTANTS, depth = DEEPER * (1 + pass * REPETITIONS + r);
            if (turns[c] > 0 && r < repetitions(c))
                b->row->times[c][pass * repetitions(c) + r] = run_deeper(b, c, turns[c], (size_t)depth) / (turns[c] * b->systems);
        }
}

static double median_of(const double *values, int count)
{
    double sorted[PASSES * REPETITIONS];
    memcpy(sorted, values, (size_t)count * sizeof values[0]);
    qsort(sorted, (size_t)count, sizeof sorted[0], by_value);
    return sorted[count / 2];
}

static void take_medians(struct row *r)
{
    for (int k = 0; k < CONTESTANTS; k++)
        r->median[k] = median_of(r->times[k], PASSES * repetitions(k));
}

// The median of the ratios of two contestants' times, each of one repetition, in which they ran one after another: what slows the
// machine for longer slows both. 0 where one of them does not take part.
static double ratio_of(const struct row *r, int a, int b)
{
    double ratios[PASSES * REPETITIONS];
    int count = 0, pairs = repetitions(a) < repetitions(b) ? repetitions(a) : repetitions(b);
    if (r->median[a] == 0 || r->median[b] == 0)
        return 0;
    for (int pass = 0; pass < PASSES; pass++)
        for (int i = 0; i < pairs; i++)
            ratios[count++] = r->times[a][pass * repetitions(a) + i] / r->times[b][pass * repetitions(b) + i];
    return median_of(ratios, count);
}

// Kind, d and N, as so many words, get the rest of a right certificate from a rival that gives it; its kind must be the same.
static uint64_t complete(struct batch *b, int i, size_t words)
{
    static uint8_t right[4 * LONGEST_CERTIFICATE];
    static struct system s;
    static struct certificate c;
    struct writer o = {b->certificate[i], words};
    size_t bytes = 4 * (solve_O3(b->system[i], b->system_bytes[i], 0, right, sizeof right) / 64);
    if (read_system(&s, b->system[i], b->system_bytes[i], 0) != 0 || read_certificate(&c, &s, right, bytes) != 0 ||
        memcmp(right, b->certificate[i], 4) != 0)
        return 0;
    for (uint32_t r = 0; r < s.n + (c.kind == SOLUTION); r++) {
        struct polynomial f = c.kind == ABSENCE ? c.z[r] : r == 0 ? c.w : c.z[r - 1];
        put(&o, START, f.size);
        for (uint32_t e = 0; e < f.size; e++)
            put(&o, COEFFICIENT, f.coefficient[e]);
    }
    return put_end(&o);
}

// 0 where the certificate of a solver is right
static uint64_t verdict(struct batch *b, int contestant, int i, uint64_t result)
{
    if (result % 64 != 0)
        return result;
    if (contestant == BY_PARI)
        result = complete(b, i, result / 64);
    return check_O2(b->system[i], b->system_bytes[i], 0, b->certificate[i], 4 * (result / 64));
}

static _Noreturn void fail(const struct batch *b, int contestant, const char *why)
{
    printf("%s, p = %u: %s %s\n", b->row->load, b->row->p, labels[contestant], why);
    exit(1);
}

// Ours, which comes first, and C's two forms give the same words; the systems that take C more than one second system are counted.
static void compare_words(struct batch *b, int contestant, int i, uint64_t result)
{
    static uint64_t results[SYSTEMS];
    static uint8_t chosen[SYSTEMS][4 * LONGEST_CERTIFICATE];
    if (contestant == OURS) {
        results[i] = result;
        memcpy(chosen[i], b->certificate[i], sizeof chosen[i]);
    } else if (contestant <= SHARED &&
               (result != results[i] || memcmp(chosen[i], b->certificate[i], 4 * (result / 64)) != 0))
        fail(b, contestant, "gives another certificate");
}

// Every check accepts the certificates; every solver's certificate is right, which leaves no choice of kind and d.
static void compare(struct batch *b)
{
    for (int k = 0; k < CONTESTANTS; k++)
        for (int i = 0; takes_part(b, k) && i < b->systems; i++) {
            uint64_t result = run(b, k, i);
            if (k == BY_PARI && result == NOT_DONE) {
                b->row->not_done[k] = true;
                continue;
            }
            if (!b->check) {
                compare_words(b, k, i, result);
                result = verdict(b, k, i, result);
            }
            if (result != 0)
                fail(b, k, "is refused");
        }
}

static void print_time(double seconds)
{
    if (seconds == 0)
        printf(" %9s", "-");
    else
        printf(" %9.4f", 1e3 * seconds);
}

static void print_ratio(double ratio)
{
    if (ratio == 0)
        printf(" %10s", "-");
    else
        printf(" %10.2f", ratio);
}

static void print_check_head(void)
{
    printf("\nThe check of the largest certificate, milliseconds\n\n");
    printf("%-16s %6s %9s %9s %9s %10s\n", "certificate", "p", "ours", "C -O2", "C -O3", "ours/C");
}

static void print_check(const struct row *r)
{
    printf("%-16s %6u", r->load, r->p);
    for (int k = OURS; k <= C_O3; k++)
        print_time(r->median[k]);
    print_ratio(ratio_of(r, OURS, C_O2));
    puts("");
}

static void print_solver_head(const char *title)
{
    printf("\n%s, milliseconds\n\n%-16s %6s", title, "load", "p");
    for (int k = 0; k < CONTESTANTS; k++)
        if (k != C_O2)
            printf(" %9s", labels[k]);
    printf(" %10s %10s %10s\n", "ours/C", "FLINT/ours", "PARI/ours");
}

static void print_solver(const struct row *r)
{
    printf("%-16s %6u", r->load, r->p);
    for (int k = 0; k < CONTESTANTS; k++)
        if (k != C_O2)
            print_time(r->median[k]);
    print_ratio(ratio_of(r, OURS, C_O3));
    print_ratio(ratio_of(r, BY_FLINT, OURS));
    print_ratio(ratio_of(r, BY_PARI, OURS));
    puts("");
}

static size_t load_file(const char *folder, const char *name, uint8_t *bytes, size_t limit)
{
    char path[4096];
    snprintf(path, sizeof path, "%s/%s", folder, name);
    FILE *f = fopen(path, "rb");
    if (f == NULL) {
        perror(path);
        exit(1);
    }
    size_t count = fread(bytes, 1, limit, f);
    fclose(f);
    return count;
}

// processor seconds that other programs have used since the machine started, or that the host of a virtual machine has kept for
// itself; 0 where the system does not say
static double others_seconds(void)
{
    double user = 0, nice = 0, kernel = 0, stolen = 0;
    FILE *f = fopen("/proc/stat", "r");
    if (f == NULL)
        return 0;
    bool read = fscanf(f, "cpu %lf %lf %lf %*f %*f %*f %*f %lf", &user, &nice, &kernel, &stolen) == 4;
    fclose(f);
    return read ? (user + nice + kernel + stolen) / (double)sysconf(_SC_CLK_TCK) - seconds(CLOCK_PROCESS_CPUTIME_ID) : 0;
}

static void load_batch(struct batch *b, const char *folder, struct row *r)
{
    char name[64];
    b->row = r, b->check = r->check, b->systems = r->check ? 1 : SYSTEMS;
    for (int i = 0; !r->check && i < SYSTEMS; i++) {
        snprintf(name, sizeof name, "%s-%u-%d.system", r->load, r->p, i);
        b->system_bytes[i] = load_file(folder, name, b->system[i], sizeof b->system[i]);
    }
    if (r->check) {
        snprintf(name, sizeof name, "%s-%u.system", r->load, r->p);
        b->system_bytes[0] = load_file(folder, name, b->system[0], sizeof b->system[0]);
        snprintf(name, sizeof name, "%s-%u.certificate", r->load, r->p);
        b->certificate_bytes[0] = load_file(folder, name, b->certificate[0], sizeof b->certificate[0]);
    }
}

// the check at each prime, the first loads at each prime, the other loads
static void list_rows(struct row *r)
{
    for (int i = 0; i < PRIMES; i++, r++)
        r->load = "largest", r->p = primes[i], r->check = true;
    for (int l = 0; l < SHAPES; l++)
        for (int i = 0; i < PRIMES; i++, r++)
            r->load = loads[l].name, r->p = primes[i];
    for (int l = SHAPES; l < LOADS; l++, r++)
        r->load = loads[l].name, r->p = GROWTH_PRIME;
}

// the growth ends with the first load, which is among the first rows
static void print_rows(const struct row *rows)
{
    const struct row *first = rows + PRIMES, *small = first + SHAPES * PRIMES;
    print_check_head();
    for (int i = 0; i < PRIMES; i++)
        print_check(rows + i);
    print_solver_head("The solver");
    for (int i = 0; i < SHAPES * PRIMES; i++)
        print_solver(first + i);
    print_solver_head("The solver, growth with the size");
    for (int i = 0; i < LOADS - SHAPES; i++)
        print_solver(small + i);
    for (int i = 0; i < PRIMES; i++)
        if (first[i].p == GROWTH_PRIME)
            print_solver(first + i);
}

static void measure_rows(struct row *rows, const char *folder)
{
    static struct batch b;
    for (int pass = 0; pass < PASSES; pass++)
        for (int r = 0; r < ROWS; r++) {
            load_batch(&b, folder, &rows[r]);
            if (pass == 0)
                compare(&b);
            measure(&b, pass);
        }
    for (int r = 0; r < ROWS; r++)
        take_medians(&rows[r]);
}

int main(int count, char **argument)
{
    static struct row rows[ROWS];
    if (count != 2) {
        fprintf(stderr, "usage: compare FOLDER\n");
        return 2;
    }
    double start = seconds(CLOCK_MONOTONIC), others = others_seconds();
    list_rows(rows);
    measure_rows(rows, argument[1]);
    print_rows(rows);
    printf("\nMeanwhile other work kept %.2f cores busy.\n", (others_seconds() - others) / (seconds(CLOCK_MONOTONIC) - start));
    return 0;
}
