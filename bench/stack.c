// How much stack solver, check and report use against their rivals, over all systems and certificates of a folder: stack FOLDER; and the
// panel's check, on a system of its own, since it takes none of these. A call runs in a thread whose stack is filled with a pattern; what
// is no longer the pattern was used. Ours and C's take no other memory.
#include <dirent.h>
#include <pthread.h>
#include <stdbool.h>
#include <stdio.h>
#include <stdlib.h>
#include <string.h>
#include <sys/mman.h>
#include "ours.h"

enum { SPACE = 2 << 20, PATTERN = 0xA5, KIB = 1024, LIMIT = 1024 };

check_function check_O2;
solve_function solve_O3, solve_shared;

enum { OURS, C, SHARED, CONTESTANTS };
enum { SOLVE, CHECK, REPORT, PANEL, CALLS };

static const char *const names[CALLS] = {"solve", "check", "report", "panel"};

static solve_function *const solvers[CONTESTANTS] = {solve_ours, solve_O3, solve_shared};
static check_function *const checks[CONTESTANTS] = {yezsdolak_check, check_O2, NULL};

struct call {
    solve_function *solve; // or, where it is missing, the check, or, where that is missing too, the report or the panel's check if wanted
    check_function *check;
    bool report, panel;
    size_t system_bytes, certificate_bytes;
    uint8_t system[4 * LONGEST_SYSTEM], certificate[4 * LONGEST_CERTIFICATE], text[1024];
};

static void fail(const char *what)
{
    fprintf(stderr, "stack: %s\n", what);
    exit(1);
}

// What is checked is right, and a check that accepts has walked over all of it.
static void *run(void *argument)
{
    struct call *c = argument;
    if (c->solve != NULL)
        c->certificate_bytes = 4 * (size_t)(c->solve(c->system, c->system_bytes, 0, c->certificate, sizeof c->certificate) / 64);
    else if (c->check != NULL) {
        if (c->check(c->system, c->system_bytes, 0, c->certificate, c->certificate_bytes) != 0)
            fail("a right certificate is refused");
    } else if (c->report)
        yezsdolak_report(c->system, c->system_bytes, c->text, sizeof c->text);
    else if (c->panel && yezsdolak_panel_check(c->system, c->system_bytes, c->certificate, c->certificate_bytes) != 0)
        fail("the panel refuses a right certificate");
    return NULL;
}

// the bytes of stack that a thread uses which makes this call
static size_t bytes_used(struct call *c, uint8_t *space)
{
    pthread_attr_t attributes;
    pthread_t thread;
    memset(space, PATTERN, SPACE);
    if (pthread_attr_init(&attributes) != 0 || pthread_attr_setstack(&attributes, space, SPACE) != 0 ||
        pthread_create(&thread, &attributes, run, c) != 0 || pthread_join(thread, NULL) != 0)
        fail("no thread");
    pthread_attr_destroy(&attributes);
    size_t free_bytes = 0;
    while (free_bytes < SPACE && space[free_bytes] == PATTERN)
        free_bytes++;
    return SPACE - free_bytes;
}

// what the call uses more than a thread does that does nothing
static size_t used_by(struct call *c, uint8_t *space)
{
    struct call nothing = {.solve = NULL};
    size_t all = bytes_used(c, space), idle = bytes_used(&nothing, space);
    return all > idle ? all - idle : 0;
}

static void raise_to(size_t *most, size_t used)
{
    *most = used > *most ? used : *most;
}

static void measure_checks(struct call *c, uint8_t *space, size_t most[CALLS][CONTESTANTS])
{
    c->solve = NULL, c->report = false;
    for (int k = 0; k < CONTESTANTS; k++) {
        c->check = checks[k];
        raise_to(&most[CHECK][k], checks[k] != NULL ? used_by(c, space) : 0);
    }
}

static void measure(struct call *c, uint8_t *space, size_t most[CALLS][CONTESTANTS])
{
    c->report = false;
    for (int k = CONTESTANTS; k-- > 0;) { // ours comes last: its certificate is what is checked
        c->solve = solvers[k], c->check = NULL;
        raise_to(&most[SOLVE][k], solvers[k] != NULL ? used_by(c, space) : 0);
    }
    measure_checks(c, space, most);
    c->check = NULL, c->report = true;
    raise_to(&most[REPORT][OURS], used_by(c, space));
}

// the panel's check on a system as large as it takes, 4 x 4 of 8 coefficients, whose certificate is as large too
static void measure_panel(struct call *c, uint8_t *space, size_t *most)
{
    static uint64_t sizes[YEZSDOLAK_POLYNOMIALS], coefficients[YEZSDOLAK_POLYNOMIALS * YEZSDOLAK_COEFFICIENTS];
    for (uint64_t k = 0; k < 4 * 4 + 4; k++) {
        sizes[k] = 8;
        for (uint64_t j = 0; j < 8; j++)
            coefficients[YEZSDOLAK_COEFFICIENTS * k + j] = 1 + (8 * k + j + 1) * (8 * k + j + 1) * 7919 % 65520;
    }
    uint64_t written = yezsdolak_write_system(65521, 4, 4, 1, sizes, coefficients, c->system, sizeof c->system);
    c->system_bytes = (size_t)yezsdolak_count(written);
    uint64_t solved = yezsdolak_solve(c->system, c->system_bytes, 0, c->certificate, sizeof c->certificate);
    c->certificate_bytes = (size_t)yezsdolak_count(solved);
    if (c->system_bytes != YEZSDOLAK_PANEL_SYSTEM_BYTES || c->certificate_bytes + 4 * 4 < YEZSDOLAK_PANEL_CERTIFICATE_BYTES)
        fail("the panel's system or certificate is smaller than it could be");
    c->solve = NULL, c->check = NULL, c->report = false, c->panel = true;
    raise_to(most, used_by(c, space));
}

// the number of bytes of the file, 0 where there is none
static size_t load(uint8_t *bytes, size_t limit, const char *stem, const char *ending)
{
    char path[4112];
    snprintf(path, sizeof path, "%s%s", stem, ending);
    FILE *file = fopen(path, "rb");
    if (file == NULL)
        return 0;
    size_t count = fread(bytes, 1, limit, file);
    fclose(file);
    return count;
}

static void print_row(const char *name, const size_t most[CONTESTANTS])
{
    printf("%-10s", name);
    for (int k = 0; k < CONTESTANTS; k++)
        if (most[k] > 0)
            printf("%10zu", (most[k] + KIB - 1) / KIB);
        else
            printf("%10s", "-");
    if (most[C] > 0)
        printf("%11.2f\n", (double)most[OURS] / (double)most[C]);
    else
        printf("%11s\n", "-");
}

int main(int count, char **words)
{
    static struct call c;
    size_t most[CALLS][CONTESTANTS] = {{0}};
    uint8_t *space = mmap(NULL, SPACE, PROT_READ | PROT_WRITE, MAP_PRIVATE | MAP_ANONYMOUS, -1, 0);
    DIR *folder = count == 2 ? opendir(words[1]) : NULL;
    if (folder == NULL || space == MAP_FAILED)
        fail("usage: stack FOLDER");
    for (struct dirent *entry; (entry = readdir(folder)) != NULL;) {
        char stem[4096];
        const char *ending = strstr(entry->d_name, ".system");
        if (ending == NULL)
            continue;
        snprintf(stem, sizeof stem, "%s/%.*s", words[1], (int)(ending - entry->d_name), entry->d_name);
        c.system_bytes = load(c.system, sizeof c.system, stem, ".system");
        measure(&c, space, most);
        c.certificate_bytes = load(c.certificate, sizeof c.certificate, stem, ".certificate");
        if (c.certificate_bytes > 0) // the largest, which is not the chosen one
            measure_checks(&c, space, most);
    }
    closedir(folder);
    measure_panel(&c, space, &most[PANEL][OURS]);
    printf("\nThe stack of a call, KiB\n\n%-10s%10s%10s%10s%11s\n", "call", "ours", "C", "shared", "ours/C");
    bool within = true;
    for (int call = 0; call < CALLS; call++) {
        print_row(names[call], most[call]);
        within = within && most[call][OURS] <= (size_t)LIMIT * KIB;
    }
    return within ? 0 : 1;
}
