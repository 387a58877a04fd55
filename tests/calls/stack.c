// That the stack which the header says is more than a tenth above what a call uses: each call runs in a thread whose stack is filled
// with a pattern; what is no longer the pattern was used. Some systems are the office's largest, with as many right sides as may be, of
// which the last is solved, and one is the solver's worst; some are the panel's largest, and its check accepts only these.
#include <pthread.h>
#include <stdbool.h>
#include <stdio.h>
#include <stdlib.h>
#include <string.h>
#include <sys/mman.h>
#include "yezsdolak.h"

enum { SPACE = 2 << 20, PATTERN = 0xA5, PRIME = 65521, PANEL_COEFFICIENTS = 8 };

static uint64_t sizes[YEZSDOLAK_POLYNOMIALS], coefficients[YEZSDOLAK_POLYNOMIALS * YEZSDOLAK_COEFFICIENTS];
static uint64_t polynomial[YEZSDOLAK_MOST_COEFFICIENTS];
static uint8_t sheet[YEZSDOLAK_SYSTEM_BYTES], card[YEZSDOLAK_CERTIFICATE_BYTES], text[YEZSDOLAK_REPORT_BYTES];
static size_t sheet_bytes, card_bytes;
static uint32_t rows, columns, sides;

static void nothing(void) {}
static void version(void) { yezsdolak_version(); }
static void write_system(void)
{
    sheet_bytes = (size_t)yezsdolak_count(yezsdolak_write_system(PRIME, rows, columns, sides, sizes, coefficients, sheet, sizeof sheet));
}
static void shape(void) { yezsdolak_shape(sheet, sheet_bytes); }
static void solve(void) { card_bytes = (size_t)yezsdolak_count(yezsdolak_solve(sheet, sheet_bytes, sides - 1, card, sizeof card)); }
static void check(void) { yezsdolak_check(sheet, sheet_bytes, sides - 1, card, card_bytes); }
static void panel_check(void) { yezsdolak_panel_check(sheet, sheet_bytes, card, card_bytes); }
static void report(void) { yezsdolak_report(sheet, sheet_bytes, text, sizeof text); }
static void kind(void) { yezsdolak_kind(sheet, sheet_bytes, card, card_bytes); }
static void lookup(void) { yezsdolak_lookup(sheet, sheet_bytes, card, card_bytes, YEZSDOLAK_OF_CERTIFICATE, 0, polynomial); }

static struct {
    const char *name;
    void (*call)(void);
    size_t limit, used;
} calls[] = {
    {"version", version, YEZSDOLAK_CHECK_STACK, 0}, {"write_system", write_system, YEZSDOLAK_CHECK_STACK, 0},
    {"shape", shape, YEZSDOLAK_CHECK_STACK, 0},     {"solve", solve, YEZSDOLAK_SOLVE_STACK, 0},
    {"check", check, YEZSDOLAK_CHECK_STACK, 0},     {"report", report, YEZSDOLAK_SOLVE_STACK, 0},
    {"kind", kind, YEZSDOLAK_CHECK_STACK, 0},       {"lookup", lookup, YEZSDOLAK_CHECK_STACK, 0},
    {"panel_check", panel_check, YEZSDOLAK_PANEL_STACK, 0},
};

enum { CALLS = sizeof calls / sizeof calls[0] };

static void (*to_call)(void);

static void *run(void *unused)
{
    to_call();
    return unused;
}

// The bytes of stack that a thread uses which makes this call.
static size_t bytes_used(void (*call)(void), uint8_t *space)
{
    pthread_attr_t attributes;
    pthread_t thread;
    size_t free_bytes = 0;
    to_call = call;
    memset(space, PATTERN, SPACE);
    if (pthread_attr_init(&attributes) != 0 || pthread_attr_setstack(&attributes, space, SPACE) != 0
        || pthread_create(&thread, &attributes, run, NULL) != 0 || pthread_join(thread, NULL) != 0) {
        fputs("stack: no thread\n", stderr);
        exit(2);
    }
    pthread_attr_destroy(&attributes);
    while (free_bytes < SPACE && space[free_bytes] == PATTERN)
        free_bytes++;
    return SPACE - free_bytes;
}

// What a system is like: all coefficients drawn; all rows of A the same, so that there is no solution; A a multiple of x, so that there
// is a denominator; A one row of powers of x, each lower than the one before, and b = 1: no system takes the solver deeper.
enum form { DRAWN, EQUAL_ROWS, MULTIPLE_OF_X, FALLING };

static uint64_t draw(void)
{
    static uint64_t state = 20030610;
    state = state * 6364136223846793005 + 1442695040888963407;
    return 1 + (state >> 33) % (PRIME - 1);
}

// The longest polynomials have `size` coefficients.
static void make_system(uint32_t n, uint32_t m, uint32_t of_sides, size_t size, enum form form)
{
    rows = n, columns = m, sides = of_sides;
    for (size_t k = 0; k < n * m + n * sides; k++) {
        uint64_t *f = coefficients + YEZSDOLAK_COEFFICIENTS * k;
        sizes[k] = form == FALLING ? k < m ? size - k : 1 : size;
        for (size_t j = 0; j < size; j++)
            f[j] = form == FALLING ? j + 1 == sizes[k] : draw();
        if (k < n * m && form == MULTIPLE_OF_X)
            f[0] = 0;
        if (k < n * m && k >= m && form == EQUAL_ROWS)
            memcpy(f, f - YEZSDOLAK_COEFFICIENTS * m, YEZSDOLAK_COEFFICIENTS * sizeof *f);
    }
}

// Whether the certificate is right, and what the panel's check says of it is due.
static bool judged(bool for_panel)
{
    return sheet_bytes > 0 && card_bytes > 0 && yezsdolak_check(sheet, sheet_bytes, sides - 1, card, card_bytes) == 0
        && yezsdolak_panel_check(sheet, sheet_bytes, card, card_bytes) == (for_panel ? 0 : YEZSDOLAK_BEYOND_PANEL);
}

int main(void)
{
    static const struct {
        uint32_t rows, columns;
        enum form form;
        bool for_panel;
    } systems[] = {{8, 8, DRAWN, false}, {8, 8, EQUAL_ROWS, false}, {4, 8, MULTIPLE_OF_X, false}, {1, 8, FALLING, false},
                   {4, 4, DRAWN, true},  {4, 4, EQUAL_ROWS, true},  {4, 4, MULTIPLE_OF_X, true},  {1, 4, FALLING, true}};
    uint8_t *space = mmap(NULL, SPACE, PROT_READ | PROT_WRITE, MAP_PRIVATE | MAP_ANONYMOUS, -1, 0);
    int status = 0;
    if (space == MAP_FAILED)
        return 2;
    size_t idle = bytes_used(nothing, space);
    for (size_t i = 0; i < sizeof systems / sizeof systems[0]; i++) {
        make_system(systems[i].rows, systems[i].columns, systems[i].for_panel ? 1 : YEZSDOLAK_SIDES,
                    systems[i].for_panel ? PANEL_COEFFICIENTS : YEZSDOLAK_COEFFICIENTS, systems[i].form);
        for (size_t c = 0; c < CALLS; c++) {
            size_t used = bytes_used(calls[c].call, space);
            used = used > idle ? used - idle : 0;
            if (used > calls[c].used)
                calls[c].used = used;
        }
        if (!judged(systems[i].for_panel)) {
            fprintf(stderr, "stack: system %zu: another verdict than is due\n", i);
            status = 1;
        }
    }
    for (size_t c = 0; c < CALLS; c++) {
        printf("%-14s%4zu of %zu KiB of stack\n", calls[c].name, (calls[c].used + 1023) / 1024, calls[c].limit / 1024);
        if (11 * calls[c].used >= 10 * calls[c].limit) {
            fprintf(stderr, "stack: %s: not more than a tenth is left\n", calls[c].name);
            status = 1;
        }
    }
    return status;
}
