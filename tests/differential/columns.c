// Number 33 alone: of a planted certificate w divides Z·A in every column. It stays right where multiples of w are added to Z; one
// coefficient of A can make its own column wrong and no other; one of Z any.
#include "columns.h"
#include <stdio.h>
#include <stdlib.h>
#include "compare.h"
#include "planted.h"
#include "samples.h"
#include "variants.h"

enum { PART = 3 };           // of the draws, behind those of main.c
enum { LONGEST_EVERY = 50 }; // one of so many is planted with the longest polynomials
enum { ENOUGH = 1000 };      // in so many each place must come
enum { NONE = 0, ANY = (1 << MOST) - 1 };

struct tally {
    uint64_t accepted, longer; // longer: with a row of Z that has more coefficients than w
    uint64_t wrong[MOST];      // 33, by place
};

static struct system drawn;
static struct certificate planted;
static struct file given, written;

static bool has_longer(void)
{
    for (uint32_t i = 0; i < drawn.n; i++)
        if (planted.row[i].size > planted.w.size)
            return true;
    return false;
}

// the check on what is there now; columns: a bit for each that may be wrong
static void try_check(struct draws *g, struct tally *t, uint32_t columns)
{
    write_system(&given, &drawn);
    write_certificate(&written, &drawn, &planted);
    struct refusal r = compare_check(g);
    if (r.number != 0 && (r.number != 33 || (columns >> r.place & 1) == 0)) {
        fprintf(stderr, "columns, case %lu: %u at %u is not as planted\n", (unsigned long)trial.number, r.number, r.place);
        exit(1);
    }
    if (r.number == 33)
        t->wrong[r.place]++;
    else
        t->accepted++;
    t->longer += r.number == 0 && has_longer();
}

// below count; the first and the last more often
static uint32_t draw_end(struct draws *g, uint32_t count)
{
    uint32_t place = below(g, count), end = below(g, 4);
    return end == 0 ? 0 : end == 1 ? count - 1 : place;
}

// one coefficient of A becomes another; the bit of its column
static uint32_t change_entry(struct draws *g)
{
    uint32_t i = draw_end(g, drawn.n), j = draw_end(g, drawn.m);
    disturb(g, drawn.p, &drawn.a[i][j], SYSTEM_SIZE - 1);
    return 1u << j;
}

// the check with one row of Z changed, which then is as it was
static void try_row(struct draws *g, struct tally *t)
{
    static struct polynomial before;
    uint32_t i = draw_end(g, drawn.n);
    copy(&before, &planted.row[i]);
    disturb(g, drawn.p, &planted.row[i], CERTIFICATE_SIZE - 1);
    try_check(g, t, ANY);
    exchange(&before, &planted.row[i]);
}

// the largest sums: all coefficients of A are p - 1
static void set_highest(struct draws *g)
{
    for (uint32_t i = 0; i < drawn.n; i++)
        for (uint32_t j = 0; j < drawn.m; j++)
            draw_polynomial(g, drawn.p, &drawn.a[i][j], SYSTEM_SIZE - 1, HIGHEST);
}

static void try_columns(struct draws *g, struct tally *t, bool longest)
{
    (longest ? plant_longest : plant)(g, &drawn, &planted);
    try_check(g, t, NONE);
    try_row(g, t);
    if (longest && chance(g, 50)) {
        set_highest(g);
        try_check(g, t, ANY);
        return;
    }
    lengthen_rows(g, &drawn, &planted);
    try_check(g, t, NONE);
    try_row(g, t);
    uint32_t changed = change_entry(g);
    try_check(g, t, changed);
    changed |= change_entry(g);
    try_check(g, t, changed);
}

static void print_tally(uint64_t count, const struct tally *t)
{
    printf("columns: %lu planted agree; check passed %lu, of these with a row longer than w %lu, refused 33 (place: count)",
           (unsigned long)count, (unsigned long)t->accepted, (unsigned long)t->longer);
    for (uint32_t j = 0; j < MOST; j++)
        printf(" %u: %lu", j, (unsigned long)t->wrong[j]);
    putchar('\n');
    fflush(stdout);
}

void try_all_columns(uint64_t count, uint64_t seed)
{
    struct tally t = {0};
    for (uint64_t i = 0; i < count; i++) {
        struct draws g = draws_of(seed, PART, i);
        trial = (struct trial){"columns", i, seed, 0, &given, &written, NULL};
        try_columns(&g, &t, i % LONGEST_EVERY == 0);
    }
    print_tally(count, &t);
    for (uint32_t j = 0; count >= ENOUGH && j < MOST; j++)
        if (t.wrong[j] == 0 || t.longer == 0) {
            fprintf(stderr, "columns: no case has 33 at %u, or none a longer row\n", j);
            exit(1);
        }
}
