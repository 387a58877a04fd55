// The panel's check: a system and the chosen certificate of its first right side, as they are and then changed. Most keep the panel's
// limits or exceed one of them; many are right for the office. What the limits say is read off the words a second time.
#include "panel.h"
#include <stdio.h>
#include <stdlib.h>
#include <string.h>
#include "compare.h"
#include "damage.h"
#include "extension.h"
#include "samples.h"
#include "sides.h"
#include "variants.h"

enum { PART = 4 };           // of the draws, behind those of columns.c
enum { LONGEST_EVERY = 50 }; // one of so many cases has the longest system and certificate of the panel
enum { ENOUGH = 10000 };     // in so many cases each number, and each limit from both sides, must come
enum { NUMBERS = 64, BEYOND = 41 };

// What is limited, by its place in the arrays below.
enum { ROWS, COLUMNS, RIGHT_SIDES, SYSTEM_POLYNOMIALS, CERTIFICATE_POLYNOMIALS, LIMITS };

static const struct {
    const char *name;
    uint32_t most;
} limits[LIMITS] = {
    {"rows",                         PANEL_MOST            },
    {"columns",                      PANEL_MOST            },
    {"right sides",                  PANEL_SIDES           },
    {"coefficients",                 PANEL_SYSTEM_SIZE     },
    {"coefficients of certificates", PANEL_CERTIFICATE_SIZE}
};

struct tally {
    uint64_t refused[NUMBERS];               // by number, 0: accepted
    uint64_t beyond[2];                      // 41, by place
    uint64_t for_office;                     // of these: what the office accepts
    uint64_t at_most[LIMITS], above[LIMITS]; // accepted with just as many; accepted by the office, but not with this one more
    uint64_t longest;                        // accepted, system and certificate with as many words as any
};

static struct system drawn;
static struct certificate chosen;
static struct file given, written;

// the largest number of coefficients that a start word says
static uint32_t largest(const struct file *f)
{
    uint32_t size = 0;
    for (size_t i = 0; i < f->count / 4; i++)
        if (word_at(f, i) >> 28 == START && (word_at(f, i) & 0x0FFFFFFF) > size)
            size = word_at(f, i) & 0x0FFFFFFF;
    return size;
}

// how far a pair that the office accepts goes
static void measure(uint32_t extent[LIMITS])
{
    uint32_t head = word_at(&given, 0);
    extent[ROWS] = head >> 16 & 0xF;
    extent[COLUMNS] = head >> 20 & 0xF;
    extent[RIGHT_SIDES] = (head >> 24 & 0xF) + 1;
    extent[SYSTEM_POLYNOMIALS] = largest(&given);
    extent[CERTIFICATE_POLYNOMIALS] = largest(&written);
}

// counts a pair that the office accepts; whether it keeps the limits
static bool count_limits(struct tally *t)
{
    uint32_t extent[LIMITS], exceeded = 0;
    measure(extent);
    for (uint32_t i = 0; i < LIMITS; i++)
        exceeded += extent[i] > limits[i].most;
    for (uint32_t i = 0; i < LIMITS; i++) {
        t->at_most[i] += exceeded == 0 && extent[i] == limits[i].most;
        t->above[i] += exceeded == 1 && extent[i] == limits[i].most + 1;
    }
    t->longest += exceeded == 0 && given.count == 4 * PANEL_LONGEST_SYSTEM && written.count == 4 * PANEL_LONGEST_CERTIFICATE;
    return exceeded == 0 && written.count <= 4 * PANEL_LONGEST_CERTIFICATE;
}

// both checks; the panel accepts exactly what the office accepts and the limits allow
static void try_pair(struct draws *g, struct tally *t)
{
    bool office = compare_check(g).number == 0, allowed = office && count_limits(t);
    struct refusal r = compare_panel(g);
    if ((r.number == 0) != allowed) {
        fprintf(stderr, "panel, case %lu: %u at %u, but the office %s and the limits %s it\n", (unsigned long)trial.number, r.number,
                r.place, office ? "accepts" : "refuses", allowed ? "allow" : "forbid");
        exit(1);
    }
    t->refused[r.number]++;
    if (r.number == BEYOND) {
        t->beyond[r.place]++;
        t->for_office += office;
    }
}

// at the panel's limit, just beyond, far beyond, or mostly below
static uint32_t draw_extent(struct draws *g, uint32_t most, uint32_t of_office)
{
    uint32_t part = below(g, 100);
    return part < 30 ? most : part < 37 ? most + 1 : part < 40 ? between(g, most + 1, of_office) : between(g, 1, most);
}

static void draw_system_about(struct draws *g)
{
    drawn.p = draw_prime(g);
    drawn.n = draw_extent(g, PANEL_MOST, MOST);
    drawn.m = draw_extent(g, PANEL_MOST, MOST);
    drawn.sides = draw_extent(g, PANEL_SIDES, SIDES);
    uint32_t size = draw_extent(g, PANEL_SYSTEM_SIZE, SYSTEM_SIZE), degree = below(g, size);
    draw_entries(g, &drawn, chance(g, 50) ? size - 1 : degree, size - 1);
}

// 4 x 4, all polynomials of 8 coefficients: d has mostly 29
static void draw_longest_system(struct draws *g)
{
    drawn.p = draw_prime(g);
    drawn.n = drawn.m = PANEL_MOST;
    drawn.sides = PANEL_SIDES;
    for (uint32_t i = 0; i < drawn.n; i++) {
        for (uint32_t j = 0; j < drawn.m; j++)
            draw_sized(g, drawn.p, &drawn.a[i][j], PANEL_SYSTEM_SIZE);
        draw_sized(g, drawn.p, &drawn.b[0][i], PANEL_SYSTEM_SIZE);
    }
}

static uint32_t longest_of(const struct polynomial *f, uint32_t count)
{
    uint32_t size = 0;
    for (uint32_t i = 0; i < count; i++)
        size = f[i].size > size ? f[i].size : size;
    return size;
}

// f times g, each
static void multiply(struct polynomial *f, uint32_t count, const struct polynomial *g)
{
    static struct polynomial product;
    for (uint32_t i = 0; i < count; i++) {
        set_product(drawn.p, &product, &f[i], g);
        exchange(&f[i], &product);
    }
}

// right again: w and Z, or q, times a monic factor, so that the longest has this size
static void grow_rows(struct draws *g, uint32_t size)
{
    static struct polynomial factor;
    uint32_t longest = longest_of(chosen.row, drawn.n);
    if (chosen.kind == SOLUTION && chosen.w.size > longest)
        longest = chosen.w.size;
    if (longest == 0 || longest > size)
        return;
    draw_sized(g, drawn.p, &factor, size - longest + 1);
    make_monic(drawn.p, &factor);
    multiply(chosen.row, drawn.n, &factor);
    multiply(&chosen.w, chosen.kind == SOLUTION, &factor);
}

// right again: Z plus multiples of w, all of this size
static void lengthen_to(struct draws *g, uint32_t size)
{
    static struct polynomial factor;
    for (uint32_t i = 0; chosen.kind == SOLUTION && chosen.w.size <= size && i < drawn.n; i++) {
        draw_sized(g, drawn.p, &factor, size - chosen.w.size + 1);
        add_product(drawn.p, &chosen.row[i], &factor, &chosen.w);
    }
}

// right again: N plus a multiple of a vector v with A·v = 0, so that the longest has this size
static void grow_numerators(struct draws *g, uint32_t size)
{
    static struct polynomial v[MOST][MOST], factor;
    uint32_t count = chosen.kind == SOLUTION ? kernel(&drawn, v) : 0, k = count == 0 ? 0 : below(g, count);
    uint32_t longest = count == 0 ? 0 : longest_of(v[k], drawn.m);
    if (longest == 0 || longest > size || longest_of(chosen.numerator, drawn.m) >= size)
        return;
    draw_sized(g, drawn.p, &factor, size - longest + 1);
    for (uint32_t j = 0; j < drawn.m; j++)
        add_product(drawn.p, &chosen.numerator[j], &factor, &v[k][j]);
}

// a polynomial of the certificate, each as often
static struct polynomial *draw_part(struct draws *g)
{
    uint32_t number = below(g, chosen.kind == SOLUTION ? drawn.n + drawn.m + 2 : drawn.n);
    if (number < drawn.n)
        return &chosen.row[number];
    if (number < drawn.n + drawn.m)
        return &chosen.numerator[number - drawn.n];
    return number == drawn.n + drawn.m ? &chosen.d : &chosen.w;
}

// mostly wrong: any polynomial of this size in place of another
static void set_part(struct draws *g, uint32_t size)
{
    struct polynomial *f = draw_part(g);
    draw_sized(g, drawn.p, f, size);
    if (chance(g, 50))
        make_monic(drawn.p, f);
}

// around the limits of panel and office
static uint32_t draw_size(struct draws *g)
{
    static const uint32_t steps[] = {0, 1, 1, 1, 2, 2, 2, 3};
    uint32_t step = steps[below(g, 8)];
    return (chance(g, 85) ? PANEL_CERTIFICATE_SIZE : CERTIFICATE_SIZE) - 1 + step;
}

static void grow_certificate(struct draws *g)
{
    static void (*const ways[])(struct draws *, uint32_t) = {grow_rows, grow_rows, lengthen_to, grow_numerators, set_part};
    uint32_t way = below(g, 5);
    ways[way](g, draw_size(g));
    write_certificate(&written, &drawn, &chosen);
}

// one polynomial of A, or of a right side, of a size around the limits
static void change_system_size(struct draws *g)
{
    static const uint32_t sizes[] = {7, 8, 9, 15, 16, 17};
    uint32_t i = below(g, drawn.n), j = below(g, drawn.m + drawn.sides), size = sizes[below(g, 6)];
    draw_sized(g, drawn.p, j < drawn.m ? &drawn.a[i][j] : &drawn.b[j - drawn.m][i], size);
    write_system(&given, &drawn);
}

static void change_shape(struct draws *g)
{
    if (chance(g, 40))
        change_sides(g, &drawn, 0);
    else
        extend(g, &drawn, &written);
    write_system(&given, &drawn);
}

// bytes are cut off or put behind: a few, up to around the longest files, or up to as many as there is room for
static void change_length(struct draws *g, struct file *f)
{
    static const size_t around[] = {4 * LONGEST_SYSTEM, 4 * LONGEST_CERTIFICATE, 1u << 16, FILE_ROOM - 8};
    size_t from = f->count, few = between(g, 1, 3), words = 4 * (size_t)between(g, 1, 3), way = below(g, 6);
    size_t far = around[below(g, 4)] + 4 - 4 * below(g, 3) + (chance(g, 20) ? below(g, 4) : 0);
    size_t to = way == 0 ? from - (few < from ? few : from) : way < 3 ? from + few : way < 4 ? from + words : far;
    uint8_t fill = chance(g, 70) ? 0 : (uint8_t)draw(g);
    if (to > FILE_ROOM)
        return;
    if (to > from)
        memset(f->byte + from, fill, to - from);
    f->count = to;
}

static void damage_pair(struct draws *g)
{
    uint32_t part = below(g, 10);
    if (part < 6)
        damage(g, &given, drawn.p);
    if (part > 4)
        damage(g, &written, drawn.p);
}

static void change_lengths(struct draws *g)
{
    uint32_t part = below(g, 10);
    if (part < 6)
        change_length(g, &given);
    if (part > 4)
        change_length(g, &written);
}

// a variant of the certificate in its place
static void vary_certificate(struct draws *g)
{
    static struct file before;
    before = written;
    vary(g, &drawn, &before, &written);
    if (read_certificate(&chosen, &drawn, &written).number == 0 && chance(g, 30))
        grow_certificate(g);
}

static void change_pair(struct draws *g)
{
    static const struct {
        uint32_t percent;
        void (*change)(struct draws *);
    } changes[] = {
        {35,  grow_certificate  },
        {60,  vary_certificate  },
        {68,  change_system_size},
        {78,  change_shape      },
        {92,  damage_pair       },
        {100, change_lengths    }
    };
    uint32_t part = below(g, 100), k = 0;
    while (part >= changes[k].percent)
        k++;
    changes[k].change(g);
    if (chance(g, 8))
        damage_pair(g);
    if (chance(g, 4))
        change_lengths(g);
}

// The certificate of the first right side; of another one where there are several, sometimes.
static void write_pair(struct draws *g)
{
    uint32_t side = drawn.sides > 1 && chance(g, 20) ? below(g, drawn.sides) : 0;
    choose_certificate(&drawn, side, &chosen);
    write_system(&given, &drawn);
    write_certificate(&written, &drawn, &chosen);
}

static void try_case(struct draws *g, struct tally *t, bool longest)
{
    (longest ? draw_longest_system : draw_system_about)(g);
    write_pair(g);
    if (longest) {
        lengthen_to(g, PANEL_CERTIFICATE_SIZE);
        write_certificate(&written, &drawn, &chosen);
    }
    try_pair(g, t);
    change_pair(g);
    try_pair(g, t);
}

static void print_tally(uint64_t count, const struct tally *t)
{
    printf("panel: %lu agree, twice each; passed %lu, refused (number: count)", (unsigned long)count, (unsigned long)t->refused[0]);
    for (uint32_t i = 1; i < NUMBERS; i++)
        if (t->refused[i] != 0)
            printf(" %u: %lu", i, (unsigned long)t->refused[i]);
    printf("; 41 at 0: %lu, at 1: %lu, of these right for the office %lu; limits (kept just: exceeded by one)",
           (unsigned long)t->beyond[0], (unsigned long)t->beyond[1], (unsigned long)t->for_office);
    for (uint32_t i = 0; i < LIMITS; i++)
        printf("%s %s %lu: %lu", i == 0 ? "" : ",", limits[i].name, (unsigned long)t->at_most[i], (unsigned long)t->above[i]);
    printf("; of %u and %u words %lu\n", PANEL_LONGEST_SYSTEM, PANEL_LONGEST_CERTIFICATE, (unsigned long)t->longest);
    fflush(stdout);
}

static void expect_some(uint64_t count, const char *what, uint32_t of)
{
    if (count != 0)
        return;
    fprintf(stderr, "panel: no case has %s %u\n", what, of);
    exit(1);
}

static void expect_all(const struct tally *t)
{
    for (uint32_t i = 0; i <= BEYOND; i++)
        if (i <= 10 || i == 21 || (24 <= i && i <= 29) || (31 <= i && i <= 36))
            expect_some(t->refused[i], "number", i);
    for (uint32_t place = 0; place < 2; place++)
        expect_some(t->beyond[place], "41 at", place);
    for (uint32_t i = 0; i < LIMITS; i++) {
        expect_some(t->at_most[i], limits[i].name, limits[i].most);
        expect_some(t->above[i], limits[i].name, limits[i].most + 1);
    }
    expect_some(t->longest, "a certificate of words", PANEL_LONGEST_CERTIFICATE);
}

void try_all_panel(uint64_t count, uint64_t seed)
{
    struct tally t = {0};
    for (uint64_t i = 0; i < count; i++) {
        struct draws g = draws_of(seed, PART, i);
        trial = (struct trial){"panel", i, seed, 0, &given, &written, NULL};
        try_case(&g, &t, i % LONGEST_EVERY == 0);
    }
    print_tally(count, &t);
    if (count >= ENOUGH)
        expect_all(&t);
}
