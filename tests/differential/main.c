// Compares the product with the reference: differential SYSTEMS DAMAGED SEED.
#include <stdio.h>
#include <stdlib.h>
#include "columns.h"
#include "compare.h"
#include "damage.h"
#include "extension.h"
#include "panel.h"
#include "samples.h"
#include "sides.h"
#include "variants.h"

enum part { SYSTEMS = 1, DAMAGED };

enum { NUMBERS = 64, NO_SUCH_SIDE = 40 };
enum { LONGEST_EVERY = 500 }; // one of so many cases has the longest system
enum { ENOUGH = 10000 };      // in so many damaged cases each number must come that may come, in so many systems each kind of report
enum { RARE = 50 };           // one of so many reports at least
enum { COLUMNS_EVERY = 5 };   // one case of the columns to so many damaged

struct tally {
    uint64_t several, longest;               // systems with several right sides, with as many words as any has
    uint64_t solutions, fractions, none;     // right sides; fractions: whose least denominator is not 1
    uint32_t degree;                         // the greatest of a least denominator
    uint64_t feedback, delay, both;          // reports: with feedback alone, with delay alone, with both
    uint64_t solve[NUMBERS], check[NUMBERS]; // by number of the refusal
    uint64_t before[NUMBERS];                // for right sides that no system has: by the number that came before 40
    uint64_t hidden[NUMBERS];                // of 40: by the number that would have come without it, 0 for none
};

static struct system drawn;
static struct file given, solved, changed; // the system; the solver's certificate; the certificate to check

static void draw_case(struct draws *g, const char *part, uint64_t number, uint64_t seed)
{
    trial = (struct trial){part, number, seed, 0, &given, NULL, NULL};
    if (number % LONGEST_EVERY == 0)
        draw_longest(g, &drawn);
    else
        draw_system(g, &drawn);
    write_system(&given, &drawn);
}

static void count_answer(struct tally *t, const struct answer *a)
{
    if (a->kind == ABSENCE) {
        t->none++;
        return;
    }
    t->solutions++;
    t->fractions += a->d.size > 1;
    if (t->degree < a->d.size - 1)
        t->degree = a->d.size - 1;
}

static void count_report(struct tally *t, const struct answer *a)
{
    if (a->kind == ABSENCE)
        return;
    t->feedback += a->feedback > 0 && a->delay == 0;
    t->delay += a->feedback == 0 && a->delay > 0;
    t->both += a->feedback > 0 && a->delay > 0;
}

// the drawn system with its columns in another order
static void try_shuffled(struct draws *g, const struct answer *a)
{
    for (uint32_t j = drawn.m - 1; j > 0; j--) {
        uint32_t k = below(g, j + 1);
        for (uint32_t i = 0; k != j && i < drawn.n; i++)
            exchange(&drawn.a[i][j], &drawn.a[i][k]);
    }
    write_system(&given, &drawn);
    compare_solve(g, a, 4 * LONGEST_CERTIFICATE, &changed);
    compare_chosen(&changed);
    compare_but_numerators(&drawn, &solved, &changed);
}

// solver and check for the right side that is meant
static void try_side(struct draws *g, struct tally *t, struct answer *a)
{
    answer_to(a, &given, trial.side);
    if (a->refusal.number != 0) {
        fprintf(stderr, "a drawn system is refused: %u at %u\n", a->refusal.number, a->refusal.place);
        exit(2);
    }
    compare_solve(g, a, 4 * LONGEST_CERTIFICATE + (chance(g, 50) ? 0 : below(g, 300)), &solved);
    compare_chosen(&solved);
    if (drawn.sides > 1)
        compare_single(g, &solved);
    compare_check(g);
    count_answer(t, a);
}

// one of the systems: each right side, from the last to the first; the report; the solver again with the columns in another order
static void try_system(struct draws *g, struct tally *t)
{
    static struct answer a;
    for (uint32_t side = drawn.sides; side-- > 0;) {
        trial.side = side;
        try_side(g, t, &a);
    }
    compare_report(g, &a, REPORT_ROOM + (chance(g, 50) ? 0 : below(g, 300)));
    count_report(t, &a);
    t->several += drawn.sides > 1;
    t->longest += given.count == 4 * LONGEST_SYSTEM;
    if (drawn.m > 1)
        try_shuffled(g, &a);
}

// just enough, more, or too little
static size_t draw_lent(struct draws *g, uint32_t least)
{
    if (chance(g, 10))
        return chance(g, 30) ? least - 1 : below(g, least);
    return least + (chance(g, 50) ? 0 : below(g, 300));
}

// changes the system, a copy of the solver's certificate, or both
static void change_case(struct draws *g)
{
    uint32_t change = below(g, 100), p = drawn.p;
    changed = solved;
    if (change < 30)
        vary(g, &drawn, &solved, &changed);
    else if (change < 50)
        damage(g, &changed, p);
    else if (change < 60)
        change_value(g, &given, p);
    else if (change < 82)
        damage(g, &given, p);
    else if (change < 92) {
        change_sides(g, &drawn, (uint32_t)trial.side);
        write_system(&given, &drawn);
    } else if (extend(g, &drawn, &changed))
        write_system(&given, &drawn);
    if (chance(g, 5))
        damage(g, &changed, p);
}

// a case for damage, with some preference for denominators
static void draw_sound(struct draws *g, struct answer *a, uint64_t number, uint64_t seed)
{
    uint32_t draws_left = 3;
    do {
        draw_case(g, "damaged", number, seed);
        trial.side = below(g, drawn.sides);
        answer_to(a, &given, trial.side);
    } while (draws_left-- > 0 && a->kind == SOLUTION && a->d.size == 1);
}

// the check; where it is 40, also what it would be for the first right side
static void try_check(struct draws *g, struct tally *t)
{
    trial.certificate = &changed;
    uint32_t number = compare_check(g).number;
    t->check[number]++;
    if (number == NO_SUCH_SIDE)
        t->hidden[check_files(&given, 0, &changed).number]++;
    else if (trial.side >= SIDES)
        t->before[number]++;
    trial.certificate = NULL;
}

static void try_solve(struct draws *g, struct tally *t, struct answer *a)
{
    size_t lent = draw_lent(g, 4 * LONGEST_CERTIFICATE);
    answer_to(a, &given, trial.side);
    uint32_t number = compare_solve(g, a, lent, &solved).number;
    t->solve[number]++;
    if (number == NO_SUCH_SIDE && lent < 4 * LONGEST_CERTIFICATE)
        t->hidden[11]++;
    if (number == 0)
        compare_chosen(&solved);
}

// one of the damaged: the solver's certificate is taken, then system or certificate are changed, or another right side is meant
static void try_damaged(struct draws *g, struct tally *t, struct answer *a)
{
    compare_solve(g, a, 4 * LONGEST_CERTIFICATE, &solved);
    uint32_t side = (uint32_t)trial.side;
    change_case(g);
    trial.side = draw_side_number(g, &drawn, side);
    try_check(g, t);
    try_solve(g, t, a);
    answer_to(a, &given, 0);
    compare_report(g, a, draw_lent(g, REPORT_ROOM));
}

static void print_numbers(const char *what, const uint64_t *count)
{
    printf("%s (number: count)", what);
    for (uint32_t i = 1; i < NUMBERS; i++)
        if (count[i] != 0)
            printf(" %u: %lu", i, (unsigned long)count[i]);
}

static void print_call(const char *call, const uint64_t *count)
{
    printf("; %s passed %lu, ", call, (unsigned long)count[0]);
    print_numbers("refused", count);
}

static bool in_check(uint32_t i)
{
    return i <= 10 || i == 21 || (24 <= i && i <= 29) || (31 <= i && i <= 36) || i == NO_SUCH_SIDE;
}

static bool in_solve(uint32_t i)
{
    return i <= 11 || i == NO_SUCH_SIDE;
}

static bool comes_before(uint32_t i)
{
    return 1 <= i && i <= 10;
}

static bool comes_behind(uint32_t i)
{
    return i > 10 && i != NO_SUCH_SIDE && (in_check(i) || in_solve(i));
}

static void expect_all(const char *what, const uint64_t *count, bool may(uint32_t))
{
    for (uint32_t i = 0; i < NUMBERS; i++)
        if (may(i) && count[i] == 0) {
            fprintf(stderr, "damaged: no case of %s has number %u\n", what, i);
            exit(1);
        }
}

static void try_systems(uint64_t count, uint64_t seed)
{
    struct tally t = {0};
    for (uint64_t i = 0; i < count; i++) {
        struct draws g = draws_of(seed, SYSTEMS, i);
        draw_case(&g, "systems", i, seed);
        try_system(&g, &t);
    }
    printf("systems: %lu agree, of these with several right sides %lu, of %u words %lu; right sides: solution %lu, of these with a "
           "denominator %lu, of degree up to %u; none %lu; reports: feedback alone %lu, delay alone %lu, both %lu\n",
           (unsigned long)count, (unsigned long)t.several, LONGEST_SYSTEM, (unsigned long)t.longest, (unsigned long)t.solutions,
           (unsigned long)t.fractions, t.degree, (unsigned long)t.none, (unsigned long)t.feedback, (unsigned long)t.delay,
           (unsigned long)t.both);
    fflush(stdout);
    if (t.longest < count / LONGEST_EVERY) {
        fprintf(stderr, "systems: too few have %u words\n", LONGEST_SYSTEM);
        exit(1);
    }
    if (count >= ENOUGH && (t.feedback < count / RARE || t.delay < count / RARE || t.both < count / RARE)) {
        fputs("systems: too few reports have feedback, delay or both\n", stderr);
        exit(1);
    }
}

static void try_all_damaged(uint64_t count, uint64_t seed)
{
    static struct answer a;
    struct tally t = {0};
    for (uint64_t i = 0; i < count; i++) {
        struct draws g = draws_of(seed, DAMAGED, i);
        draw_sound(&g, &a, i, seed);
        try_damaged(&g, &t, &a);
    }
    printf("damaged: %lu agree", (unsigned long)count);
    print_call("check", t.check);
    print_call("solve", t.solve);
    print_numbers("; before 40", t.before);
    print_numbers("; behind 40", t.hidden);
    putchar('\n');
    fflush(stdout);
    if (count >= ENOUGH) {
        expect_all("check", t.check, in_check);
        expect_all("solve", t.solve, in_solve);
        expect_all("what comes before 40", t.before, comes_before);
        expect_all("what comes behind 40", t.hidden, comes_behind);
    }
}

int main(int count, char **argument)
{
    if (count != 4) {
        fputs("differential SYSTEMS DAMAGED SEED\n", stderr);
        return 2;
    }
    uint64_t seed = strtoull(argument[3], NULL, 10);
    open_comparison();
    try_systems(strtoull(argument[1], NULL, 10), seed);
    uint64_t damaged = strtoull(argument[2], NULL, 10);
    try_all_damaged(damaged, seed);
    try_all_columns(damaged / COLUMNS_EVERY, seed);
    try_all_panel(damaged, seed);
    return 0;
}
