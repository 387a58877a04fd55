// Times add_scaled against the C loops on the same words, compares what they leave, and prints a table of ratios.
#include <stdio.h>
#include <stdlib.h>
#include <string.h>
#include <time.h>
#include "step.h"

enum { REPETITIONS = 31, WORDS_A_RUN = 1 << 21, MOST_WORDS = 4096, MOST_STEPS = 1 << 16, APART = 200 };

typedef void step_function(uint64_t *restrict h, const uint64_t *restrict s, const uint64_t *restrict f,
                           const uint64_t *restrict n, size_t steps);

struct variant {
    step_function *run;
    const char *label;
};

// each step takes from least to most words
struct load {
    size_t least, most;
};

// the first is what the solver's steps take on a dense system of 8 rows and degree 15
static const struct load loads[] = {{113, 128}, {1, 128}, {64, 64}, {128, 128}, {1024, 1024}, {512, 1024}, {4096, 4096}};

// Hand and slot begin at different places of a page: at the same one a load of the slot may wait for a store to the hand.
static _Alignas(4096) uint64_t hand[MOST_WORDS], slot_area[MOST_WORDS + APART];
static uint64_t *const slot = slot_area + APART;
static uint64_t start[MOST_WORDS], expected[MOST_WORDS], factors[MOST_STEPS], counts[MOST_STEPS];

static void ours(uint64_t *restrict h, const uint64_t *restrict s, const uint64_t *restrict f, const uint64_t *restrict n,
                 size_t steps)
{
    if (bench_add_scaled(h, MOST_WORDS, s, MOST_WORDS, f, steps, n, steps) != steps) {
        puts("bench_add_scaled refused its input");
        exit(1);
    }
}

// ours first, to which the others are compared
static const struct variant variants[] = {
    {ours, "ours"},
#define VARIANT(name, label) {name, label},
#include "variants.inc"
#undef VARIANT
};

enum { VARIANTS = sizeof variants / sizeof variants[0] };

static uint64_t draw(uint64_t limit)
{
    static uint64_t state = 1;
    state = state * 6364136223846793005u + 1442695040888963407u;
    return (state >> 33) % limit;
}

static void fill(uint64_t *words, size_t n)
{
    for (size_t j = 0; j < n; j++)
        words[j] = draw(65521);
}

static double now(void)
{
    struct timespec t;
    clock_gettime(CLOCK_MONOTONIC, &t);
    return (double)t.tv_sec * 1e9 + (double)t.tv_nsec;
}

static int by_value(const void *a, const void *b)
{
    double x = *(const double *)a, y = *(const double *)b;
    return (x > y) - (x < y);
}

static double median(double *times)
{
    qsort(times, REPETITIONS, sizeof times[0], by_value);
    return times[REPETITIONS / 2];
}

// the median time of each variant, in nanoseconds a word; 0 where one leaves other words than ours
static int measure(struct load load, double *result)
{
    static double times[VARIANTS][REPETITIONS];
    size_t steps = 0, words = 0;
    while (steps < MOST_STEPS && words < WORDS_A_RUN) {
        counts[steps] = load.least + draw(load.most - load.least + 1);
        words += counts[steps++];
    }
    for (int r = 0; r < REPETITIONS; r++)
        for (int k = 0; k < VARIANTS; k++) {
            int v = (k + r) % VARIANTS;
            memcpy(hand, start, sizeof hand);
            double before = now();
            variants[v].run(hand, slot, factors, counts, steps);
            times[v][r] = (now() - before) / (double)words;
            if (r == 0 && k == 0)
                memcpy(expected, hand, sizeof hand);
            if (memcmp(hand, expected, sizeof hand) != 0) {
                printf("%s leaves other words than the first\n", variants[v].label);
                return 0;
            }
        }
    for (int v = 0; v < VARIANTS; v++)
        result[v] = median(times[v]);
    return 1;
}

int main(void)
{
    double greatest = 0;
    fill(start, MOST_WORDS);
    fill(slot, MOST_WORDS);
    fill(factors, MOST_STEPS);
    printf("\n%14s %10s   our time / time of C compiled by\n%14s %10s  ", "words a step", "ours, ns", "", "a word");
    for (int v = 1; v < VARIANTS; v++)
        printf(" %12s", variants[v].label);
    puts("");
    for (size_t i = 0; i < sizeof loads / sizeof loads[0]; i++) {
        double result[VARIANTS];
        if (!measure(loads[i], result))
            return 1;
        printf("%6zu to %4zu %10.3f  ", loads[i].least, loads[i].most, result[0]);
        for (int v = 1; v < VARIANTS; v++) {
            double ratio = result[0] / result[v];
            printf(" %12.2f", ratio);
            if (i == 0 && ratio > greatest)
                greatest = ratio;
        }
        puts("");
    }
    printf("\nAll left the same words. Greatest ratio in the first row: %.2f (aim: at most 1.30)\n", greatest);
    return 0;
}
