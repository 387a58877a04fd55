// The systems of the benchmark, each with one right side. A load draws A as a product of matrices, all together of degree 15, and b of
// degree 15.
#ifndef LOADS_H
#define LOADS_H
#include <stdbool.h>
#include <stdint.h>

// the first SHAPES loads are compared at all primes, the others, smaller dense systems, at GROWTH_PRIME
enum { DEGREE = 15, FACTORS = 3, SYSTEMS = 8, PRIMES = 3, SHAPES = 7, GROWTH_PRIME = 257 };

struct load {
    const char *name;
    uint32_t rows;
    struct {
        uint32_t columns, degree;
    } factor[FACTORS];
    bool solvable; // b is the first factor times a drawn vector
};

static const uint32_t primes[PRIMES] = {2, 257, 65521};

// Dense, square ones of all sizes among them. A tall one, or one of smaller rank, has no solution unless b is made so; a first
// square factor of a wide one, or a middle one, makes the least denominator long.
static const struct load loads[] = {
    {"8x8", 8, {{8, 15}}, false},
    {"4x8", 4, {{8, 15}}, false},
    {"4x8-denominator", 4, {{4, 8}, {8, 7}}, false},
    {"8x4-absent", 8, {{4, 15}}, false},
    {"8x4-solvable", 8, {{4, 5}, {4, 10}}, true},
    {"rank4-absent", 8, {{4, 7}, {8, 8}}, false},
    {"rank4-solvable", 8, {{4, 5}, {4, 5}, {8, 5}}, true},
    {"1x1", 1, {{1, 15}}, false},
    {"2x2", 2, {{2, 15}}, false},
    {"3x3", 3, {{3, 15}}, false},
    {"4x4", 4, {{4, 15}}, false},
    {"5x5", 5, {{5, 15}}, false},
    {"6x6", 6, {{6, 15}}, false},
    {"7x7", 7, {{7, 15}}, false},
};

enum { LOADS = sizeof loads / sizeof loads[0] };

// the load among whose systems the largest certificate is looked for
static inline const struct load *largest_load(void)
{
    return &loads[0];
}
#endif
