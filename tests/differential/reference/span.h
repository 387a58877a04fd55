// The polynomial combinations of some vectors, of which those with entries of at most SYSTEM_SIZE coefficients are kept as a space over
// the residues. The pivot of a vector is the first of its entries of greatest degree.
#ifndef SPAN_H
#define SPAN_H
#include "words.h"

enum { PLACES = MOST * SYSTEM_SIZE, LINE_WORDS = PLACES + CERTIFICATE_SIZE - 1 };

// The coefficient of power e of entry i stands at place n · (SYSTEM_SIZE - 1 - e) + i, so that the first place that is not 0 is that of
// the pivot; behind all places stand the coefficients of the tail.
struct line {
    uint64_t word[LINE_WORDS];
};

// lines with different first places, each 1 there; with a line of smaller degree its product with x is in the space too
struct span {
    uint32_t p, n, tail_size;
    const struct polynomial *modulus; // of tails, monic; NULL where there are none
    bool filled[PLACES];
    struct line line[PLACES]; // by first place
};

void open_span(struct span *s, uint32_t p, uint32_t n, const struct polynomial *modulus);

// Entry i of the vector is at i · step. The tail is a combination of those that were given, by the same factors modulo the modulus.
void add_vector(struct span *s, const struct polynomial *vector, uint32_t step, uint32_t tail);

// whether some vector has its pivot there
bool is_pivot(const struct span *s, uint32_t i);

// The vector of least degree with its pivot at i and less than that of each other at that other's pivot, and its tail.
void basis_vector(const struct span *s, uint32_t i, struct polynomial *vector, struct polynomial *tail);
#endif
