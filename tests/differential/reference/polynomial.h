// Polynomials modulo a prime p below 2^16, schoolbook. A polynomial that is all zero bytes is the zero polynomial; room grows as
// needed.
#ifndef POLYNOMIAL_H
#define POLYNOMIAL_H
#include <stdbool.h>
#include <stdint.h>

struct polynomial {
    uint32_t size; // one more than the degree, 0 for the zero polynomial
    uint32_t room;
    uint32_t *coefficient; // lowest power first, each below p, the last not 0
};

uint32_t inverse(uint32_t p, uint32_t a); // of a residue that is not 0

void resize(struct polynomial *f, uint32_t size); // new coefficients are 0
void trim(struct polynomial *f);                  // zeros at the end go
void set_constant(struct polynomial *f, uint32_t c);
void copy(struct polynomial *f, const struct polynomial *g);
void exchange(struct polynomial *f, struct polynomial *g);

bool equal(const struct polynomial *f, const struct polynomial *g);
bool is_monic(const struct polynomial *f);

void scale(uint32_t p, struct polynomial *f, uint32_t c);                                                        // c not 0
void add_product(uint32_t p, struct polynomial *f, const struct polynomial *g, const struct polynomial *h);      // f += g·h
void subtract_product(uint32_t p, struct polynomial *f, const struct polynomial *g, const struct polynomial *h); // f -= g·h
void set_product(uint32_t p, struct polynomial *f, const struct polynomial *g, const struct polynomial *h);      // f is neither
void divide(uint32_t p, struct polynomial *q, struct polynomial *f, const struct polynomial *g); // q := f / g, f := the remainder
void make_monic(uint32_t p, struct polynomial *f);                                               // zero stays
void common_divisor(uint32_t p, struct polynomial *f,
                    struct polynomial *g); // f := the monic gcd, zero of two zeros; g is used up
#endif
