// Numbers modulo a prime p below 2^16, with a precomputed reciprocal.
#ifndef RESIDUE_H
#define RESIDUE_H
#include <stdint.h>

struct modulus {
    uint32_t p, shift, reciprocal; // 2^(shift + 1) ≤ p < 2^(shift + 2), reciprocal = floor(2^(32 + shift) / p)
    uint64_t wide_reciprocal;      // floor((2^64 - 1) / p)
};

static inline struct modulus modulus_of(uint32_t p)
{
    uint32_t shift = 30 - (uint32_t)__builtin_clz(p);
    return (struct modulus){p, shift, (uint32_t)(((uint64_t)1 << (32 + shift)) / p), UINT64_MAX / p};
}

// x modulo p, for a sum x of at most 8,192 products of numbers below p: the quotient is then at most one too small.
// The last line subtracts p where that leaves nothing negative; in this form compilers vectorise it.
static inline uint64_t reduce(struct modulus k, uint64_t x)
{
    uint64_t q = (uint64_t)(uint32_t)(x >> k.shift) * k.reciprocal >> 32;
    uint64_t r = x - (uint64_t)(uint32_t)q * k.p - k.p;
    return r + (r >> 32 & k.p);
}

// x modulo p, for any x
static inline uint64_t reduce_wide(struct modulus k, uint64_t x)
{
    uint64_t q = (uint64_t)((unsigned __int128)x * k.wide_reciprocal >> 64);
    uint64_t r = x - q * k.p;
    return r >= k.p ? r - k.p : r;
}

static inline uint64_t negative(struct modulus k, uint64_t a)
{
    return a == 0 ? 0 : k.p - a;
}

// the inverse of a, which is not 0, by Euclid's algorithm
static inline uint64_t inverse(struct modulus k, uint64_t a)
{
    uint32_t r = k.p, s = (uint32_t)a;
    int32_t x = 0, y = 1;
    while (s != 0) {
        uint32_t q = r / s, t = r - q * s;
        int32_t z = x - (int32_t)q * y;
        r = s, s = t, x = y, y = z;
    }
    return x < 0 ? (uint64_t)(x + (int32_t)k.p) : (uint64_t)x;
}
#endif
