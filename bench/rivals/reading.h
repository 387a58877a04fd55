// Reading of document 01's words: a system's with refusals 1 to 10 and 40, a certificate's with 21 and 24 to 29.
#ifndef READING_H
#define READING_H
#include <stdbool.h>
#include "rivals.h"

enum { MOST = 8, SIDES = 8, SYSTEM_SIZE = 16, CERTIFICATE_SIZE = 121 };
enum { SYSTEM_HEAD = 1, START = 2, COEFFICIENT = 3, END = 4, CERTIFICATE_HEAD = 5 };
enum { SOLUTION = 1, ABSENCE = 2 };

struct polynomial {
    uint32_t size;
    const uint32_t *coefficient; // lowest power first, the last not 0
};

struct system {
    uint32_t p, n, m, sides;
    struct polynomial a[MOST][MOST], b[MOST]; // b: the right side that is meant
    uint32_t store[LONGEST_SYSTEM]; // where the coefficients stand
};

struct certificate {
    uint32_t kind;
    struct polynomial d, numerator[MOST], w, z[MOST]; // an absence has its q in z
    uint32_t store[LONGEST_CERTIFICATE];
};

// a walk over the words, from place on; store is where the next coefficient goes
struct walk {
    const uint8_t *bytes;
    size_t words, place;
    uint32_t p, limit, base;
    uint32_t *store;
    uint64_t refusal;
};

static inline uint64_t refusal_of(uint32_t number, size_t place)
{
    return (uint64_t)place << 6 | number;
}

static inline bool refuse(struct walk *k, uint32_t number, size_t place)
{
    k->refusal = refusal_of(k->base + number, place);
    return false;
}

static inline uint32_t word_at(const struct walk *k, size_t i)
{
    const uint8_t *b = k->bytes + 4 * i;
    return (uint32_t)b[0] | (uint32_t)b[1] << 8 | (uint32_t)b[2] << 16 | (uint32_t)b[3] << 24;
}

static inline bool any_word(struct walk *k, uint32_t *word)
{
    if (k->place == k->words)
        return refuse(k, 4, k->words);
    *word = word_at(k, k->place++);
    return true;
}

static inline bool payload(struct walk *k, uint32_t kind, uint32_t *value)
{
    uint32_t word;
    if (!any_word(k, &word))
        return false;
    *value = word & 0x0FFFFFFF;
    return word >> 28 == kind || refuse(k, 5, k->place - 1);
}

static bool read_polynomial(struct walk *k, struct polynomial *f)
{
    uint32_t *store = k->store;
    if (!payload(k, START, &f->size))
        return false;
    if (f->size > k->limit)
        return refuse(k, 6, k->place - 1);
    for (uint32_t i = 0; i < f->size; i++) {
        if (!payload(k, COEFFICIENT, &store[i]))
            return false;
        if (store[i] >= k->p)
            return refuse(k, 7, k->place - 1);
    }
    if (f->size > 0 && store[f->size - 1] == 0)
        return refuse(k, 8, k->place - 1);
    f->coefficient = store;
    k->store = store + f->size;
    return true;
}

static bool read_polynomials(struct walk *k, struct polynomial *f, uint32_t count)
{
    for (uint32_t i = 0; i < count; i++)
        if (!read_polynomial(k, &f[i]))
            return false;
    return true;
}

static bool read_end(struct walk *k)
{
    uint32_t count;
    if (!payload(k, END, &count))
        return false;
    if (count != k->place)
        return refuse(k, 9, k->place - 1);
    return k->place == k->words || refuse(k, 9, k->place);
}

static bool is_prime(uint32_t p)
{
    if (p < 4)
        return p >= 2;
    if (p % 2 == 0)
        return false;
    for (uint32_t a = 3; a * a <= p; a += 2)
        if (p % a == 0)
            return false;
    return true;
}

static bool read_system_head(struct walk *k, struct system *s)
{
    uint32_t head;
    if (!any_word(k, &head))
        return false;
    s->p = head & 0xFFFF, s->n = head >> 16 & 0xF, s->m = head >> 20 & 0xF, s->sides = (head >> 24 & 0xF) + 1;
    if (head >> 28 != SYSTEM_HEAD || s->sides > SIDES)
        return refuse(k, 1, 0);
    if (!is_prime(s->p))
        return refuse(k, 2, 0);
    return (1 <= s->n && s->n <= MOST && 1 <= s->m && s->m <= MOST) || refuse(k, 3, 0);
}

// 0, or the refusal
static uint64_t read_system(struct system *s, const uint8_t *bytes, size_t count, uint64_t side)
{
    struct polynomial other[MOST];
    if (count % 4 != 0 || count > 4 * LONGEST_SYSTEM)
        return refusal_of(10, 0);
    struct walk k = {.bytes = bytes, .words = count / 4, .limit = SYSTEM_SIZE, .store = s->store};
    if (!read_system_head(&k, s))
        return k.refusal;
    k.p = s->p;
    for (uint32_t i = 0; i < s->n; i++)
        if (!read_polynomials(&k, s->a[i], s->m))
            return k.refusal;
    for (uint32_t i = 0; i < s->sides; i++)
        if (!read_polynomials(&k, i == side ? s->b : other, s->n))
            return k.refusal;
    if (!read_end(&k))
        return k.refusal;
    return side < s->sides ? 0 : refusal_of(40, 0);
}

// what a solver looks at first: the system, then whether there is room for the longest certificate
static inline uint64_t read_to_solve(struct system *s, const uint8_t *bytes, size_t count, uint64_t side, size_t lent_bytes)
{
    uint64_t refusal = read_system(s, bytes, count, side);
    return refusal == 0 && lent_bytes < 4 * LONGEST_CERTIFICATE ? refusal_of(11, 0) : refusal;
}

static bool read_certificate_head(struct walk *k, uint32_t *kind)
{
    uint32_t head;
    if (!any_word(k, &head))
        return false;
    *kind = head & 0x0FFFFFFF;
    return (head >> 28 == CERTIFICATE_HEAD && (*kind == SOLUTION || *kind == ABSENCE)) || refuse(k, 1, 0);
}

// 0, or the refusal
static inline uint64_t read_certificate(struct certificate *c, const struct system *s, const uint8_t *bytes, size_t count)
{
    if (count % 4 != 0)
        return refusal_of(10, 0);
    struct walk k = {.bytes = bytes, .words = count / 4, .p = s->p, .limit = CERTIFICATE_SIZE, .base = 20, .store = c->store};
    bool read = read_certificate_head(&k, &c->kind);
    if (read && c->kind == SOLUTION)
        read = read_polynomial(&k, &c->d) && read_polynomials(&k, c->numerator, s->m) && read_polynomial(&k, &c->w);
    return read && read_polynomials(&k, c->z, s->n) && read_end(&k) ? 0 : k.refusal;
}
#endif
