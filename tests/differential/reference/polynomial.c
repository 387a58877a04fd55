// Schoolbook arithmetic of polynomials modulo p.
#include "polynomial.h"
#include <stdio.h>
#include <stdlib.h>
#include <string.h>

static void *grown(void *memory, size_t bytes)
{
    memory = realloc(memory, bytes);
    if (memory == NULL) {
        fputs("no memory\n", stderr);
        exit(2);
    }
    return memory;
}

// Euclid: r = s·a modulo p in every step
uint32_t inverse(uint32_t p, uint32_t a)
{
    int64_t r = p, next_r = a, s = 0, next_s = 1;
    while (next_r != 0) {
        int64_t q = r / next_r, t = r - q * next_r;
        r = next_r, next_r = t;
        t = s - q * next_s;
        s = next_s, next_s = t;
    }
    return (uint32_t)(s < 0 ? s + p : s);
}

void resize(struct polynomial *f, uint32_t size)
{
    if (size > f->room) {
        f->room = 2 * size + 16;
        f->coefficient = grown(f->coefficient, f->room * sizeof f->coefficient[0]);
    }
    for (uint32_t i = f->size; i < size; i++)
        f->coefficient[i] = 0;
    f->size = size;
}

void trim(struct polynomial *f)
{
    while (f->size > 0 && f->coefficient[f->size - 1] == 0)
        f->size--;
}

void set_constant(struct polynomial *f, uint32_t c)
{
    resize(f, 1);
    f->coefficient[0] = c;
    trim(f);
}

void copy(struct polynomial *f, const struct polynomial *g)
{
    resize(f, g->size);
    for (uint32_t i = 0; i < g->size; i++)
        f->coefficient[i] = g->coefficient[i];
}

void exchange(struct polynomial *f, struct polynomial *g)
{
    struct polynomial t = *f;
    *f = *g;
    *g = t;
}

bool equal(const struct polynomial *f, const struct polynomial *g)
{
    return f->size == g->size &&
           (f->size == 0 || memcmp(f->coefficient, g->coefficient, f->size * sizeof f->coefficient[0]) == 0);
}

bool is_monic(const struct polynomial *f)
{
    return f->size > 0 && f->coefficient[f->size - 1] == 1;
}

void scale(uint32_t p, struct polynomial *f, uint32_t c)
{
    for (uint32_t i = 0; i < f->size; i++)
        f->coefficient[i] = (uint32_t)((uint64_t)c * f->coefficient[i] % p);
}

// f += c·g·h: sums of products below 2^32 in 64 bits
static void add_multiple(uint32_t p, struct polynomial *f, uint32_t c, const struct polynomial *g, const struct polynomial *h)
{
    static uint64_t *sum;
    static uint32_t room;
    if (g->size == 0 || h->size == 0)
        return;
    uint32_t size = g->size + h->size - 1;
    if (size > room) {
        room = 2 * size;
        sum = grown(sum, room * sizeof sum[0]);
    }
    memset(sum, 0, size * sizeof sum[0]);
    for (uint32_t i = 0; i < g->size; i++) {
        uint64_t factor = (uint64_t)c * g->coefficient[i] % p;
        for (uint32_t j = 0; j < h->size; j++)
            sum[i + j] += factor * h->coefficient[j];
    }
    if (f->size < size)
        resize(f, size);
    for (uint32_t i = 0; i < size; i++)
        f->coefficient[i] = (uint32_t)((f->coefficient[i] + sum[i]) % p);
    trim(f);
}

void add_product(uint32_t p, struct polynomial *f, const struct polynomial *g, const struct polynomial *h)
{
    add_multiple(p, f, 1, g, h);
}

void subtract_product(uint32_t p, struct polynomial *f, const struct polynomial *g, const struct polynomial *h)
{
    add_multiple(p, f, p - 1, g, h);
}

void set_product(uint32_t p, struct polynomial *f, const struct polynomial *g, const struct polynomial *h)
{
    f->size = 0;
    add_multiple(p, f, 1, g, h);
}

void divide(uint32_t p, struct polynomial *q, struct polynomial *f, const struct polynomial *g)
{
    uint32_t size = f->size < g->size ? 0 : f->size - g->size + 1;
    uint32_t of_lead = inverse(p, g->coefficient[g->size - 1]);
    resize(q, size);
    for (uint32_t i = size; i-- > 0;) {
        uint32_t c = (uint32_t)((uint64_t)f->coefficient[i + g->size - 1] * of_lead % p);
        q->coefficient[i] = c;
        for (uint32_t j = 0; c != 0 && j < g->size; j++) // p(p-1) is below 2^32
            f->coefficient[i + j] = (f->coefficient[i + j] + (p - c) * g->coefficient[j]) % p;
    }
    trim(q);
    trim(f);
}

void make_monic(uint32_t p, struct polynomial *f)
{
    if (f->size > 0)
        scale(p, f, inverse(p, f->coefficient[f->size - 1]));
}

void common_divisor(uint32_t p, struct polynomial *f, struct polynomial *g)
{
    static struct polynomial q;
    while (g->size > 0) {
        divide(p, &q, f, g);
        exchange(f, g);
    }
    make_monic(p, f);
}
