// The check of a certificate in plain C: reads system and certificate, then tries refusals 31 to 36 of document 01.
// Products are added up in 64 bits (at most 9 · 16 products below 2^32 meet in one coefficient) and reduced at the end. 33 is tried by
// the walk of document 02, item 3, which divides no product: its multiples of Z_i are taken modulo w.
#include <string.h>
#include "reading.h"
#include "residue.h"

enum { ROW_SIZE = SYSTEM_SIZE + CERTIFICATE_SIZE - 1 }; // of a product of a system's and a certificate's polynomial

struct dense {
    uint32_t size;
    uint32_t coefficient[ROW_SIZE];
};

// sum += f · g; the inner loop goes over g, the longer one
static void add_product(uint64_t *restrict sum, struct polynomial f, struct polynomial g)
{
    for (uint32_t i = 0; i < f.size; i++)
        for (uint32_t j = 0; j < g.size; j++)
            sum[i + j] += (uint64_t)f.coefficient[i] * g.coefficient[j];
}

// f := the first size sums
static void reduce_sums(struct modulus k, struct dense *f, const uint64_t *sum, uint32_t size)
{
    for (uint32_t i = 0; i < size; i++)
        f->coefficient[i] = (uint32_t)reduce(k, sum[i]);
    while (size > 0 && f->coefficient[size - 1] == 0)
        size--;
    f->size = size;
}

// f := Σ g[i·step] · h[i], i below count
static void dot(struct modulus k, struct dense *f, const struct polynomial *g, uint32_t step, const struct polynomial *h,
                uint32_t count)
{
    uint64_t sum[ROW_SIZE] = {0};
    for (uint32_t i = 0; i < count; i++)
        add_product(sum, g[i * step], h[i]);
    reduce_sums(k, f, sum, ROW_SIZE);
}

static bool equal(const struct dense *f, const uint32_t *coefficient, uint32_t size)
{
    return f->size == size && memcmp(f->coefficient, coefficient, size * sizeof coefficient[0]) == 0;
}

// f := f modulo g, g not zero
static void remainder_by(struct modulus k, struct dense *f, const uint32_t *g, uint32_t size)
{
    uint64_t rest[ROW_SIZE];
    if (f->size < size)
        return;
    uint64_t scale = inverse(k, g[size - 1]);
    for (uint32_t i = 0; i < f->size; i++)
        rest[i] = f->coefficient[i];
    for (uint32_t i = f->size; i >= size; i--) {
        uint64_t c = negative(k, reduce(k, reduce(k, rest[i - 1]) * scale));
        for (uint32_t j = 0; j + 1 < size; j++)
            rest[i - size + j] += c * g[j];
    }
    reduce_sums(k, f, rest, size - 1);
}

// the greatest common divisor of f and g, not both zero, made monic; both are used up
static const struct dense *common_divisor(struct modulus k, struct dense *f, struct dense *g)
{
    while (g->size != 0) {
        remainder_by(k, f, g->coefficient, g->size);
        struct dense *t = f;
        f = g, g = t;
    }
    uint64_t scale = inverse(k, f->coefficient[f->size - 1]);
    for (uint32_t i = 0; i < f->size; i++)
        f->coefficient[i] = (uint32_t)reduce(k, f->coefficient[i] * scale);
    return f;
}

static bool is_monic(struct polynomial f)
{
    return f.size > 0 && f.coefficient[f.size - 1] == 1;
}

// A·N = d·b in row i
static bool row_holds(struct modulus k, const struct system *s, const struct certificate *c, uint32_t i)
{
    struct dense left, right;
    dot(k, &left, s->a[i], 1, c->numerator, s->m);
    dot(k, &right, &s->b[i], 1, &c->d, 1);
    return equal(&left, right.coefficient, right.size);
}

// The walk down the columns of Z·A, side by side. After row i, carried[j] is the remainder by w of Z_0·A_0j + .. + Z_i·A_ij, as sums of
// at most 8 · 16 products. A window of as many words, all below p, has x^e·Z_i modulo w; it slides down by one word for each x.
struct columns {
    uint32_t degree;                                   // of w
    uint64_t w[CERTIFICATE_SIZE - 1];                  // without the last coefficient, which is 1: 31 was tried before
    uint64_t word[SYSTEM_SIZE - 1 + CERTIFICATE_SIZE]; // zeros that the window slides down to, then Z_i
    _Alignas(64) uint64_t carried[MOST][CERTIFICATE_SIZE - 1];
};

// window += c · w, reduced
static void add_reduced(struct modulus k, uint64_t *restrict window, const uint64_t *restrict w, uint32_t degree, uint32_t c)
{
    for (uint32_t t = 0; t < degree; t++)
        window[t] = reduce(k, window[t] + (uint64_t)c * (uint32_t)w[t]);
}

// The window, one word further down: x times what it had, plus that word, modulo w. What falls out at its end goes off with w.
static uint64_t *slide(struct modulus k, struct columns *v, uint64_t *window)
{
    window--;
    uint64_t top = window[v->degree];
    if (top != 0)
        add_reduced(k, window, v->w, v->degree, k.p - (uint32_t)top);
    return window;
}

// the window with z modulo w: it slides down z where z is longer
static uint64_t *open_window(struct modulus k, struct columns *v, struct polynomial z)
{
    uint64_t *lowest = v->word + SYSTEM_SIZE - 1, *window = lowest;
    memset(v->word, 0, sizeof v->word);
    for (uint32_t t = 0; t < z.size; t++)
        lowest[t] = z.coefficient[t];
    if (z.size > v->degree)
        window += z.size - v->degree;
    while (window > lowest)
        window = slide(k, v, window);
    return window;
}

// f += c · window, g += d · window: two columns at once, so that a word of the window is loaded once for both
static void add_multiples(uint64_t *restrict f, uint64_t *restrict g, const uint64_t *restrict window, uint32_t degree, uint32_t c,
                          uint32_t d)
{
    for (uint32_t t = 0; t < degree; t++) {
        f[t] += (uint64_t)c * (uint32_t)window[t];
        g[t] += (uint64_t)d * (uint32_t)window[t];
    }
}

static uint32_t coefficient_of(struct polynomial f, uint32_t e)
{
    return e < f.size ? f.coefficient[e] : 0;
}

// carried[j] += z · a[j] modulo w, j below m
static void add_row(struct modulus k, struct columns *v, const struct polynomial *a, uint32_t m, struct polynomial z)
{
    uint32_t longest = 0;
    for (uint32_t j = 0; j < m; j++)
        longest = a[j].size > longest ? a[j].size : longest;
    uint64_t *window = open_window(k, v, z);
    for (uint32_t e = 0; e < longest; e++) {
        if (e > 0)
            window = slide(k, v, window);
        for (uint32_t j = 0; j < m; j += 2) {
            uint32_t c = coefficient_of(a[j], e), d = j + 1 < m ? coefficient_of(a[j + 1], e) : 0;
            if (c != 0 || d != 0)
                add_multiples(v->carried[j], v->carried[j + 1], window, v->degree, c, d);
        }
    }
}

// the first column of Z·A that w does not divide, or m
static uint32_t undivided_column(struct modulus k, const struct system *s, const struct certificate *c)
{
    struct columns v = {.degree = c->w.size - 1};
    for (uint32_t t = 0; t < v.degree; t++)
        v.w[t] = c->w.coefficient[t];
    for (uint32_t i = 0; i < s->n; i++)
        add_row(k, &v, s->a[i], s->m, c->z[i]);
    for (uint32_t j = 0; j < s->m; j++) {
        uint64_t left = 0;
        for (uint32_t t = 0; t < v.degree; t++)
            left |= reduce(k, v.carried[j][t]);
        if (left != 0)
            return j;
    }
    return s->m;
}

// w divided by the monic greatest common divisor g of w and Z·b is d: as all are monic, d·g = w
static bool denominator_is_d(struct modulus k, const struct system *s, const struct certificate *c)
{
    struct dense zb, w = {.size = c->w.size};
    dot(k, &zb, s->b, 1, c->z, s->n);
    memcpy(w.coefficient, c->w.coefficient, w.size * sizeof w.coefficient[0]);
    const struct dense *g = common_divisor(k, &zb, &w);
    if (c->d.size + g->size - 1 != c->w.size)
        return false;
    struct dense product;
    struct polynomial divisor = {g->size, g->coefficient};
    dot(k, &product, &c->d, 1, &divisor, 1);
    return equal(&product, c->w.coefficient, c->w.size);
}

static uint64_t check_solution(const struct system *s, const struct certificate *c)
{
    struct modulus k = modulus_of(s->p);
    if (!is_monic(c->d))
        return refusal_of(31, 0);
    if (!is_monic(c->w))
        return refusal_of(31, 1);
    for (uint32_t i = 0; i < s->n; i++)
        if (!row_holds(k, s, c, i))
            return refusal_of(32, i);
    uint32_t column = undivided_column(k, s, c);
    if (column < s->m)
        return refusal_of(33, column);
    return denominator_is_d(k, s, c) ? 0 : refusal_of(34, 0);
}

static uint64_t check_absence(const struct system *s, const struct certificate *c)
{
    struct modulus k = modulus_of(s->p);
    struct dense f;
    for (uint32_t j = 0; j < s->m; j++) {
        dot(k, &f, &s->a[0][j], MOST, c->z, s->n);
        if (f.size != 0)
            return refusal_of(35, j);
    }
    dot(k, &f, s->b, 1, c->z, s->n);
    return f.size != 0 ? 0 : refusal_of(36, 0);
}

uint64_t NAME(const uint8_t *system, size_t system_bytes, uint64_t side, const uint8_t *certificate, size_t certificate_bytes)
{
    struct system s;
    struct certificate c;
    uint64_t refusal = read_system(&s, system, system_bytes, side);
    if (certificate_bytes % 4 != 0)
        return refusal_of(10, 0);
    if (refusal == 0)
        refusal = read_certificate(&c, &s, certificate, certificate_bytes);
    if (refusal != 0)
        return refusal;
    return c.kind == SOLUTION ? check_solution(&s, &c) : check_absence(&s, &c);
}
