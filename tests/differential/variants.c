// Variants of a certificate that is right: many are wrong in one place, some are right again.
#include "variants.h"
#include "reference/reference.h"
#include "samples.h"

typedef void variant(struct draws *g, const struct system *s, struct certificate *c);

static void multiply(uint32_t p, struct polynomial *f, const struct polynomial *g)
{
    static struct polynomial product;
    set_product(p, &product, f, g);
    exchange(f, &product);
}

// a small factor, monic and not constant
static const struct polynomial *draw_factor(struct draws *g, uint32_t p)
{
    static struct polynomial f;
    resize(&f, between(g, 2, 4));
    for (uint32_t i = 0; i < f.size; i++)
        f.coefficient[i] = chance(g, 50) ? 0 : below(g, p);
    f.coefficient[f.size - 1] = 1;
    return &f;
}

static void change_coefficient(struct draws *g, uint32_t p, struct polynomial *f)
{
    uint32_t i = below(g, f->size + 1);
    if (i == f->size)
        resize(f, i + 1);
    f->coefficient[i] = (f->coefficient[i] + between(g, 1, p - 1)) % p;
    trim(f);
}

// a polynomial of the certificate
static struct polynomial *draw_part(struct draws *g, const struct system *s, struct certificate *c)
{
    uint32_t part = c->kind == SOLUTION ? below(g, 4) : 3;
    if (part == 0)
        return &c->d;
    if (part == 1)
        return &c->w;
    return part == 2 ? &c->numerator[below(g, s->m)] : &c->row[below(g, s->n)];
}

static void coefficient_off(struct draws *g, const struct system *s, struct certificate *c)
{
    change_coefficient(g, s->p, draw_part(g, s, c));
}

static void part_multiplied(struct draws *g, const struct system *s, struct certificate *c)
{
    multiply(s->p, draw_part(g, s, c), draw_factor(g, s->p));
}

static void part_zero(struct draws *g, const struct system *s, struct certificate *c)
{
    draw_part(g, s, c)->size = 0;
}

static void part_scaled(struct draws *g, const struct system *s, struct certificate *c)
{
    scale(s->p, draw_part(g, s, c), between(g, 1, s->p - 1));
}

// N/d not in lowest terms: the denominators differ
static void solution_multiplied(struct draws *g, const struct system *s, struct certificate *c)
{
    const struct polynomial *factor = draw_factor(g, s->p);
    multiply(s->p, &c->d, factor);
    for (uint32_t j = 0; j < s->m; j++)
        multiply(s->p, &c->numerator[j], factor);
}

// of an absence right again; of a solution Z alone, which may lower the denominator
static void rows_multiplied(struct draws *g, const struct system *s, struct certificate *c)
{
    const struct polynomial *factor = draw_factor(g, s->p);
    for (uint32_t i = 0; i < s->n; i++)
        multiply(s->p, &c->row[i], factor);
}

// right again: Z/w need not be in lowest terms
static void both_multiplied(struct draws *g, const struct system *s, struct certificate *c)
{
    const struct polynomial *factor = draw_factor(g, s->p);
    multiply(s->p, &c->w, factor);
    for (uint32_t i = 0; i < s->n; i++)
        multiply(s->p, &c->row[i], factor);
}

// right again: q or Z times a constant, -1 above all
static void rows_scaled(struct draws *g, const struct system *s, struct certificate *c)
{
    uint32_t factor = chance(g, 50) ? s->p - 1 : between(g, 1, s->p - 1);
    for (uint32_t i = 0; i < s->n; i++)
        scale(s->p, &c->row[i], factor);
}

static bool keeps_limit(const struct polynomial *f, uint32_t count)
{
    for (uint32_t i = 0; i < count; i++)
        if (f[i].size >= CERTIFICATE_SIZE)
            return false;
    return true;
}

// right again: N plus a multiple of a vector v with A·v = 0
static void numerators_shifted(struct draws *g, const struct system *s, struct certificate *c)
{
    static struct polynomial v[MOST][MOST], factor;
    uint32_t count = kernel(s, v), k = count == 0 ? 0 : below(g, count);
    if (count == 0 || !keeps_limit(v[k], s->m))
        return;
    draw_polynomial(g, s->p, &factor, below(g, 4), DENSE);
    for (uint32_t j = 0; j < s->m; j++)
        add_product(s->p, &c->numerator[j], &factor, &v[k][j]);
    if (chance(g, 20))
        coefficient_off(g, s, c);
}

// right again: Z plus multiples of w
static void rows_shifted(struct draws *g, const struct system *s, struct certificate *c)
{
    static struct polynomial factor;
    for (uint32_t i = 0; i < s->n; i++) {
        draw_polynomial(g, s->p, &factor, below(g, 3), SPARSE);
        add_product(s->p, &c->row[i], &factor, &c->w);
    }
}

void lengthen_rows(struct draws *g, const struct system *s, struct certificate *c)
{
    static struct polynomial factor;
    for (uint32_t i = 0; i < s->n; i++) {
        draw_polynomial(g, s->p, &factor, CERTIFICATE_SIZE - c->w.size, DENSE);
        add_product(s->p, &c->row[i], &factor, &c->w);
    }
}

// one row of Z alone, the first or the last more often, with the others as they were or longer
static void row_off(struct draws *g, const struct system *s, struct certificate *c)
{
    uint32_t i = below(g, s->n), end = below(g, 4);
    if (chance(g, 50))
        lengthen_rows(g, s, c);
    disturb(g, s->p, &c->row[end == 0 ? 0 : end == 1 ? s->n - 1 : i], CERTIFICATE_SIZE - 1);
}

static void rows_exchanged(struct draws *g, const struct system *s, struct certificate *c)
{
    uint32_t i = below(g, s->n), k = below(g, s->n);
    if (i != k)
        exchange(&c->row[i], &c->row[k]);
}

static void rows_zero(struct draws *g, const struct system *s, struct certificate *c)
{
    for (uint32_t i = 0; i < s->n; i++)
        c->row[i].size = 0;
    if (chance(g, 50))
        set_constant(&c->w, 1);
}

static void numerators_exchanged(struct draws *g, const struct system *s, struct certificate *c)
{
    uint32_t j = below(g, s->m), k = below(g, s->m);
    if (j != k)
        exchange(&c->numerator[j], &c->numerator[k]);
}

// y = 0/1 with z = q/1 for an absence; q = Z for a solution
static void other_kind(struct draws *g, const struct system *s, struct certificate *c)
{
    (void)g;
    c->kind = c->kind == SOLUTION ? ABSENCE : SOLUTION;
    set_constant(&c->d, 1);
    set_constant(&c->w, 1);
    for (uint32_t j = 0; j < s->m; j++)
        c->numerator[j].size = 0;
}

// those that an absence has too come first
static variant *const variants[] = {
    coefficient_off, coefficient_off, part_multiplied,     part_zero,          part_scaled,        rows_multiplied,
    rows_scaled,     rows_exchanged,  rows_zero,           other_kind,         both_multiplied,    both_multiplied,
    rows_shifted,    rows_shifted,    solution_multiplied, numerators_shifted, numerators_shifted, numerators_exchanged,
    lengthen_rows,   lengthen_rows,   row_off,             row_off};

enum { OF_ABSENCE = 10, VARIANTS = sizeof variants / sizeof variants[0] };

void vary(struct draws *g, const struct system *s, const struct file *certificate, struct file *varied)
{
    static struct certificate c;
    read_certificate(&c, s, certificate);
    variants[below(g, c.kind == SOLUTION ? VARIANTS : OF_ABSENCE)](g, s, &c);
    write_certificate(varied, s, &c);
}
