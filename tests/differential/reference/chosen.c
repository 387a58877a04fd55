// The chosen certificate of a right side b: the only one with these properties, in which L is the span of the columns of A and of b. N_j
// has fewer coefficients than v_j, for all v with A·v = 0, v_j not zero and v_k zero for k above j. z = Z/w, in lowest terms, is zero but
// at pivots of L; on the basis of L that has a vector for each pivot, each of least degree and reduced by the others, z gives fractions
// f/d with f of smaller degree than d, where z·A is free of denominators and z·b is 1/d up to polynomials. q, in lowest terms, is zero
// but at pivots of A and at the one that b adds, and monic there.
#include "reference.h"
#include "span.h"

struct pivots {
    uint32_t count, at[MOST];
};

// the span of the columns of A; tails are modulo d, or there are none
static void span_columns(struct span *span, const struct system *s, const struct polynomial *d)
{
    open_span(span, s->p, s->n, d);
    for (uint32_t j = 0; j < s->m; j++)
        add_vector(span, &s->a[0][j], MOST, 0);
}

static struct pivots pivots_of(const struct span *span)
{
    struct pivots pivots = {0};
    for (uint32_t i = 0; i < span->n; i++)
        if (is_pivot(span, i))
            pivots.at[pivots.count++] = i;
    return pivots;
}

// the first pivot that the fewer ones lack
static uint32_t added_pivot(const struct pivots *fewer, const struct pivots *more)
{
    uint32_t k = 0;
    while (k < fewer->count && fewer->at[k] == more->at[k])
        k++;
    return more->at[k];
}

// w and Z, zero before, from the basis of L, transposed, at its pivots, and its tails, which are those of z·b = 1/d
static void choose_fractions(const struct system *s, uint32_t side, struct certificate *c)
{
    static struct span span;
    static struct system second;
    static struct polynomial vector[MOST], factor, numerator[MOST];
    span_columns(&span, s, &c->d);
    add_vector(&span, s->b[side], 1, 1);
    struct pivots pivots = pivots_of(&span);
    second.p = s->p, second.n = second.m = pivots.count;
    for (uint32_t k = 0; k < pivots.count; k++) {
        basis_vector(&span, pivots.at[k], vector, &second.b[0][k]);
        for (uint32_t l = 0; l < pivots.count; l++)
            copy(&second.a[k][l], &vector[pivots.at[l]]);
    }
    solve_single(&second, &factor, numerator);
    set_product(s->p, &c->w, &c->d, &factor);
    for (uint32_t k = 0; k < pivots.count; k++)
        copy(&c->row[pivots.at[k]], &numerator[k]);
}

// q, zero before, from A, transposed, at its pivots, and its row at the pivot that b adds, times -1
static void choose_row(const struct system *s, uint32_t side, struct certificate *c)
{
    static struct span span;
    static struct system second;
    static struct polynomial numerator[MOST];
    span_columns(&span, s, NULL);
    struct pivots pivots = pivots_of(&span);
    add_vector(&span, s->b[side], 1, 0);
    struct pivots more = pivots_of(&span);
    uint32_t added = added_pivot(&pivots, &more);
    second.p = s->p, second.n = s->m, second.m = pivots.count;
    for (uint32_t j = 0; j < s->m; j++) {
        for (uint32_t k = 0; k < pivots.count; k++)
            copy(&second.a[j][k], &s->a[pivots.at[k]][j]);
        copy(&second.b[0][j], &s->a[added][j]);
        scale(s->p, &second.b[0][j], s->p - 1);
    }
    solve_single(&second, &c->row[added], numerator);
    for (uint32_t k = 0; k < pivots.count; k++)
        copy(&c->row[pivots.at[k]], &numerator[k]);
}

void choose_certificate(const struct system *s, uint32_t side, struct certificate *c)
{
    for (uint32_t i = 0; i < s->n; i++)
        c->row[i].size = 0;
    set_constant(&c->w, 1);
    c->kind = solve_side(s, side, &c->d, c->numerator);
    if (c->kind == ABSENCE)
        choose_row(s, side, c);
    else if (c->d.size > 1) // else z is zero
        choose_fractions(s, side, c);
}
