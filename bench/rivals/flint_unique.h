// Solutions from one elimination: in lowest terms, with the certificate of a solution that is the only one, or an absence.
#ifndef FLINT_UNIQUE_H
#define FLINT_UNIQUE_H
#include "flint_job.h"

enum { TRIES = 16 };

// N/d in lowest terms, d monic
static void lowest_terms(nmod_poly_mat_t numerator, nmod_poly_t d)
{
    nmod_poly_t g;
    nmod_poly_init_mod(g, d->mod);
    nmod_poly_set(g, d);
    for (slong j = 0; j < numerator->r && g->length > 1; j++)
        nmod_poly_gcd(g, g, nmod_poly_mat_entry(numerator, j, 0));
    if (g->length > 1) {
        for (slong j = 0; j < numerator->r; j++)
            nmod_poly_div(nmod_poly_mat_entry(numerator, j, 0), nmod_poly_mat_entry(numerator, j, 0), g);
        nmod_poly_div(d, d, g);
    }
    mp_limb_t c = leading_inverse(d);
    nmod_poly_mat_scalar_mul_nmod(numerator, numerator, c);
    nmod_poly_scalar_mul_nmod(d, d, c);
    nmod_poly_clear(g);
}

// h := the greatest divisor of d that has no factor with f in common
static void coprime_part(nmod_poly_t h, const nmod_poly_t d, const nmod_poly_t f)
{
    nmod_poly_t g;
    nmod_poly_init_mod(g, d->mod);
    nmod_poly_set(h, d);
    for (nmod_poly_gcd(g, h, f); g->length > 1; nmod_poly_gcd(g, h, f))
        nmod_poly_div(h, h, g);
    nmod_poly_clear(g);
}

// whether u·N and d are coprime, for a u of numbers
static bool coprime_combination(const nmod_poly_mat_t u, const nmod_poly_mat_t numerator, const nmod_poly_t d)
{
    nmod_poly_t f, g;
    nmod_poly_init_mod(f, d->mod), nmod_poly_init_mod(g, d->mod);
    for (slong j = 0; j < u->r; j++)
        if (!nmod_poly_is_zero(nmod_poly_mat_entry(u, j, 0))) {
            nmod_poly_scalar_mul_nmod(g, nmod_poly_mat_entry(numerator, j, 0), nmod_poly_mat_entry(u, j, 0)->coeffs[0]);
            nmod_poly_add(f, f, g);
        }
    nmod_poly_gcd(g, d, f);
    bool coprime = g->length == 1;
    nmod_poly_clear(f), nmod_poly_clear(g);
    return coprime;
}

// a u of polynomials with u·N and d coprime: 1 at the first entry, and of each other what the factors of d still need
static void sure_combination(nmod_poly_mat_t u, const nmod_poly_mat_t numerator, const nmod_poly_t d)
{
    nmod_poly_t f, g, h;
    nmod_poly_init_mod(f, d->mod), nmod_poly_init_mod(g, d->mod), nmod_poly_init_mod(h, d->mod);
    nmod_poly_mat_zero(u);
    nmod_poly_one(nmod_poly_mat_entry(u, 0, 0));
    nmod_poly_set(f, nmod_poly_mat_entry(numerator, 0, 0));
    nmod_poly_gcd(g, d, f);
    for (slong j = 1; g->length > 1; j++) {
        coprime_part(h, d, f);
        nmod_poly_set(nmod_poly_mat_entry(u, j, 0), h);
        nmod_poly_mul(h, h, nmod_poly_mat_entry(numerator, j, 0));
        nmod_poly_add(f, f, h);
        nmod_poly_gcd(g, d, f);
    }
    nmod_poly_clear(f), nmod_poly_clear(g), nmod_poly_clear(h);
}

// u with u·N and d coprime: the first unit vector, drawn numbers, or polynomials, whichever does first
static void choose_combination(nmod_poly_mat_t u, struct job *t)
{
    nmod_poly_one(nmod_poly_mat_entry(u, 0, 0));
    for (int k = 0; k < TRIES; k++) {
        if (coprime_combination(u, t->numerator, t->d))
            return;
        for (slong j = 0; j < u->r; j++) {
            nmod_poly_zero(nmod_poly_mat_entry(u, j, 0));
            nmod_poly_set_coeff_ui(nmod_poly_mat_entry(u, j, 0), 0, draw(t));
        }
    }
    sure_combination(u, t->numerator, t->d);
}

// (w, Z) from z = u · part^(-1), where rank = m and the solution is the only one: then z·b = u·N / d
static void certify_unique(struct job *t)
{
    nmod_poly_mat_t u, right, x, turned;
    nmod_poly_mat_init(u, t->rank, 1, t->p), nmod_poly_mat_init(right, t->rank, 1, t->p);
    nmod_poly_mat_init(x, t->rank, 1, t->p), nmod_poly_mat_init(turned, t->rank, t->rank, t->p);
    choose_combination(u, t);
    transpose(turned, t->part);
    take_part(right, u, t->column, NULL);
    nmod_poly_mat_solve(x, t->w, turned, right);
    mp_limb_t c = leading_inverse(t->w);
    nmod_poly_scalar_mul_nmod(t->w, t->w, c);
    for (slong i = 0; i < t->rank; i++) {
        nmod_poly_struct *z = nmod_poly_mat_entry(t->z, t->row[i], 0);
        nmod_poly_scalar_mul_nmod(z, nmod_poly_mat_entry(x, i, 0), c);
        if (z->length >= t->w->length)
            nmod_poly_rem(z, z, t->w);
    }
    nmod_poly_mat_clear(u), nmod_poly_mat_clear(right), nmod_poly_mat_clear(x), nmod_poly_mat_clear(turned);
}

// the first row outside the part that A·x = det·b breaks, x standing on the part's columns; n where there is none
static slong broken_row(const struct job *t, const nmod_poly_mat_t x)
{
    slong i, k;
    nmod_poly_t sum, product;
    nmod_poly_init(sum, t->p), nmod_poly_init(product, t->p);
    for (i = 0; i < t->n; i++) {
        for (k = 0; k < t->rank && t->row[k] != i; k++)
            ;
        if (k < t->rank)
            continue;
        nmod_poly_mul(sum, t->det, nmod_poly_mat_entry(t->b, i, 0));
        for (k = 0; k < t->rank; k++) {
            nmod_poly_mul(product, nmod_poly_mat_entry(t->a, i, t->column[k]), nmod_poly_mat_entry(x, k, 0));
            nmod_poly_sub(sum, sum, product);
        }
        if (!nmod_poly_is_zero(sum))
            break;
    }
    nmod_poly_clear(sum), nmod_poly_clear(product);
    return i;
}

// A·N = d·b
static bool rows_hold(const struct job *t)
{
    nmod_poly_mat_t left, right;
    nmod_poly_mat_init(left, t->n, 1, t->p), nmod_poly_mat_init(right, t->n, 1, t->p);
    nmod_poly_mat_mul(left, t->a, t->numerator);
    nmod_poly_mat_scalar_mul_nmod_poly(right, t->b, t->d);
    bool equal = nmod_poly_mat_equal(left, right);
    nmod_poly_mat_clear(left), nmod_poly_mat_clear(right);
    return equal;
}

// q·A = 0
static bool kills_columns(const struct job *t)
{
    nmod_poly_mat_t turned, product;
    nmod_poly_mat_init(turned, t->m, t->n, t->p), nmod_poly_mat_init(product, t->m, 1, t->p);
    transpose(turned, t->a);
    nmod_poly_mat_mul(product, turned, t->z);
    bool zero = nmod_poly_mat_is_zero(product);
    nmod_poly_mat_clear(turned), nmod_poly_mat_clear(product);
    return zero;
}

// q from the broken row as a combination of the part's; false where q·A is not 0, the rank being greater than was thought
static bool certify_absence(struct job *t, slong broken)
{
    nmod_poly_mat_t right, x, turned;
    nmod_poly_struct *at = nmod_poly_mat_entry(t->z, broken, 0);
    nmod_poly_mat_init(right, t->rank, 1, t->p), nmod_poly_mat_init(x, t->rank, 1, t->p);
    nmod_poly_mat_init(turned, t->rank, t->rank, t->p);
    transpose(turned, t->part);
    for (slong k = 0; k < t->rank; k++)
        nmod_poly_set(nmod_poly_mat_entry(right, k, 0), nmod_poly_mat_entry(t->a, broken, t->column[k]));
    nmod_poly_mat_zero(t->z);
    nmod_poly_mat_solve(x, at, turned, right);
    for (slong k = 0; k < t->rank; k++)
        nmod_poly_neg(nmod_poly_mat_entry(t->z, t->row[k], 0), nmod_poly_mat_entry(x, k, 0));
    nmod_poly_mat_clear(right), nmod_poly_mat_clear(x), nmod_poly_mat_clear(turned);
    return t->sure || kills_columns(t);
}
#endif
