// Systems with more columns than rank, after Mulders and Storjohann: solutions of drawn combinations of the columns, joined by
// extended gcds, have the least denominator before long; their transposed systems certify it.
#ifndef FLINT_ROUNDS_H
#define FLINT_ROUNDS_H
#include "flint_rank.h"
#include "flint_unique.h"

struct rounds {
    nmod_poly_mat_t rows, right; // of A and b, as many as the rank
    nmod_poly_mat_t mix, square; // the combination of the columns, and the rows times it
    nmod_poly_mat_t z;           // with the job's w: certifies
    nmod_poly_t certified;
};

static void rounds_init(struct rounds *k, struct job *t)
{
    nmod_poly_mat_init(k->rows, t->rank, t->m, t->p), nmod_poly_mat_init(k->right, t->rank, 1, t->p);
    nmod_poly_mat_init(k->mix, t->m, t->rank, t->p), nmod_poly_mat_init(k->square, t->rank, t->rank, t->p);
    nmod_poly_mat_init(k->z, t->rank, 1, t->p), nmod_poly_init(k->certified, t->p);
    take_part(k->rows, t->a, t->row, NULL);
    take_part(k->right, t->b, t->row, NULL);
    nmod_poly_one(k->certified);
    nmod_poly_one(t->w);
}

static void rounds_clear(struct rounds *k)
{
    nmod_poly_mat_clear(k->rows), nmod_poly_mat_clear(k->right);
    nmod_poly_mat_clear(k->mix), nmod_poly_mat_clear(k->square);
    nmod_poly_mat_clear(k->z), nmod_poly_clear(k->certified);
}

static void draw_mix(struct rounds *k, struct job *t)
{
    for (slong i = 0; i < k->mix->r; i++)
        for (slong j = 0; j < k->mix->c; j++) {
            nmod_poly_zero(nmod_poly_mat_entry(k->mix, i, j));
            nmod_poly_set_coeff_ui(nmod_poly_mat_entry(k->mix, i, j), 0, draw(t));
        }
    nmod_poly_mat_mul(k->square, k->rows, k->mix);
}

// numerator := s · numerator + r · other
static void combine(nmod_poly_mat_t numerator, const nmod_poly_t s, const nmod_poly_mat_t other, const nmod_poly_t r)
{
    nmod_poly_mat_t product;
    nmod_poly_mat_init(product, other->r, other->c, s->mod.n);
    nmod_poly_mat_scalar_mul_nmod_poly(numerator, numerator, s);
    nmod_poly_mat_scalar_mul_nmod_poly(product, other, r);
    nmod_poly_mat_add(numerator, numerator, product);
    nmod_poly_mat_clear(product);
}

// joins the round's solution; false where the round is singular, *smaller says whether the denominator became smaller
static bool join_solution(struct rounds *k, struct job *t, bool *smaller)
{
    nmod_poly_mat_t v, other;
    nmod_poly_t den, g, s, r;
    nmod_poly_mat_init(v, t->rank, 1, t->p), nmod_poly_mat_init(other, t->m, 1, t->p);
    nmod_poly_init(den, t->p), nmod_poly_init(g, t->p), nmod_poly_init(s, t->p), nmod_poly_init(r, t->p);
    bool solved = nmod_poly_mat_solve(v, den, k->square, k->right);
    if (solved) {
        nmod_poly_mat_mul(other, k->mix, v);
        lowest_terms(other, den);
        nmod_poly_xgcd(g, s, r, t->d, den);
        *smaller = g->length < t->d->length;
        if (*smaller) {
            combine(t->numerator, s, other, r);
            nmod_poly_set(t->d, g);
            lowest_terms(t->numerator, t->d);
        }
    }
    nmod_poly_mat_clear(v), nmod_poly_mat_clear(other);
    nmod_poly_clear(den), nmod_poly_clear(g), nmod_poly_clear(s), nmod_poly_clear(r);
    return solved;
}

// e := the denominator of z·right / w
static void denominator_of(nmod_poly_t e, const nmod_poly_mat_t z, const nmod_poly_t w, const struct rounds *k)
{
    nmod_poly_t sum, product;
    nmod_poly_init_mod(sum, w->mod), nmod_poly_init_mod(product, w->mod);
    for (slong i = 0; i < z->r; i++) {
        nmod_poly_mul(product, nmod_poly_mat_entry(z, i, 0), nmod_poly_mat_entry(k->right, i, 0));
        nmod_poly_add(sum, sum, product);
    }
    nmod_poly_gcd(sum, w, sum);
    nmod_poly_div(e, w, sum);
    nmod_poly_clear(sum), nmod_poly_clear(product);
}

static void reduce_entries(nmod_poly_mat_t z, const nmod_poly_t w)
{
    for (slong i = 0; i < z->r; i++)
        if (nmod_poly_mat_entry(z, i, 0)->length >= w->length)
            nmod_poly_rem(nmod_poly_mat_entry(z, i, 0), nmod_poly_mat_entry(z, i, 0), w);
}

// f := the monic least common multiple of g and h, all monic
static void common_multiple(nmod_poly_t f, const nmod_poly_t g, const nmod_poly_t h)
{
    nmod_poly_t divisor;
    nmod_poly_init_mod(divisor, g->mod);
    nmod_poly_gcd(divisor, g, h);
    nmod_poly_div(divisor, g, divisor);
    nmod_poly_mul(f, divisor, h);
    nmod_poly_clear(divisor);
}

// w, z := a certificate of the common multiple of what is certified and e, which w2, z2 certify
static void join_certificate(struct rounds *k, struct job *t, nmod_poly_t w2, nmod_poly_mat_t z2, const nmod_poly_t e)
{
    nmod_poly_mat_t z1;
    nmod_poly_t both, w, s;
    nmod_poly_init(both, t->p), nmod_poly_init(w, t->p), nmod_poly_init(s, t->p);
    nmod_poly_mat_init_set(z1, k->z);
    common_multiple(both, k->certified, e);
    common_multiple(w, t->w, w2);
    nmod_poly_div(s, w, t->w), nmod_poly_mat_scalar_mul_nmod_poly(z1, z1, s);
    nmod_poly_div(s, w, w2), nmod_poly_mat_scalar_mul_nmod_poly(z2, z2, s);
    while (!nmod_poly_equal(k->certified, both)) {
        nmod_poly_zero(s);
        for (slong i = 0; i < MOST; i++)
            nmod_poly_set_coeff_ui(s, i, draw(t));
        nmod_poly_mat_scalar_mul_nmod_poly(k->z, z2, s);
        nmod_poly_mat_add(k->z, k->z, z1);
        reduce_entries(k->z, w);
        denominator_of(k->certified, k->z, w, k);
    }
    nmod_poly_set(t->w, w);
    nmod_poly_mat_clear(z1);
    nmod_poly_clear(both), nmod_poly_clear(w), nmod_poly_clear(s);
}

// w := the greatest monic divisor of det such that z/w keeps the rows polynomial
static void keep_polynomial(nmod_poly_t w, const nmod_poly_mat_t z, const struct rounds *k, const struct job *t)
{
    nmod_poly_t sum, product;
    nmod_poly_init(sum, t->p), nmod_poly_init(product, t->p);
    for (slong j = 0; j < t->m && w->length > 1; j++) {
        nmod_poly_zero(sum);
        for (slong i = 0; i < t->rank; i++) {
            nmod_poly_mul(product, nmod_poly_mat_entry(z, i, 0), nmod_poly_mat_entry(k->rows, i, j));
            nmod_poly_add(sum, sum, product);
        }
        nmod_poly_gcd(w, w, sum);
    }
    nmod_poly_clear(sum), nmod_poly_clear(product);
}

// what a drawn combination of the rows of square^(-1) certifies, joined to what is certified
static void certify_round(struct rounds *k, struct job *t)
{
    nmod_poly_mat_t turned, right, z;
    nmod_poly_t w, e, g;
    nmod_poly_init(w, t->p), nmod_poly_init(e, t->p), nmod_poly_init(g, t->p);
    nmod_poly_mat_init(turned, t->rank, t->rank, t->p), nmod_poly_mat_init(right, t->rank, 1, t->p);
    nmod_poly_mat_init(z, t->rank, 1, t->p);
    transpose(turned, k->square);
    for (slong i = 0; i < t->rank; i++)
        nmod_poly_set_coeff_ui(nmod_poly_mat_entry(right, i, 0), 0, draw(t));
    nmod_poly_mat_solve(z, w, turned, right);
    keep_polynomial(w, z, k, t);
    if (w->length > 1) {
        reduce_entries(z, w);
        denominator_of(e, z, w, k);
        if (!nmod_poly_divides(g, k->certified, e))
            join_certificate(k, t, w, z, e);
    }
    nmod_poly_mat_clear(turned), nmod_poly_mat_clear(right), nmod_poly_mat_clear(z);
    nmod_poly_clear(w), nmod_poly_clear(e), nmod_poly_clear(g);
}

// numerators of degree at most 120: those outside the part modulo its determinant, the others anew
static void shorten(struct rounds *k, struct job *t)
{
    nmod_poly_mat_t rest, right, x;
    nmod_poly_mat_init_set(rest, t->numerator);
    nmod_poly_mat_init(right, t->rank, 1, t->p), nmod_poly_mat_init(x, t->rank, 1, t->p);
    for (slong j = 0; j < t->rank; j++)
        nmod_poly_zero(nmod_poly_mat_entry(rest, t->column[j], 0));
    reduce_entries(rest, t->det);
    nmod_poly_mat_mul(x, k->rows, rest);
    nmod_poly_mat_scalar_mul_nmod_poly(right, k->right, t->d);
    nmod_poly_mat_sub(right, right, x);
    nmod_poly_mat_solve_fflu_precomp(x, t->order, t->lu, right);
    for (slong j = 0; j < t->rank; j++)
        nmod_poly_div(nmod_poly_mat_entry(rest, t->column[j], 0), nmod_poly_mat_entry(x, j, 0), t->det);
    nmod_poly_mat_swap(rest, t->numerator);
    nmod_poly_mat_clear(rest), nmod_poly_mat_clear(right), nmod_poly_mat_clear(x);
}

// rounds until the denominator of the joined solutions is certified; for a small prime two solutions rarely have the least
static void run_rounds(struct job *t)
{
    struct rounds k;
    bool smaller = false;
    rounds_init(&k, t);
    while (!nmod_poly_equal(t->d, k.certified)) {
        draw_mix(&k, t);
        if (!join_solution(&k, t, &smaller) || nmod_poly_equal(t->d, k.certified) || (smaller && t->p < SMALL_PRIME))
            continue;
        certify_round(&k, t);
    }
    if (nmod_poly_mat_max_length(t->numerator) > CERTIFICATE_SIZE)
        shorten(&k, t);
    for (slong i = 0; i < t->rank; i++)
        nmod_poly_set(nmod_poly_mat_entry(t->z, t->row[i], 0), nmod_poly_mat_entry(k.z, i, 0));
    rounds_clear(&k);
}
#endif
