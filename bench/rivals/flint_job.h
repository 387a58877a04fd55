// The job of flint_solve.c: the system as FLINT's matrices, the answer, and what moves values between them and the words.
#ifndef FLINT_JOB_H
#define FLINT_JOB_H
#include <flint/nmod_mat.h>
#include <flint/nmod_poly.h>
#include <flint/nmod_poly_mat.h>
#include <string.h>
#include "reading.h"
#include "writing.h"

struct job {
    mp_limb_t p;
    slong n, m;
    nmod_poly_mat_t a, b;
    slong rank, row[MOST], column[MOST]; // these rows and columns of A are nonsingular, and there are no more
    bool sure;                           // that there are no more
    nmod_poly_mat_t part, lu;            // that part of A, and its elimination with det and order
    nmod_poly_t det;
    slong order[MOST];
    bool solution;
    nmod_poly_t d, w;
    nmod_poly_mat_t numerator, z; // columns; an absence has its q in z
    uint64_t draws;
};

static void set_polynomial(nmod_poly_t f, struct polynomial g)
{
    nmod_poly_fit_length(f, g.size);
    for (uint32_t i = 0; i < g.size; i++)
        f->coeffs[i] = g.coefficient[i];
    f->length = g.size;
}

static void job_init(struct job *t, const struct system *s)
{
    t->p = s->p, t->n = s->n, t->m = s->m, t->draws = 0;
    nmod_poly_mat_init(t->a, t->n, t->m, t->p), nmod_poly_mat_init(t->b, t->n, 1, t->p);
    nmod_poly_mat_init(t->part, 0, 0, t->p), nmod_poly_mat_init(t->lu, 0, 0, t->p);
    nmod_poly_mat_init(t->numerator, t->m, 1, t->p), nmod_poly_mat_init(t->z, t->n, 1, t->p);
    nmod_poly_init(t->det, t->p), nmod_poly_init(t->d, t->p), nmod_poly_init(t->w, t->p);
    for (slong i = 0; i < t->n; i++) {
        for (slong j = 0; j < t->m; j++)
            set_polynomial(nmod_poly_mat_entry(t->a, i, j), s->a[i][j]);
        set_polynomial(nmod_poly_mat_entry(t->b, i, 0), s->b[i]);
    }
}

static void job_clear(struct job *t)
{
    nmod_poly_mat_clear(t->a), nmod_poly_mat_clear(t->b);
    nmod_poly_mat_clear(t->part), nmod_poly_mat_clear(t->lu);
    nmod_poly_mat_clear(t->numerator), nmod_poly_mat_clear(t->z);
    nmod_poly_clear(t->det), nmod_poly_clear(t->d), nmod_poly_clear(t->w);
}

static mp_limb_t draw(struct job *t)
{
    uint64_t z = t->draws += 0x9E3779B97F4A7C15;
    z = (z ^ z >> 30) * 0xBF58476D1CE4E5B9;
    z = (z ^ z >> 27) * 0x94D049BB133111EB;
    return (z ^ z >> 31) % t->p;
}

static void resize(nmod_poly_mat_t a, slong rows, slong columns, mp_limb_t p)
{
    nmod_poly_mat_clear(a);
    nmod_poly_mat_init(a, rows, columns, p);
}

// part := these rows and columns of a; NULL stands for the first ones
static void take_part(nmod_poly_mat_t part, const nmod_poly_mat_t a, const slong *row, const slong *column)
{
    for (slong i = 0; i < part->r; i++)
        for (slong j = 0; j < part->c; j++)
            nmod_poly_set(nmod_poly_mat_entry(part, i, j),
                          nmod_poly_mat_entry(a, row == NULL ? i : row[i], column == NULL ? j : column[j]));
}

static void transpose(nmod_poly_mat_t to, const nmod_poly_mat_t from)
{
    for (slong i = 0; i < to->r; i++)
        for (slong j = 0; j < to->c; j++)
            nmod_poly_set(nmod_poly_mat_entry(to, i, j), nmod_poly_mat_entry(from, j, i));
}

static mp_limb_t leading_inverse(const nmod_poly_t f)
{
    return n_invmod(f->coeffs[f->length - 1], f->mod.n);
}

static void put_entry(struct writer *o, const nmod_poly_t f)
{
    put(o, START, (uint32_t)f->length);
    for (slong i = 0; i < f->length; i++)
        put(o, COEFFICIENT, (uint32_t)f->coeffs[i]);
}

static uint64_t put_answer(const struct job *t, struct writer *o)
{
    put(o, CERTIFICATE_HEAD, t->solution ? SOLUTION : ABSENCE);
    if (t->solution) {
        put_entry(o, t->d);
        for (slong j = 0; j < t->m; j++)
            put_entry(o, nmod_poly_mat_entry(t->numerator, j, 0));
        put_entry(o, t->w);
    }
    for (slong i = 0; i < t->n; i++)
        put_entry(o, nmod_poly_mat_entry(t->z, i, 0));
    return put_end(o);
}
#endif
