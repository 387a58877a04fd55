// Rows and columns of A that are nonsingular, as many as the rank, and their elimination without fractions (nmod_poly_mat_fflu).
#ifndef FLINT_RANK_H
#define FLINT_RANK_H
#include "flint_job.h"

// Below the small prime a matrix of full rank is often singular at a point. From the large prime on, the chance that the rank is
// too small at all of three drawn points is below 10^-6.
enum { POINTS = 3, SMALL_PRIME = 100, LARGE_PRIME = 1 << 14 };

static inline slong lesser(slong a, slong b)
{
    return a < b ? a : b;
}

static void first_rows_and_columns(struct job *t)
{
    t->rank = lesser(t->n, t->m);
    for (slong i = 0; i < t->rank; i++)
        t->row[i] = t->column[i] = i;
}

// rank, rows and columns of A at a point, where its rank is greater than was known: a lower bound
static void rank_at(struct job *t, mp_limb_t x)
{
    nmod_mat_t value;
    slong order[MOST] = {0, 1, 2, 3, 4, 5, 6, 7};
    nmod_mat_init(value, t->n, t->m, t->p);
    nmod_poly_mat_evaluate_nmod(value, t->a, x);
    slong rank = nmod_mat_lu(order, value, 0);
    if (rank > t->rank) {
        t->rank = rank;
        for (slong k = 0, j = 0; k < rank; k++, j++) {
            while (nmod_mat_entry(value, k, j) == 0)
                j++;
            t->row[k] = order[k], t->column[k] = j;
        }
    }
    nmod_mat_clear(value);
}

// the truth, from an elimination of A and its order of the rows
static void rank_from(struct job *t, const nmod_poly_mat_t lu, const slong *order, slong rank)
{
    t->rank = rank, t->sure = true;
    for (slong k = 0, j = 0; k < rank; k++, j++) {
        while (nmod_poly_is_zero(nmod_poly_mat_entry(lu, k, j)))
            j++;
        t->row[k] = order[k], t->column[k] = j;
    }
}

static void rank_exactly(struct job *t)
{
    nmod_poly_mat_t lu;
    slong order[MOST] = {0, 1, 2, 3, 4, 5, 6, 7};
    nmod_poly_mat_init(lu, t->n, t->m, t->p);
    slong rank = nmod_poly_mat_fflu(lu, t->det, order, t->a, 0);
    rank_from(t, lu, order, rank);
    nmod_poly_mat_clear(lu);
}

// a guess: the greatest rank at some points, or for a small prime that the first rows and columns are nonsingular
static void guess_rank(struct job *t)
{
    first_rows_and_columns(t);
    if (t->p >= SMALL_PRIME) {
        t->rank = 0;
        for (int k = 0; k < POINTS && t->rank < lesser(t->n, t->m); k++)
            rank_at(t, draw(t));
    }
    t->sure = t->rank == lesser(t->n, t->m);
}

// the part and its elimination; where a guess was singular, the true rank's
static void eliminate(struct job *t)
{
    slong first[MOST] = {0, 1, 2, 3, 4, 5, 6, 7};
    resize(t->part, t->rank, t->rank, t->p);
    resize(t->lu, t->rank, t->rank, t->p);
    memcpy(t->order, first, sizeof first);
    take_part(t->part, t->a, t->row, t->column);
    nmod_poly_one(t->det);
    slong rank = nmod_poly_mat_fflu(t->lu, t->det, t->order, t->part, 0);
    if (rank == t->rank)
        return;
    if (t->rank == t->n && t->rank == t->m)
        rank_from(t, t->lu, t->order, rank);
    else
        rank_exactly(t);
    eliminate(t);
}
#endif
