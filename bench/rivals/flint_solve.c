// What a user of FLINT would do for the solver's job, with nmod_poly_mat's elimination without fractions and nmod_poly's gcds. As
// many rows and columns as the rank give a solution, or a row that it breaks. If no column is left over it is the only solution,
// and the transposed system certifies its denominator: for a nonsingular square A two solves and two gcds. Else further rounds.
#include "flint_job.h"
#include "flint_rank.h"
#include "flint_rounds.h"
#include "flint_unique.h"

// the solution on the part's columns, 0 elsewhere
static void take_solution(struct job *t, const nmod_poly_mat_t x)
{
    nmod_poly_set(t->d, t->det);
    nmod_poly_mat_zero(t->numerator);
    for (slong j = 0; j < t->rank; j++)
        nmod_poly_set(nmod_poly_mat_entry(t->numerator, t->column[j], 0), nmod_poly_mat_entry(x, j, 0));
    lowest_terms(t->numerator, t->d);
}

// false where the rank turns out greater than was thought
static bool solve_part(struct job *t)
{
    bool right = true;
    nmod_poly_mat_t b, x;
    nmod_poly_mat_init(b, t->rank, 1, t->p), nmod_poly_mat_init(x, t->rank, 1, t->p);
    take_part(b, t->b, t->row, NULL);
    if (t->rank > 0)
        nmod_poly_mat_solve_fflu_precomp(x, t->order, t->lu, b);
    slong broken = broken_row(t, x);
    t->solution = broken == t->n;
    if (t->solution)
        take_solution(t, x);
    if (!t->solution)
        right = certify_absence(t, broken);
    else if (nmod_poly_is_one(t->d))
        nmod_poly_one(t->w);
    else if (t->rank == t->m)
        certify_unique(t);
    else {
        run_rounds(t);
        right = t->sure || t->p >= LARGE_PRIME || rows_hold(t);
    }
    nmod_poly_mat_clear(b), nmod_poly_mat_clear(x);
    return right;
}

uint64_t NAME(const uint8_t *system, size_t system_bytes, uint64_t side, uint8_t *certificate, size_t lent_bytes)
{
    struct system s;
    struct job t;
    struct writer o = {certificate, 0};
    uint64_t refusal = read_to_solve(&s, system, system_bytes, side, lent_bytes);
    if (refusal != 0)
        return refusal;
    job_init(&t, &s);
    guess_rank(&t);
    eliminate(&t);
    if (!solve_part(&t)) {
        rank_exactly(&t);
        eliminate(&t);
        solve_part(&t);
    }
    uint64_t result = put_answer(&t, &o);
    job_clear(&t);
    return result;
}
