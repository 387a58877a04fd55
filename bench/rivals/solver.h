// The solver but for its levels and its numerators, which the including file gives by build_levels and find_numerators.
#ifndef SOLVER_H
#define SOLVER_H
#include "levels.h"
#include "second.h"
#include "writing.h"

static void build_levels(struct work *w);
static void find_numerators(struct work *w);

static void put_coefficients(struct writer *o, const struct coefficients *f)
{
    put_polynomial(o, f->word, f->size);
}

static uint64_t solve(struct work *w, struct writer *o)
{
    spread_columns(w);
    build_levels(w);
    const struct level *last = &w->level[w->last];
    copy_blocks(&w->right, last);
    take(&w->hand, w->column[w->s.m], BLOCK, 0, 1);
    uint32_t stuck = insert(w->k, &w->right, &w->hand, 1);
    put(o, CERTIFICATE_HEAD, stuck == LANES ? SOLUTION : ABSENCE);
    if (stuck == LANES) {
        reduce_sums(w->k, &w->d, w->hand.tail, w->hand.tail_size);
        make_monic(w->k, &w->d);
        clear_block(&w->target);
        add_multiple(&w->target, w->d.word, w->d.size, w->column[w->s.m], BLOCK);
        find_numerators(w);
        put_coefficients(o, &w->d);
        for (uint32_t j = 0; j < w->s.m; j++)
            put_coefficients(o, &w->numerator[j]);
    }
    if (stuck == LANES)
        reduce_tops(w);
    solve_second(w, stuck == LANES ? &w->right : last, stuck);
    if (stuck == LANES)
        put_denominator(w, o);
    put_rows(w, o, stuck);
    return put_end(o);
}

uint64_t NAME(const uint8_t *system, size_t system_bytes, uint64_t side, uint8_t *certificate, size_t lent_bytes)
{
    struct work w;
    struct writer o = {certificate, 0};
    uint64_t refusal = read_to_solve(&w.s, system, system_bytes, side, lent_bytes);
    if (refusal != 0)
        return refusal;
    w.k = modulus_of(w.s.p);
    return solve(&w, &o);
}
#endif
