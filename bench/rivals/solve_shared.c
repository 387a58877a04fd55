// The solver in another form: every column is a level with scalar tails, and the first columns, as long as the rank grows, also
// share one whose tails have a lane for each column, so that one division gives all their numerators; a column in the span of those
// before it is passed over.
#define TAIL_WIDTH 8
#include "solver.h"

static struct level shared; // its blocks are those of level[columns - 1]
static uint32_t columns;    // the number of columns that share it

// level j := the last level with column j inserted; gives what insert_hand gives
static uint32_t build_level(struct work *w, uint32_t j)
{
    if (j == 0)
        clear_level(&w->level[0]);
    else
        copy_blocks(&w->level[j], &w->level[w->last]);
    take(&w->hand, w->column[j], BLOCK, 0, 1);
    return insert_hand(w, j);
}

static void build_levels(struct work *w)
{
    clear_level(&shared);
    columns = 0;
    for (uint32_t j = 0; j < w->s.m; j++) {
        uint32_t lane = build_level(w, j);
        if (lane == LANES || columns < j)
            continue;
        take(&w->hand, w->column[j], BLOCK, j, LANES);
        insert(w->k, &shared, &w->hand, LANES);
        exchange(w->k, &w->hand, &shared.slot[lane], reduce(w->k, w->hand.block[w->hand.length - 1]));
        columns++;
    }
}

// N_j from the target, and the target less N_j times column j
static void find_numerator(struct work *w, uint32_t j)
{
    divide_target(w, &w->level[j]);
    combine_tails(w, j);
    subtract_column(w, j);
}

// the numerators of all columns of the shared level from one division
static void shared_numerators(struct work *w)
{
    uint64_t sum[HAND_TAIL] = {0}, lane_sum[HAND_TAIL];
    uint32_t rows = 0;
    leading(w->k, &w->target);
    divide(w->k, &shared, &w->target, &w->q);
    for (uint32_t lane = 0; lane < LANES; lane++) {
        const struct slot *s = &shared.slot[lane];
        for (uint32_t e = 0; e < w->q.size[lane]; e++)
            add_scaled(sum + LANES * e, s->tail, whole_rows(s->tail_size), (uint32_t)w->q.coefficient[lane][e]);
        if (w->q.size[lane] > 0)
            rows = greater(rows, w->q.size[lane] - 1 + whole_rows(s->tail_size) / LANES);
    }
    for (uint32_t j = 0; j < columns; j++) {
        for (uint32_t e = 0; e < rows; e++)
            lane_sum[e] = sum[LANES * e + j];
        reduce_sums(w->k, &w->numerator[j], lane_sum, rows);
    }
}

static void find_numerators(struct work *w)
{
    for (uint32_t j = w->s.m; j-- > columns;)
        if (w->kernel[j].size == 1)
            w->numerator[j].size = 0;
        else
            find_numerator(w, j);
    shared_numerators(w);
}
