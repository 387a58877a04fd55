// The solver of docs/mathematics.md, sections 2 and 3, as ours is. What the last level leaves of a column fills an empty slot of it and all
// else stays; only where that slot is filled does the column make a level of its own, with scalar tails. The way down carries the
// quotients of what is left of d · b from the last level to the first.
#include "solver.h"

// column j is left out, fills an empty slot of the last level, or makes level j
static void enter_column(struct work *w, uint32_t j)
{
    struct entry *e = &w->entry[j];
    struct level *last = &w->level[w->last];
    take(&w->hand, w->column[j], BLOCK, 0, 1);
    memset(e->factors, 0, sizeof e->factors);
    e->way = LEFT_OUT;
    if (divide_column(w->k, last, &w->hand, e->factors))
        return;
    e->lane = (w->hand.length - 1) % LANES;
    if (last->slot[e->lane].length == 0) {
        e->way = FILLED;
        w->hand.tail_size = 0;
        exchange(w->k, &w->hand, &last->slot[e->lane], reduce(w->k, w->hand.block[w->hand.length - 1]));
        return;
    }
    e->way = INSERTED;
    e->before = w->last;
    copy_blocks(&w->level[j], last);
    insert_hand(w, j);
}

// the first column that is not 0 fills a slot of level 0, so that no column makes that one
static void build_levels(struct work *w)
{
    clear_level(&w->level[0]);
    w->last = 0;
    for (uint32_t j = 0; j < w->s.m; j++)
        enter_column(w, j);
}

// N_j is the quotient of the slot that column j filled, whose lane is not used again before the next division; N_j times the factors
// goes off the other quotients. These become unreduced sums: a column adds at most 16 products to a word.
static void leave_slot(struct work *w, uint32_t j)
{
    const struct entry *e = &w->entry[j];
    struct coefficients *n = &w->numerator[j];
    struct quotients *q = &w->q;
    reduce_sums(w->k, n, q->coefficient[e->lane], q->size[e->lane]);
    memset(n->word + n->size, 0, LANES * sizeof n->word[0]);
    q->size[e->lane] = 0;
    for (uint32_t i = 0; i < BLOCK && n->size > 0; i++) {
        uint32_t lane = i % LANES, shift = i / LANES;
        if (e->factors[i] == 0)
            continue;
        add_scaled(q->coefficient[lane] + shift, n->word, whole_rows(n->size), w->k.p - (uint32_t)e->factors[i]);
        q->size[lane] = greater(q->size[lane], shift + n->size);
    }
}

// the quotients are reduced, and the target becomes what they stand for; slots that later columns filled have none any more
static void rebuild_target(struct work *w, const struct level *level)
{
    struct quotients *q = &w->q;
    clear_block(&w->target);
    for (uint32_t lane = 0; lane < LANES; lane++) {
        const struct slot *s = &level->slot[lane];
        q->size[lane] = reduce_words(w->k, q->coefficient[lane], q->coefficient[lane], q->size[lane]);
        add_multiple(&w->target, q->coefficient[lane], q->size[lane], s->block, whole_rows(s->length));
    }
}

// N_j from the tails of level j; what is left is divided by the level before, which no column has changed since column j came.
static void leave_level(struct work *w, uint32_t j)
{
    rebuild_target(w, &w->level[j]);
    combine_tails(w, j);
    subtract_column(w, j);
    divide_target(w, &w->level[w->entry[j].before]);
}

static void find_numerators(struct work *w)
{
    divide_target(w, &w->level[w->last]);
    for (uint32_t j = w->s.m; j-- > 0;)
        if (w->entry[j].way == FILLED)
            leave_slot(w, j);
        else if (w->entry[j].way == INSERTED)
            leave_level(w, j);
        else
            w->numerator[j].size = 0;
}
