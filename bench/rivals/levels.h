// What the forms of the solver share: levels of docs/mathematics.md, section 2, and the numerator that the tails of one give.
#ifndef LEVELS_H
#define LEVELS_H
#include "lattice.h"

struct coefficients {
    uint32_t size;
    uint64_t word[HAND_TAIL];
};

// how a column came into the levels of solve.c
struct entry {
    enum { LEFT_OUT, FILLED, INSERTED } way;
    uint32_t lane;           // of the slot that it filled
    uint32_t before;         // the column of the level into whose copy it was inserted
    uint64_t factors[BLOCK]; // what its division took off, flat, each in the lane of its slot
};

struct work {
    struct system s;
    struct modulus k;
    uint64_t column[MOST + 1][BLOCK];               // the columns of A, then b
    struct level level[MOST], right, second, copy;  // right: the last level with b inserted
    uint32_t last;                                  // the column of the last level
    struct entry entry[MOST];                       // of use to solve.c only
    struct coefficients kernel[MOST];               // of size 0 where there is none
    struct coefficients d, numerator[MOST], factor; // factor: document 01's w is factor · d
    struct hand hand, target;
    struct quotients q;
};

// row i of column j, or of b for j = m, goes to lane 7 - i
static void spread_columns(struct work *w)
{
    for (uint32_t j = 0; j <= w->s.m; j++) {
        memset(w->column[j], 0, sizeof w->column[j]);
        for (uint32_t i = 0; i < w->s.n; i++) {
            struct polynomial f = j < w->s.m ? w->s.a[i][j] : w->s.b[i];
            for (uint32_t e = 0; e < f.size; e++)
                w->column[j][LANES * e + LANES - 1 - i] = f.coefficient[e];
        }
    }
}

// the hand becomes (words | 1), or a tail with a 1 in another lane
static void take(struct hand *hand, const uint64_t *words, uint32_t count, uint32_t lane, uint32_t width)
{
    memcpy(hand->block, words, count * sizeof words[0]);
    hand->length = count;
    memset(hand->tail, 0, sizeof hand->tail);
    hand->tail[lane] = 1;
    hand->tail_size = width;
}

static void clear_level(struct level *level)
{
    for (uint32_t lane = 0; lane < LANES; lane++)
        level->slot[lane].length = level->slot[lane].tail_size = 0, level->slot[lane].inverse = 0;
}

// to := from with all tails 0
static void copy_blocks(struct level *to, const struct level *from)
{
    for (uint32_t lane = 0; lane < LANES; lane++) {
        const struct slot *s = &from->slot[lane];
        to->slot[lane].length = s->length;
        to->slot[lane].tail_size = 0;
        to->slot[lane].inverse = s->inverse;
        memcpy(to->slot[lane].block, s->block, whole_rows(s->length) * sizeof s->block[0]);
    }
}

// the words := the sums, count of each; gives the size of the polynomial
static inline uint32_t reduce_words(struct modulus k, uint64_t *word, const uint64_t *sum, uint32_t count)
{
    for (uint32_t i = 0; i < count; i++)
        word[i] = reduce(k, sum[i]);
    while (count > 0 && word[count - 1] == 0)
        count--;
    return count;
}

// f := the first count sums
static void reduce_sums(struct modulus k, struct coefficients *f, const uint64_t *sum, uint32_t count)
{
    f->size = reduce_words(k, f->word, sum, count);
}

static void make_monic(struct modulus k, struct coefficients *f)
{
    uint64_t c = inverse(k, f->word[f->size - 1]);
    for (uint32_t i = 0; i < f->size; i++)
        f->word[i] = reduce(k, f->word[i] * c);
}

static void clear_block(struct hand *hand)
{
    hand->length = 0;
    memset(hand->block, 0, sizeof hand->block);
}

// target += f · words, f of that size, the words a flat block of whole rows
static void add_multiple(struct hand *target, const uint64_t *f, uint32_t size, const uint64_t *words, uint32_t count)
{
    for (uint32_t e = 0; e < size; e++)
        if (f[e] != 0)
            add_scaled(target->block + LANES * e, words, count, (uint32_t)f[e]);
    if (size > 0)
        target->length = greater(target->length, count + LANES * (size - 1));
}

// the target less N_j times column j
static void subtract_column(struct work *w, uint32_t j)
{
    const struct coefficients *n = &w->numerator[j];
    uint64_t negated[HAND_TAIL];
    for (uint32_t i = 0; i < n->size; i++)
        negated[i] = negative(w->k, n->word[i]);
    add_multiple(&w->target, negated, n->size, w->column[j], BLOCK);
}

// level j, a copy of the last level so far, gets the hand and becomes the last; gives the lane of the slot that is new, or LANES
// where there is a kernel
static uint32_t insert_hand(struct work *w, uint32_t j)
{
    w->last = j;
    uint32_t lane = insert(w->k, &w->level[j], &w->hand, 1);
    w->kernel[j].size = 0;
    if (lane == LANES)
        reduce_sums(w->k, &w->kernel[j], w->hand.tail, w->hand.tail_size);
    else
        exchange(w->k, &w->hand, &w->level[j].slot[lane], reduce(w->k, w->hand.block[w->hand.length - 1]));
    return lane;
}

// f := the polynomial given as sums, modulo g, which is not zero
static void remainder_by(struct modulus k, struct coefficients *f, uint64_t *sum, uint32_t size, const struct coefficients *g)
{
    uint64_t scale = inverse(k, g->word[g->size - 1]);
    for (; size >= g->size; size--) {
        uint64_t c = negative(k, reduce(k, reduce(k, sum[size - 1]) * scale));
        if (c == 0)
            continue;
        for (uint32_t i = 0; i + 1 < g->size; i++)
            sum[size - g->size + i] += (uint64_t)(uint32_t)c * (uint32_t)g->word[i];
    }
    reduce_sums(k, f, sum, size);
}

// N_j := the sum of quotient · tail over the slots of level j, modulo the kernel
static void combine_tails(struct work *w, uint32_t j)
{
    uint64_t sum[HAND_TAIL] = {0};
    uint32_t size = 0;
    for (uint32_t lane = 0; lane < LANES; lane++) {
        const struct slot *s = &w->level[j].slot[lane];
        if (s->tail_size == 0 || w->q.size[lane] == 0)
            continue;
        for (uint32_t e = 0; e < s->tail_size; e++)
            for (uint32_t i = 0; s->tail[e] != 0 && i < w->q.size[lane]; i++)
                sum[e + i] += (uint64_t)(uint32_t)s->tail[e] * (uint32_t)w->q.coefficient[lane][i];
        size = greater(size, s->tail_size + w->q.size[lane] - 1);
    }
    if (w->kernel[j].size > 0)
        remainder_by(w->k, &w->numerator[j], sum, size, &w->kernel[j]);
    else
        reduce_sums(w->k, &w->numerator[j], sum, size);
}

// the quotients of the target, which stays what it is; its words from its length on are 0 modulo p
static void divide_target(struct work *w, const struct level *level)
{
    leading(w->k, &w->target);
    w->hand.length = w->target.length;
    memcpy(w->hand.block, w->target.block, whole_rows(w->target.length) * sizeof w->target.block[0]);
    divide(w->k, level, &w->hand, &w->q);
}
#endif
