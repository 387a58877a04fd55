// The second system of docs/mathematics.md, section 2, which gives w and Z, or q. Its coordinate i stands in lane i, moved up by
// its weight; the tops are the slots that it is made of, coordinate i's in the slot of lane 7 - i.
#ifndef SECOND_H
#define SECOND_H
#include "levels.h"
#include "writing.h"

// slot l of the second system is the row of the tops at lane 7 - l
static void transpose(struct level *second, const struct level *tops, uint32_t degree)
{
    clear_level(second);
    for (uint32_t l = 0; l < LANES; l++) {
        const struct slot *top = &tops->slot[LANES - 1 - l];
        if (top->length == 0)
            continue;
        memset(second->slot[l].block, 0, sizeof second->slot[l].block);
        second->slot[l].length = LANES * degree + l + 1;
        second->slot[l].inverse = top->inverse;
    }
    for (uint32_t i = 0; i < LANES; i++) {
        const struct slot *top = &tops->slot[LANES - 1 - i];
        uint32_t rows = whole_rows(top->length) / LANES, weight = degree + 1 - rows;
        for (uint32_t l = 0; l < LANES; l++)
            for (uint32_t e = 0; e < rows && second->slot[l].length > 0; e++)
                second->slot[l].block[LANES * (e + weight) + i] = top->block[LANES * e + LANES - 1 - l];
    }
}

// the right side, into the target: the tops' tails or, for an absence, their coordinate in the stuck lane
static void second_right(struct hand *target, const struct level *tops, uint32_t degree, uint32_t stuck)
{
    clear_block(target);
    target->length = BLOCK;
    for (uint32_t i = 0; i < LANES; i++) {
        const struct slot *top = &tops->slot[LANES - 1 - i];
        uint32_t rows = whole_rows(top->length) / LANES, weight = degree + 1 - rows;
        uint32_t size = stuck == LANES ? top->tail_size : rows;
        if (rows == 0)
            continue;
        for (uint32_t e = 0; e < size; e++)
            target->block[LANES * (e + weight) + i] = stuck == LANES ? top->tail[e] : top->block[LANES * e + stuck];
        target->length = greater(target->length, LANES * (size + weight));
    }
}

// factor, and the quotients Y by coordinate
static void solve_second(struct work *w, const struct level *tops, uint32_t stuck)
{
    uint32_t degree = 0;
    for (uint32_t lane = 0; lane < LANES; lane++)
        if (tops->slot[lane].length > 0)
            degree = greater(degree, (tops->slot[lane].length - 1) / LANES);
    transpose(&w->second, tops, degree);
    second_right(&w->target, tops, degree, stuck);
    copy_blocks(&w->copy, &w->second);
    take(&w->hand, w->target.block, w->target.length, 0, 1);
    insert(w->k, &w->copy, &w->hand, 1);
    reduce_sums(w->k, &w->factor, w->hand.tail, w->hand.tail_size);
    make_monic(w->k, &w->factor);
    clear_block(&w->hand);
    add_multiple(&w->hand, w->factor.word, w->factor.size, w->target.block, w->target.length);
    divide(w->k, &w->second, &w->hand, &w->q);
}

// Takes off one top what the others divide of it behind its pivot; the words above the hand's length are what none divides. Gives the
// number of steps.
static uint32_t reduce_block(struct work *w, const struct slot *top)
{
    struct hand *hand = &w->hand;
    uint32_t steps = 0;
    memcpy(hand->block, top->block, whole_rows(top->length) * sizeof top->block[0]);
    memset(hand->tail, 0, sizeof hand->tail);
    memcpy(hand->tail, top->tail, top->tail_size * sizeof top->tail[0]);
    hand->tail_size = top->tail_size;
    for (hand->length = top->length - 1; hand->length > 0;) {
        const struct slot *slot = &w->right.slot[(hand->length - 1) % LANES];
        uint64_t a = hand->length < slot->length ? 0 : reduce_wide(w->k, hand->block[hand->length - 1] * slot->inverse);
        if (a == 0) {
            hand->length--;
            continue;
        }
        step(hand, slot, 1, w->k.p - (uint32_t)a);
        steps++;
    }
    return steps;
}

// Brings the tops into Popov form, tails modulo d: then the rows of Z are short.
static void reduce_tops(struct work *w)
{
    struct coefficients tail;
    for (uint32_t lane = 0; lane < LANES; lane++) {
        struct slot *top = &w->right.slot[lane];
        if (top->length == 0)
            continue;
        if (reduce_block(w, top) > 0)
            reduce_words(w->k, top->block, w->hand.block, whole_rows(top->length));
        else if (top->tail_size < w->d.size)
            continue;
        remainder_by(w->k, &tail, w->hand.tail, w->hand.tail_size, &w->d);
        top->tail_size = tail.size;
        memset(top->tail, 0, sizeof top->tail);
        memcpy(top->tail, tail.word, tail.size * sizeof tail.word[0]);
    }
}

// Z, or q with the factor in the stuck row and -Y elsewhere
static void put_rows(struct work *w, struct writer *o, uint32_t stuck)
{
    for (uint32_t i = 0; i < w->s.n; i++) {
        if (stuck == LANES - 1 - i) {
            put_polynomial(o, w->factor.word, w->factor.size);
            continue;
        }
        for (uint32_t e = 0; e < w->q.size[i] && stuck != LANES; e++)
            w->q.coefficient[i][e] = negative(w->k, w->q.coefficient[i][e]);
        put_polynomial(o, w->q.coefficient[i], w->q.size[i]);
    }
}

// factor · d
static void put_denominator(struct work *w, struct writer *o)
{
    uint64_t sum[HAND_TAIL] = {0};
    struct coefficients product;
    for (uint32_t e = 0; e < w->factor.size; e++)
        for (uint32_t i = 0; w->factor.word[e] != 0 && i < w->d.size; i++)
            sum[e + i] += (uint64_t)(uint32_t)w->factor.word[e] * (uint32_t)w->d.word[i];
    reduce_sums(w->k, &product, sum, w->factor.size + w->d.size - 1);
    put_polynomial(o, product.word, product.size);
}
#endif
