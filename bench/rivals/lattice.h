// Slots, insertion and division: section 1 of docs/mathematics.md. A vector's block stands in one flat array, at index
// 8 · degree + lane, so that its last word that is not 0 is its pivot and a step is one loop. The hand holds unreduced sums.
#ifndef LATTICE_H
#define LATTICE_H
#include <string.h>
#include "reading.h"
#include "residue.h"

#ifndef TAIL_WIDTH
#define TAIL_WIDTH 1 // the greatest number of words that a tail has for each degree
#endif

enum {
    LANES = MOST,
    BLOCK = LANES * SYSTEM_SIZE,
    TAIL = TAIL_WIDTH * (CERTIFICATE_SIZE - 1 + LANES), // room for loops in whole rows of 8
    HAND_BLOCK = LANES * (SYSTEM_SIZE + CERTIFICATE_SIZE - 1),
    HAND_TAIL = TAIL_WIDTH * 264
};

// Blocks begin with a cache line, and steps move them by whole rows, which are lines: what is taken at once is never in two.
struct slot {
    uint32_t length; // index of the pivot and one more, 0 for an empty slot
    uint32_t tail_size;
    uint64_t inverse; // of the coefficient at the pivot, 0 for an empty slot
    _Alignas(64) uint64_t block[BLOCK];
    uint64_t tail[TAIL];
};

struct level {
    struct slot slot[LANES]; // by lane of the pivot
};

// Words of the block from length on are 0 modulo p, up to the end of a slot's block at least; those of the tail from its size on
// are 0.
struct hand {
    uint32_t length, tail_size;
    _Alignas(64) uint64_t block[HAND_BLOCK];
    uint64_t tail[HAND_TAIL];
};

struct quotients {
    uint32_t size[LANES];
    uint64_t coefficient[LANES][HAND_BLOCK / LANES + LANES]; // room for loops in whole rows of 8
};

static inline uint32_t whole_rows(uint32_t words)
{
    return (words + LANES - 1) / LANES * LANES;
}

static inline uint32_t greater(uint32_t a, uint32_t b)
{
    return a > b ? a : b;
}

// sum += c · word, in whole rows of 8. Not inlined: clang then sees that c has 32 bits, and multiplies by one instruction.
__attribute__((noinline)) static void add_scaled(uint64_t *restrict sum, const uint64_t *restrict word, uint32_t words,
                                                 uint32_t c)
{
    for (uint32_t i = 0; i < words / LANES * LANES; i++)
        sum[i] += (uint64_t)c * (uint32_t)word[i];
}

// the coefficient at the pivot, 0 where the block is 0; length is brought down to it
static inline uint64_t leading(struct modulus k, struct hand *hand)
{
    for (; hand->length > 0; hand->length--) {
        uint64_t a = reduce(k, hand->block[hand->length - 1]);
        if (a != 0)
            return a;
    }
    return 0;
}

// the hand's words, reduced, go into the slot and the slot's, 0 from used on, into the hand
static inline void exchange_words(struct modulus k, uint64_t *restrict hand, uint64_t *restrict slot, uint32_t used,
                                  uint32_t words)
{
    for (uint32_t i = used; i < words; i++)
        slot[i] = 0;
    for (uint32_t i = 0; i < words; i++) {
        uint64_t a = reduce(k, hand[i]);
        hand[i] = slot[i];
        slot[i] = a;
    }
}

// lead is the hand's coefficient at its pivot
static void exchange(struct modulus k, struct hand *hand, struct slot *slot, uint64_t lead)
{
    uint32_t length = slot->length, tail_size = slot->tail_size;
    exchange_words(k, hand->block, slot->block, whole_rows(length), whole_rows(greater(length, hand->length)));
    exchange_words(k, hand->tail, slot->tail, tail_size, whole_rows(greater(tail_size, hand->tail_size)));
    slot->length = hand->length, hand->length = length;
    slot->tail_size = hand->tail_size, hand->tail_size = tail_size;
    slot->inverse = inverse(k, lead);
}

// What a step will leave at the last place but one of the hand, 0 where the slot has no such place. In most cases it is the next
// leading coefficient: known before the loop over the words, the processor works out the next factor during the loop.
static inline uint64_t word_before(struct modulus k, const struct hand *hand, const struct slot *slot, uint32_t c)
{
    uint32_t last = slot->length - 1;
    return last == 0 ? 0 : reduce(k, hand->block[hand->length - 2] + (uint64_t)c * (uint32_t)slot->block[last - 1]);
}

// the coefficient at the pivot behind a step, which is that word where it is not 0; where it is, it is not looked at again
static inline uint64_t leading_after(struct modulus k, struct hand *hand, const struct slot *slot, uint64_t word)
{
    if (word != 0)
        return word;
    hand->length -= slot->length > 1;
    return leading(k, hand);
}

// block and tail of the hand += c · x^e · slot, e such that the pivots meet; a tail has width words a degree
static inline void step(struct hand *hand, const struct slot *slot, uint32_t width, uint32_t c)
{
    uint32_t at = hand->length - slot->length, tail_at = at / LANES * width;
    add_scaled(hand->block + at, slot->block, whole_rows(slot->length), c);
    hand->length--;
    if (slot->tail_size > 0) {
        add_scaled(hand->tail + tail_at, slot->tail, whole_rows(slot->tail_size), c);
        hand->tail_size = greater(hand->tail_size, tail_at + slot->tail_size);
    }
}

// the lane of the empty slot where the hand is stuck, or LANES where its block became 0
static uint32_t insert(struct modulus k, struct level *level, struct hand *hand, uint32_t width)
{
    uint64_t lead = leading(k, hand);
    while (lead != 0) {
        uint32_t lane = (hand->length - 1) % LANES;
        struct slot *slot = &level->slot[lane];
        if (slot->length == 0)
            return lane;
        if (hand->length < slot->length) {
            exchange(k, hand, slot, lead);
            lead = hand->block[hand->length - 1];
        }
        uint32_t c = k.p - (uint32_t)reduce(k, lead * slot->inverse);
        uint64_t word = word_before(k, hand, slot, c);
        step(hand, slot, width, c);
        lead = leading_after(k, hand, slot, word);
    }
    return LANES;
}

// Division that may end early: it goes on as long as the hand's pivot meets a slot that is not longer. What is taken off goes into
// the factors, flat and 0 before, each in the lane of its slot. Whether nothing is left; tails play no part.
static inline bool divide_column(struct modulus k, const struct level *level, struct hand *hand, uint64_t *factors)
{
    uint64_t lead = leading(k, hand);
    while (lead != 0) {
        uint32_t lane = (hand->length - 1) % LANES;
        const struct slot *slot = &level->slot[lane];
        if (slot->length == 0 || hand->length < slot->length)
            return false;
        uint32_t at = hand->length - slot->length, a = (uint32_t)reduce(k, lead * slot->inverse);
        uint64_t word = word_before(k, hand, slot, k.p - a);
        factors[at + lane] = a;
        add_scaled(hand->block + at, slot->block, whole_rows(slot->length), k.p - a);
        hand->length--;
        lead = leading_after(k, hand, slot, word);
    }
    return true;
}

// The quotients of a hand in the span of the slots; tails play no part. A word times an inverse is below 2^61, so that one
// reduction gives the quotient's coefficient, which is 0 for an empty slot. A filled slot's quotient has words 0 from its size on.
static void divide(struct modulus k, const struct level *level, struct hand *hand, struct quotients *q)
{
    for (uint32_t lane = 0; lane < LANES; lane++) {
        q->size[lane] = 0;
        if (level->slot[lane].length > 0)
            memset(q->coefficient[lane], 0, sizeof q->coefficient[lane]);
    }
    for (uint32_t length = hand->length; length > 0; length--) {
        uint32_t lane = (length - 1) % LANES;
        const struct slot *slot = &level->slot[lane];
        uint64_t a = reduce_wide(k, hand->block[length - 1] * slot->inverse);
        if (a == 0)
            continue;
        uint32_t at = length - slot->length, shift = at / LANES;
        q->size[lane] = greater(q->size[lane], shift + 1);
        q->coefficient[lane][shift] = a;
        add_scaled(hand->block + at, slot->block, whole_rows(slot->length), k.p - (uint32_t)a);
    }
    hand->length = 0;
}
#endif
