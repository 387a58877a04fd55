// Draws that depend on nothing but the seed: splitmix64.
#ifndef DRAWS_H
#define DRAWS_H
#include <stdbool.h>
#include <stdint.h>

struct draws {
    uint64_t state;
};

static inline uint64_t draw(struct draws *g)
{
    uint64_t z = g->state += 0x9E3779B97F4A7C15;
    z = (z ^ z >> 30) * 0xBF58476D1CE4E5B9;
    z = (z ^ z >> 27) * 0x94D049BB133111EB;
    return z ^ z >> 31;
}

// 0 to bound - 1
static inline uint32_t below(struct draws *g, uint32_t bound)
{
    return (uint32_t)((draw(g) >> 32) * bound >> 32);
}

static inline uint32_t between(struct draws *g, uint32_t low, uint32_t high)
{
    return low + below(g, high - low + 1);
}

static inline bool chance(struct draws *g, uint32_t percent)
{
    return below(g, 100) < percent;
}

// every case of a part has draws of its own
static inline struct draws draws_of(uint64_t seed, uint64_t part, uint64_t number)
{
    struct draws g = {seed};
    g.state = draw(&g) + part;
    g.state = draw(&g) + number;
    return g;
}
#endif
