// Writing of document 01's words into lent bytes, lowest byte first.
#ifndef WRITING_H
#define WRITING_H
#include "reading.h"

struct writer {
    uint8_t *bytes;
    size_t words;
};

static inline void put(struct writer *o, uint32_t kind, uint32_t payload)
{
    uint8_t *b = o->bytes + 4 * o->words++;
    uint32_t word = kind << 28 | payload;
    b[0] = (uint8_t)word, b[1] = (uint8_t)(word >> 8), b[2] = (uint8_t)(word >> 16), b[3] = (uint8_t)(word >> 24);
}

// a polynomial whose last coefficient is not 0
static inline void put_polynomial(struct writer *o, const uint64_t *coefficient, uint32_t size)
{
    put(o, START, size);
    for (uint32_t i = 0; i < size; i++)
        put(o, COEFFICIENT, (uint32_t)coefficient[i]);
}

// the end word; gives the number of words where a refusal would have its place
static inline uint64_t put_end(struct writer *o)
{
    put(o, END, (uint32_t)o->words + 1);
    return (uint64_t)o->words << 6;
}
#endif
