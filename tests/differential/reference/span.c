// Linear algebra over the residues on the coefficients of vectors of polynomials.
#include "span.h"
#include <string.h>

void open_span(struct span *s, uint32_t p, uint32_t n, const struct polynomial *modulus)
{
    s->p = p;
    s->n = n;
    s->modulus = modulus;
    s->tail_size = modulus == NULL ? 0 : modulus->size - 1;
    memset(s->filled, 0, sizeof s->filled);
}

static uint32_t places(const struct span *s)
{
    return s->n * SYSTEM_SIZE;
}

static uint32_t words(const struct span *s)
{
    return places(s) + s->tail_size;
}

// v less that multiple of the line with this first place; words of v are sums, which 2 · PLACES steps keep below 2^64
static void take_off(const struct span *s, uint64_t *v, uint32_t place, uint32_t multiple)
{
    const uint64_t *line = s->line[place].word;
    uint32_t factor = s->p - multiple;
    for (uint32_t i = place; i < words(s); i++)
        v[i] += factor * line[i];
}

// v less lines; its first place that is not 0, or places where nothing is left
static uint32_t reduce(const struct span *s, uint64_t *v)
{
    uint32_t place = 0;
    for (; place < places(s); place++) {
        uint32_t c = (uint32_t)(v[place] % s->p);
        if (c != 0 && !s->filled[place])
            break;
        if (c != 0)
            take_off(s, v, place, c);
    }
    return place;
}

// a multiple of v, 1 at its first place, becomes a line
static void keep(struct span *s, const uint64_t *v, uint32_t place)
{
    uint64_t *line = s->line[place].word;
    uint64_t scale = inverse(s->p, (uint32_t)(v[place] % s->p));
    memset(line, 0, place * sizeof line[0]);
    for (uint32_t i = place; i < words(s); i++)
        line[i] = v[i] % s->p * scale % s->p;
    s->filled[place] = true;
}

// v := x times the line with that first place, of less than SYSTEM_SIZE coefficients
static void multiply_x(const struct span *s, uint64_t *v, uint32_t place)
{
    const uint64_t *line = s->line[place].word, *tail = line + places(s);
    memset(v, 0, words(s) * sizeof v[0]);
    memcpy(v, line + s->n, (places(s) - s->n) * sizeof v[0]);
    if (s->tail_size == 0)
        return;
    uint64_t factor = s->p - tail[s->tail_size - 1];
    for (uint32_t i = 0; i < s->tail_size; i++)
        v[places(s) + i] = (i == 0 ? 0 : tail[i - 1]) + factor * s->modulus->coefficient[i];
}

void add_vector(struct span *s, const struct polynomial *vector, uint32_t step, uint32_t tail)
{
    struct line v = {{0}};
    for (uint32_t i = 0; i < s->n; i++)
        for (uint32_t e = 0; e < vector[i * step].size; e++)
            v.word[s->n * (SYSTEM_SIZE - 1 - e) + i] = vector[i * step].coefficient[e];
    if (s->tail_size > 0)
        v.word[places(s)] = tail;
    for (uint32_t place = reduce(s, v.word); place < places(s); place = reduce(s, v.word)) {
        keep(s, v.word, place);
        if (place < s->n)
            return;
        multiply_x(s, v.word, place);
    }
}

// the last place of a line with its pivot there, or places where there is none
static uint32_t least_place(const struct span *s, uint32_t i)
{
    for (uint32_t place = places(s) - s->n + i; place < places(s); place -= s->n)
        if (s->filled[place])
            return place;
    return places(s);
}

bool is_pivot(const struct span *s, uint32_t i)
{
    return least_place(s, i) < places(s);
}

void basis_vector(const struct span *s, uint32_t i, struct polynomial *vector, struct polynomial *tail)
{
    uint32_t first = least_place(s, i);
    struct line v = s->line[first];
    for (uint32_t place = first + 1; place < places(s); place++) {
        uint32_t c = (uint32_t)(v.word[place] % s->p);
        if (c != 0 && s->filled[place])
            take_off(s, v.word, place, c);
    }
    for (uint32_t k = 0; k < s->n; k++) {
        resize(&vector[k], SYSTEM_SIZE);
        for (uint32_t e = 0; e < SYSTEM_SIZE; e++)
            vector[k].coefficient[e] = (uint32_t)(v.word[s->n * (SYSTEM_SIZE - 1 - e) + k] % s->p);
        trim(&vector[k]);
    }
    resize(tail, s->tail_size);
    for (uint32_t e = 0; e < s->tail_size; e++)
        tail->coefficient[e] = (uint32_t)(v.word[places(s) + e] % s->p);
    trim(tail);
}
