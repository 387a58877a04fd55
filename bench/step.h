// The step that is timed: h[j] += factors[t] * s[j] for j below counts[t], for each t below steps.
#include <stddef.h>
#include <stdint.h>

// ours, exported by crate bench_exports: a slice is passed as a pointer and the number of its words
size_t bench_add_scaled(uint64_t *h, size_t h_words, const uint64_t *s, size_t s_words, const uint64_t *factors, size_t steps,
                        const uint64_t *counts, size_t counts_words);

// the same loop in C, one for each compiler, level and product that bench/run made
#define VARIANT(name, label) \
    void name(uint64_t *restrict h, const uint64_t *restrict s, const uint64_t *restrict factors, \
              const uint64_t *restrict counts, size_t steps);
#include "variants.inc"
#undef VARIANT
