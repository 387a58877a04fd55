// The loop of add_scaled in C. bench/run compiles this file once for each variant: NAME is the variant's, PRODUCT(c, x) how it
// multiplies two words.
#include "step.h"

static void add_scaled(uint64_t *restrict h, const uint64_t *restrict s, size_t n, uint64_t c)
{
    for (size_t j = 0; j < n; j++)
        h[j] += PRODUCT(c, s[j]);
}

void NAME(uint64_t *restrict h, const uint64_t *restrict s, const uint64_t *restrict factors, const uint64_t *restrict counts,
          size_t steps)
{
    for (size_t t = 0; t < steps; t++)
        add_scaled(h, s, counts[t], factors[t]);
}
