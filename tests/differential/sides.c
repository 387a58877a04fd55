// Right sides that are added, left out, exchanged and changed, and numbers of right sides that are not there.
#include "sides.h"
#include "samples.h"

static void exchange_sides(struct system *s, uint32_t k, uint32_t l)
{
    for (uint32_t i = 0; k != l && i < s->n; i++)
        exchange(&s->b[k][i], &s->b[l][i]);
}

// a copy of a side, to stand before, between or behind the others
static void add_side(struct draws *g, struct system *s)
{
    uint32_t model = below(g, s->sides), place = below(g, s->sides + 1);
    for (uint32_t i = 0; i < s->n; i++)
        copy(&s->b[s->sides][i], &s->b[model][i]);
    for (uint32_t k = s->sides++; k > place; k--)
        exchange_sides(s, k, k - 1);
}

static void remove_side(struct draws *g, struct system *s)
{
    for (uint32_t k = below(g, s->sides); k + 1 < s->sides; k++)
        exchange_sides(s, k, k + 1);
    s->sides--;
}

void change_sides(struct draws *g, struct system *s, uint32_t side)
{
    uint32_t change = below(g, 4), other = below(g, s->sides);
    if (change == 0 && s->sides < SIDES)
        add_side(g, s);
    else if (change == 1 && s->sides > 1)
        remove_side(g, s);
    else if (change == 2)
        exchange_sides(s, side, other);
    else if (other != side)
        disturb(g, s->p, &s->b[other][below(g, s->n)], SYSTEM_SIZE - 1);
}

uint64_t draw_side_number(struct draws *g, const struct system *s, uint32_t side)
{
    // behind the last; the first that no system has; what is cut to one that the system has, or to the last that a system may have
    const uint64_t missing[] = {s->sides,   SIDES,             1u << 8 | side,    1u << 16 | side,
                                1ull << 32, 1ull << 32 | side, 1ull << 63 | side, UINT64_MAX};
    if (chance(g, 75))
        return side;
    return chance(g, 40) ? below(g, s->sides) : missing[below(g, sizeof missing / sizeof missing[0])];
}
