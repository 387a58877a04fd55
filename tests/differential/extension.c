// One more row or column: copied from another, copied with one coefficient changed in each entry, or drawn anew.
#include "extension.h"
#include "reference/reference.h"
#include "samples.h"

// f := g, sometimes with one coefficient changed, or drawn anew
static void draw_like(struct draws *d, uint32_t p, struct polynomial *f, const struct polynomial *g, uint32_t change)
{
    copy(f, g);
    if (change == 2)
        draw_polynomial(d, p, f, SYSTEM_SIZE - 1, SPARSE);
    if (change != 1 || f->size == 0)
        return;
    uint32_t i = below(d, f->size);
    f->coefficient[i] = (f->coefficient[i] + 1) % p;
    trim(f);
}

// the last of count polynomials goes to a place, those from there on one further
static void rotate(struct polynomial *f, uint32_t step, uint32_t place, uint32_t count)
{
    for (uint32_t i = count - 1; i > place; i--)
        exchange(&f[i * step], &f[(i - 1) * step]);
}

static void add_column(struct draws *g, struct system *s, struct certificate *c)
{
    uint32_t model = below(g, s->m), place = below(g, s->m + 1), change = below(g, 4);
    for (uint32_t i = 0; i < s->n; i++) {
        draw_like(g, s->p, &s->a[i][s->m], &s->a[i][model], change);
        rotate(s->a[i], 1, place, s->m + 1);
    }
    c->numerator[s->m].size = 0;
    rotate(c->numerator, 1, place, ++s->m);
}

static void add_row(struct draws *g, struct system *s, struct certificate *c)
{
    uint32_t model = below(g, s->n), place = below(g, s->n + 1), change = below(g, 4);
    for (uint32_t j = 0; j < s->m; j++) {
        draw_like(g, s->p, &s->a[s->n][j], &s->a[model][j], change);
        rotate(&s->a[0][j], MOST, place, s->n + 1);
    }
    for (uint32_t side = 0; side < s->sides; side++) {
        draw_like(g, s->p, &s->b[side][s->n], &s->b[side][model], change);
        rotate(s->b[side], 1, place, s->n + 1);
    }
    c->row[s->n].size = 0;
    rotate(c->row, 1, place, ++s->n);
}

bool extend(struct draws *g, struct system *s, struct file *certificate)
{
    static struct certificate c;
    bool column = chance(g, 60);
    if ((column ? s->m : s->n) == MOST)
        return false;
    read_certificate(&c, s, certificate);
    (column ? add_column : add_row)(g, s, &c);
    write_certificate(certificate, s, &c);
    return true;
}
