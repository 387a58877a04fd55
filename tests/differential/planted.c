// Columns that Z takes to multiples of w are a space over the residues: sums over the entries' coefficients a_ik of a_ik·x^k·Z_i, modulo
// w. Gauss-Jordan elimination of a table of these remainders says which coefficients are free, and what the others are then.
#include "planted.h"
#include "reference/reference.h"
#include "samples.h"

enum { UNKNOWNS = MOST * SYSTEM_SIZE };

// the remainder of x^k·Z_i is column SYSTEM_SIZE·i + k, its coefficients one below the other
struct table {
    uint32_t p, lines, unknowns, rank;
    uint32_t value[CERTIFICATE_SIZE][UNKNOWNS];
    uint32_t pivot[CERTIFICATE_SIZE]; // of the first lines, as many as the rank
    bool is_pivot[UNKNOWNS];
};

static void set_shifted(struct polynomial *f, const struct polynomial *g, uint32_t k)
{
    resize(f, g->size + k);
    for (uint32_t i = 0; i < f->size; i++)
        f->coefficient[i] = i < k ? 0 : g->coefficient[i - k];
    trim(f);
}

static void fill(struct table *t, const struct system *s, const struct certificate *c)
{
    static struct polynomial f, q;
    t->p = s->p;
    t->lines = c->w.size - 1;
    t->unknowns = s->n * SYSTEM_SIZE;
    for (uint32_t u = 0; u < t->unknowns; u++) {
        set_shifted(&f, &c->row[u / SYSTEM_SIZE], u % SYSTEM_SIZE);
        divide(s->p, &q, &f, &c->w);
        for (uint32_t l = 0; l < t->lines; l++)
            t->value[l][u] = l < f.size ? f.coefficient[l] : 0;
    }
}

// line l less that multiple of another; p(p-1) is below 2^32
static void take_off(struct table *t, uint32_t l, uint32_t other, uint32_t multiple)
{
    for (uint32_t u = 0; multiple != 0 && u < t->unknowns; u++)
        t->value[l][u] = (t->value[l][u] + (t->p - multiple) * t->value[other][u]) % t->p;
}

static void exchange_lines(struct table *t, uint32_t l, uint32_t other)
{
    for (uint32_t u = 0; u < t->unknowns; u++) {
        uint32_t value = t->value[l][u];
        t->value[l][u] = t->value[other][u];
        t->value[other][u] = value;
    }
}

// a line that is not 0 at u becomes the next of the first ones, 1 there, and the others become 0 there
static void clear_column(struct table *t, uint32_t u)
{
    uint32_t l = t->rank, line = t->rank;
    while (l < t->lines && t->value[l][u] == 0)
        l++;
    t->is_pivot[u] = l < t->lines;
    if (l == t->lines)
        return;
    exchange_lines(t, l, line);
    take_off(t, line, line, (t->p + 1 - inverse(t->p, t->value[line][u])) % t->p);
    for (l = 0; l < t->lines; l++)
        if (l != line)
            take_off(t, l, line, t->value[l][u]);
    t->pivot[t->rank++] = u;
}

// the coefficients of a column: all free ones drawn, some, one, or none; those of the pivots follow
static void draw_values(struct draws *g, const struct table *t, uint32_t value[UNKNOWNS])
{
    static const uint32_t percents[] = {100, 50, 10, 0};
    uint32_t percent = percents[below(g, 4)], one = below(g, t->unknowns);
    for (uint32_t u = 0; u < t->unknowns; u++)
        value[u] = t->is_pivot[u] || !(chance(g, percent) || u == one) ? 0 : below(g, t->p);
    for (uint32_t l = 0; l < t->rank; l++) {
        uint64_t sum = 0;
        for (uint32_t u = 0; u < t->unknowns; u++)
            if (!t->is_pivot[u])
                sum += (uint64_t)(t->p - t->value[l][u]) * value[u];
        value[t->pivot[l]] = (uint32_t)(sum % t->p);
    }
}

static void draw_columns(struct draws *g, struct system *s, const struct certificate *c)
{
    static struct table t;
    uint32_t value[UNKNOWNS];
    fill(&t, s, c);
    t.rank = 0;
    uint32_t turn = below(g, s->n) * SYSTEM_SIZE; // the row whose coefficients become pivots first
    for (uint32_t u = 0; u < t.unknowns; u++)
        clear_column(&t, (u + turn) % t.unknowns);
    for (uint32_t j = 0; j < s->m; j++) {
        draw_values(g, &t, value);
        for (uint32_t i = 0; i < s->n; i++) {
            resize(&s->a[i][j], SYSTEM_SIZE);
            for (uint32_t k = 0; k < SYSTEM_SIZE; k++)
                s->a[i][j].coefficient[k] = value[i * SYSTEM_SIZE + k];
            trim(&s->a[i][j]);
        }
    }
}

// monic: dense, a power of x, x^degree - 1, or p - 1 in all other places
static void draw_divisor(struct draws *g, uint32_t p, struct polynomial *w, uint32_t degree)
{
    uint32_t form = below(g, 6);
    w->size = 0;
    resize(w, degree + 1);
    for (uint32_t k = 0; k < degree; k++)
        w->coefficient[k] = form > 2 ? below(g, p) : form == 2 || (form == 1 && k == 0) ? p - 1 : 0;
    w->coefficient[degree] = 1;
}

// any polynomial with at most so many coefficients, or exactly so many
static void draw_row(struct draws *g, uint32_t p, struct polynomial *f, uint32_t size, bool exactly)
{
    draw_polynomial(g, p, f, size - 1, chance(g, 60) ? DENSE : chance(g, 50) ? HIGHEST : POWER);
    if (!exactly || f->size == size)
        return;
    resize(f, size);
    f->coefficient[size - 1] = between(g, 1, p - 1);
}

// Z_i: zero; a multiple of w; as the row before, but for its sign; shorter than w; of any length, or of the greatest
static void draw_entry(struct draws *g, uint32_t p, struct certificate *c, uint32_t i, uint32_t form)
{
    static struct polynomial factor;
    c->row[i].size = 0;
    if (form == 0)
        return;
    if (form == 1) {
        draw_row(g, p, &factor, CERTIFICATE_SIZE + 1 - c->w.size, false);
        add_product(p, &c->row[i], &factor, &c->w);
    } else if (form == 2 && i > 0) {
        copy(&c->row[i], &c->row[i - 1]);
        scale(p, &c->row[i], p - 1);
    } else if (form < 6 && c->w.size > 1)
        draw_row(g, p, &c->row[i], c->w.size - 1, false);
    else
        draw_row(g, p, &c->row[i], CERTIFICATE_SIZE, form > 7);
}

// all but w, Z and A: right for every w that divides Z·A
static void set_zero_solution(struct system *s, struct certificate *c)
{
    s->sides = 1;
    c->kind = SOLUTION;
    set_constant(&c->d, 1);
    for (uint32_t i = 0; i < s->n; i++)
        s->b[0][i].size = 0;
    for (uint32_t j = 0; j < s->m; j++)
        c->numerator[j].size = 0;
}

// mostly small, since the table takes the time, and never so high that nothing but zero is a column
static uint32_t draw_degree(struct draws *g, uint32_t n)
{
    uint32_t most = n * SYSTEM_SIZE > CERTIFICATE_SIZE ? CERTIFICATE_SIZE - 1 : n * SYSTEM_SIZE - 1, drawn = below(g, 100);
    uint32_t highest = drawn < 50 ? 8 : drawn < 90 ? 30 : most;
    return drawn == 99 ? most : between(g, 0, highest < most ? highest : most);
}

void plant(struct draws *g, struct system *s, struct certificate *c)
{
    s->p = draw_prime(g);
    s->n = between(g, 1, chance(g, 50) ? 3 : MOST);
    s->m = between(g, 1, MOST);
    uint32_t degree = draw_degree(g, s->n), form = below(g, 20);
    set_zero_solution(s, c);
    draw_divisor(g, s->p, &c->w, degree);
    for (uint32_t i = 0; i < s->n; i++) {
        uint32_t other = below(g, 10);
        draw_entry(g, s->p, c, i, form < 10 ? form : other);
    }
    draw_columns(g, s, c);
}

void plant_longest(struct draws *g, struct system *s, struct certificate *c)
{
    static const uint32_t primes[] = {2, 257, 65521};
    s->p = primes[below(g, 3)];
    s->n = s->m = MOST;
    set_zero_solution(s, c);
    draw_divisor(g, s->p, &c->w, CERTIFICATE_SIZE - 1);
    uint32_t size = CERTIFICATE_SIZE - below(g, 2);
    bool highest = chance(g, 50);
    for (uint32_t i = 0; i < s->n; i++) {
        draw_polynomial(g, s->p, &c->row[i], size - 1, highest ? HIGHEST : DENSE);
        resize(&c->row[i], size);
        if (c->row[i].coefficient[size - 1] == 0)
            c->row[i].coefficient[size - 1] = 1;
    }
    draw_columns(g, s, c);
}
