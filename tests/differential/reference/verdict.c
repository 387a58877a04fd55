// The conditions on a certificate's values, in document 01's order; b is the right side that is meant.
#include "reference.h"

static struct refusal refused(uint32_t number, uint32_t place)
{
    return (struct refusal){number, place};
}

// A·N = d·b in row i
static bool row_holds(const struct system *s, const struct polynomial *b, const struct certificate *c, uint32_t i)
{
    static struct polynomial f;
    f.size = 0;
    for (uint32_t j = 0; j < s->m; j++)
        add_product(s->p, &f, &s->a[i][j], &c->numerator[j]);
    subtract_product(s->p, &f, &c->d, &b[i]);
    return f.size == 0;
}

// f := Z or q times a column, whose entries are step polynomials apart
static void row_times(const struct system *s, const struct certificate *c, const struct polynomial *column, uint32_t step,
                      struct polynomial *f)
{
    f->size = 0;
    for (uint32_t i = 0; i < s->n; i++)
        add_product(s->p, f, &c->row[i], &column[i * step]);
}

static bool column_divides(const struct system *s, const struct certificate *c, uint32_t j)
{
    static struct polynomial f, q;
    row_times(s, c, &s->a[0][j], MOST, &f);
    divide(s->p, &q, &f, &c->w);
    return f.size == 0;
}

// w divided by the greatest common divisor of w and Z·b, made monic, is d
static bool denominators_agree(const struct system *s, const struct polynomial *b, const struct certificate *c)
{
    static struct polynomial f, g, q;
    row_times(s, c, b, 1, &f);
    copy(&g, &c->w);
    common_divisor(s->p, &g, &f);
    copy(&f, &c->w);
    divide(s->p, &q, &f, &g);
    make_monic(s->p, &q);
    return equal(&q, &c->d);
}

static struct refusal solution_verdict(const struct system *s, const struct polynomial *b, const struct certificate *c)
{
    if (!is_monic(&c->d))
        return refused(31, 0);
    if (!is_monic(&c->w))
        return refused(31, 1);
    for (uint32_t i = 0; i < s->n; i++)
        if (!row_holds(s, b, c, i))
            return refused(32, i);
    for (uint32_t j = 0; j < s->m; j++)
        if (!column_divides(s, c, j))
            return refused(33, j);
    return refused(denominators_agree(s, b, c) ? 0 : 34, 0);
}

static struct refusal absence_verdict(const struct system *s, const struct polynomial *b, const struct certificate *c)
{
    static struct polynomial f;
    for (uint32_t j = 0; j < s->m; j++) {
        row_times(s, c, &s->a[0][j], MOST, &f);
        if (f.size != 0)
            return refused(35, j);
    }
    row_times(s, c, b, 1, &f);
    return refused(f.size == 0 ? 36 : 0, 0);
}

struct refusal verdict(const struct system *s, uint32_t side, const struct certificate *c)
{
    return (c->kind == SOLUTION ? solution_verdict : absence_verdict)(s, s->b[side], c);
}

// 10 comes first, of either file, then the words of the system, its right side, and the words of the certificate
struct refusal check_files(const struct file *system, uint64_t side, const struct file *certificate)
{
    static struct system s;
    static struct certificate c;
    struct refusal r = read_to_side(&s, system, side);
    if (!holds_words(certificate))
        return refused(10, 0);
    if (r.number == 0)
        r = read_certificate(&c, &s, certificate);
    return r.number == 0 ? verdict(&s, (uint32_t)side, &c) : r;
}
