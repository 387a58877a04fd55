// Systems by a triangular basis. Below A stand the rows of the unit matrix, the last first, which record what is done to the columns.
// Unimodular operations on the columns, row by row, leave each with its first entry that is not zero, its pivot, in a lower row than
// the column before. Those with a pivot in a row of A have the same polynomial combinations as A: e·b is A times polynomials exactly
// when e times each coordinate of b over them is a polynomial. The others are a basis of the vectors v with A·v = 0.
#include "reference.h"

enum { HEIGHT = 2 * MOST };

struct column {
    struct polynomial entry[HEIGHT];
};

struct basis {
    uint32_t rank, height, pivot[MOST]; // rank: columns with a pivot so far
    struct column column[MOST];         // all m
};

// the column from first on, other than skip, whose entry in the row has the greatest degree; m where all are zero
static uint32_t greatest(const struct basis *h, uint32_t row, uint32_t first, uint32_t m, uint32_t skip)
{
    uint32_t found = m;
    for (uint32_t j = first; j < m; j++) {
        uint32_t size = h->column[j].entry[row].size;
        if (j != skip && size > 0 && (found == m || size > h->column[found].entry[row].size))
            found = j;
    }
    return found;
}

// a vector, zero above the row, less the multiple of a column that leaves a remainder in the row
static void reduce_vector(uint32_t p, uint32_t height, uint32_t row, struct polynomial *f, const struct polynomial *column)
{
    static struct polynomial q;
    divide(p, &q, &f[row], &column[row]);
    for (uint32_t i = row + 1; i < height; i++)
        subtract_product(p, &f[i], &q, &column[i]);
}

// Euclid on the row's entries from column h->rank on, always the greatest by the next: one at most is left, the new pivot.
static void clear_row(uint32_t p, uint32_t m, struct basis *h, uint32_t row)
{
    for (;;) {
        uint32_t j = greatest(h, row, h->rank, m, m), k = greatest(h, row, h->rank, m, j);
        if (j == m)
            return;
        if (k == m) {
            struct column t = h->column[j];
            h->column[j] = h->column[h->rank];
            h->column[h->rank] = t;
            h->pivot[h->rank++] = row;
            return;
        }
        reduce_vector(p, h->height, row, h->column[j].entry, h->column[k].entry);
    }
}

// the rows of the unit matrix if wanted
static void make_basis(const struct system *s, struct basis *h, bool record)
{
    h->rank = 0;
    h->height = record ? s->n + s->m : s->n;
    for (uint32_t j = 0; j < s->m; j++)
        for (uint32_t i = 0; i < h->height; i++)
            if (i < s->n)
                copy(&h->column[j].entry[i], &s->a[i][j]);
            else
                set_constant(&h->column[j].entry[i], h->height - 1 - i == j);
    for (uint32_t row = 0; row < h->height && h->rank < s->m; row++)
        clear_row(s->p, s->m, h, row);
}

static bool same_matrix(const struct system *s, const struct system *t)
{
    bool same = s->p == t->p && s->n == t->n && s->m == t->m;
    for (uint32_t i = 0; same && i < s->n; i++)
        for (uint32_t j = 0; same && j < s->m; j++)
            same = equal(&s->a[i][j], &t->a[i][j]);
    return same;
}

// The basis of A, with the rows of the unit matrix if wanted. The last one is kept, because the right sides of a system are asked for
// one after another.
static const struct basis *basis_of(const struct system *s, bool record)
{
    static struct system last;
    static struct basis h;
    if (same_matrix(s, &last) && (h.height > s->n || !record))
        return &h;
    make_basis(s, &h, record);
    last.p = s->p, last.n = s->n, last.m = s->m;
    for (uint32_t i = 0; i < s->n; i++)
        for (uint32_t j = 0; j < s->m; j++)
            copy(&last.a[i][j], &s->a[i][j]);
    return &h;
}

// One coordinate: b less the coordinates so far is rest / d, and the next is rest[pivot] / (d · pivot entry). The denominator
// grows by the factor e that this pivot entry has not in common with rest[pivot].
static void take_coordinate(uint32_t p, const struct basis *h, uint32_t k, uint32_t n, struct polynomial *rest,
                            struct polynomial *d)
{
    static struct polynomial e, g, t, coordinate;
    const struct polynomial *column = h->column[k].entry;
    uint32_t row = h->pivot[k];
    copy(&g, &column[row]);
    copy(&t, &rest[row]);
    common_divisor(p, &g, &t);
    copy(&t, &column[row]);
    divide(p, &e, &t, &g);
    copy(&t, &rest[row]);
    divide(p, &coordinate, &t, &g);
    for (uint32_t i = row; i < n; i++) {
        set_product(p, &t, &e, &rest[i]);
        subtract_product(p, &t, &coordinate, &column[i]);
        exchange(&t, &rest[i]);
    }
    set_product(p, &t, &e, d);
    exchange(&t, d);
}

static bool all_zero(const struct polynomial *f, uint32_t count)
{
    for (uint32_t i = 0; i < count; i++)
        if (f[i].size != 0)
            return false;
    return true;
}

// kind, and the least denominator, by the pivots in the rows of A
static enum kind find_denominator(const struct system *s, const struct basis *h, const struct polynomial *b, struct polynomial *d)
{
    static struct polynomial rest[MOST];
    for (uint32_t i = 0; i < s->n; i++)
        copy(&rest[i], &b[i]);
    set_constant(d, 1);
    for (uint32_t k = 0; k < h->rank && h->pivot[k] < s->n; k++) {
        if (!all_zero(rest, h->pivot[k])) // no column from k on has anything above its pivot
            return ABSENCE;
        take_coordinate(s->p, h, k, s->n, rest, d);
    }
    make_monic(s->p, d);
    return all_zero(rest, s->n) ? SOLUTION : ABSENCE;
}

// (d·b, 0) less multiples of all columns is (0, -N): a pivot in a row of A leaves nothing, one below it a remainder
static enum kind find_solution(const struct system *s, const struct basis *h, const struct polynomial *b, struct polynomial *d,
                               struct polynomial *numerator)
{
    static struct polynomial rest[HEIGHT];
    if (find_denominator(s, h, b, d) == ABSENCE)
        return ABSENCE;
    for (uint32_t i = 0; i < h->height; i++)
        rest[i].size = 0;
    for (uint32_t i = 0; i < s->n; i++)
        set_product(s->p, &rest[i], d, &b[i]);
    for (uint32_t k = 0; k < s->m; k++)
        reduce_vector(s->p, h->height, h->pivot[k], rest, h->column[k].entry);
    for (uint32_t j = 0; j < s->m; j++) {
        copy(&numerator[j], &rest[h->height - 1 - j]);
        scale(s->p, &numerator[j], s->p - 1);
    }
    return SOLUTION;
}

enum kind least_denominator(const struct system *s, uint32_t side, struct polynomial *d)
{
    return find_denominator(s, basis_of(s, false), s->b[side], d);
}

enum kind solve_side(const struct system *s, uint32_t side, struct polynomial *d, struct polynomial *numerator)
{
    return find_solution(s, basis_of(s, true), s->b[side], d, numerator);
}

enum kind solve_single(const struct system *s, struct polynomial *d, struct polynomial *numerator)
{
    static struct basis h;
    make_basis(s, &h, true);
    return find_solution(s, &h, s->b[0], d, numerator);
}

uint32_t kernel(const struct system *s, struct polynomial v[MOST][MOST])
{
    const struct basis *h = basis_of(s, true);
    uint32_t count = 0;
    for (uint32_t k = 0; k < s->m; k++) {
        if (h->pivot[k] < s->n)
            continue;
        for (uint32_t j = 0; j < s->m; j++)
            copy(&v[count][j], &h->column[k].entry[h->height - 1 - j]);
        count++;
    }
    return count;
}
