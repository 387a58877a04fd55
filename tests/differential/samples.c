// Random systems. Special ones come from products A = T·F: their rank, common factors and denominators are those of T and F.
#include "samples.h"
#include "reference/reference.h"

enum { LARGE = 200 }; // coefficients of A, from which on a system takes time

struct matrix {
    struct polynomial entry[MOST][MOST];
};

uint32_t draw_prime(struct draws *g)
{
    static const uint32_t special[] = {2, 2, 3, 3, 5, 7, 257, 65521};
    if (chance(g, 75))
        return special[below(g, sizeof special / sizeof special[0])];
    uint32_t p = chance(g, 50) ? between(g, 2, 100) : between(g, 2, 65521);
    while (!is_prime(p))
        p--;
    return p;
}

// f times x + c
static void multiply_linear(uint32_t p, struct polynomial *f, uint32_t c)
{
    static struct polynomial linear, product;
    resize(&linear, 2);
    linear.coefficient[0] = c;
    linear.coefficient[1] = 1;
    set_product(p, &product, f, &linear);
    exchange(f, &product);
}

void draw_polynomial(struct draws *g, uint32_t p, struct polynomial *f, uint32_t degree, enum form form)
{
    f->size = 0;
    if (form == SPARSE && chance(g, 60))
        return;
    if (form == FACTORS) {
        set_constant(f, between(g, 1, p - 1));
        for (uint32_t i = below(g, degree + 1); i > 0; i--)
            multiply_linear(p, f, below(g, 2));
        return;
    }
    resize(f, form == HIGHEST || chance(g, 50) ? degree + 1 : between(g, 0, degree + 1));
    for (uint32_t i = 0; i < f->size; i++)
        f->coefficient[i] = form == HIGHEST ? p - 1 : form == POWER && i + 1 < f->size ? 0 : below(g, p);
    trim(f);
}

enum shape { FULL, TRIANGULAR, DIAGONAL, SHARED, SHAPES }; // shared: a common factor in each row

static bool is_place(enum shape shape, uint32_t i, uint32_t j)
{
    return shape == FULL || shape == SHARED || i == j || (shape == TRIANGULAR && i < j);
}

static void draw_matrix(struct draws *g, uint32_t p, struct matrix *t, uint32_t rows, uint32_t columns, uint32_t degree)
{
    static struct polynomial factor, f;
    enum form form = below(g, FORMS);
    enum shape shape = below(g, SHAPES);
    for (uint32_t i = 0; i < rows; i++) {
        uint32_t shared = shape == SHARED ? below(g, degree + 1) : 0;
        draw_polynomial(g, p, &factor, shared, FACTORS);
        for (uint32_t j = 0; j < columns; j++) {
            f.size = 0;
            if (is_place(shape, i, j))
                draw_polynomial(g, p, &f, degree - shared, form == HIGHEST && chance(g, 50) ? DENSE : form);
            set_product(p, &t->entry[i][j], &factor, &f);
        }
    }
}

static void set_unit(struct matrix *t, uint32_t size)
{
    for (uint32_t i = 0; i < size; i++)
        for (uint32_t j = 0; j < size; j++)
            set_constant(&t->entry[i][j], i == j);
}

// f := row times column; the column's entries are step polynomials apart
static void row_product(uint32_t p, struct polynomial *f, const struct polynomial *row, const struct polynomial *column,
                        uint32_t step, uint32_t count)
{
    f->size = 0;
    for (uint32_t k = 0; k < count; k++)
        add_product(p, f, &row[k], &column[k * step]);
}

// b := t · y with y drawn
static void draw_combination(struct draws *g, const struct system *s, struct polynomial *b, const struct polynomial t[MOST][MOST],
                             uint32_t columns, uint32_t degree)
{
    static struct polynomial y[MOST];
    enum form form = below(g, FORMS);
    for (uint32_t k = 0; k < columns; k++)
        draw_polynomial(g, s->p, &y[k], degree, form);
    for (uint32_t i = 0; i < s->n; i++)
        row_product(s->p, &b[i], t[i], y, 1, columns);
}

void disturb(struct draws *g, uint32_t p, struct polynomial *f, uint32_t degree)
{
    uint32_t i = below(g, degree + 1);
    if (f->size <= i)
        resize(f, i + 1);
    f->coefficient[i] = (f->coefficient[i] + between(g, 1, p - 1)) % p;
    trim(f);
}

// zero rows and columns, columns and rows that are equal
static void make_special(struct draws *g, struct system *s)
{
    uint32_t i = below(g, s->n), j = below(g, s->m), k = below(g, s->n), l = below(g, s->m);
    if (chance(g, 10))
        for (uint32_t r = 0; r < s->n; r++)
            s->a[r][j].size = 0;
    if (chance(g, 10))
        for (uint32_t r = 0; r < s->n; r++)
            copy(&s->a[r][l], &s->a[r][j]);
    if (chance(g, 10)) {
        for (uint32_t c = 0; c < s->m; c++)
            s->a[i][c].size = 0;
        for (uint32_t side = 0; side < s->sides; side++)
            if (chance(g, 70))
                s->b[side][i].size = 0;
    }
    if (chance(g, 5) && i != k) {
        for (uint32_t c = 0; c < s->m; c++)
            copy(&s->a[k][c], &s->a[i][c]);
        for (uint32_t side = 0; side < s->sides; side++)
            copy(&s->b[side][k], &s->b[side][i]);
    }
}

// many small systems, some of the largest
static uint32_t draw_shape(struct draws *g, struct system *s)
{
    static const struct {
        uint32_t percent, least, most, lowest, highest;
    } load[] = {
        {30,  1, 3, 0,  3 },
        {50,  1, 5, 0,  6 },
        {75,  1, 8, 0,  15},
        {90,  1, 8, 15, 15},
        {100, 7, 8, 12, 15}
    };
    uint32_t drawn = below(g, 100), k = 0;
    while (drawn >= load[k].percent)
        k++;
    s->n = between(g, load[k].least, load[k].most);
    s->m = between(g, load[k].least, load[k].most);
    return between(g, load[k].lowest, load[k].highest);
}

// One right side, or often more: of large systems, which take the time, less often.
static uint32_t draw_sides(struct draws *g, const struct system *s, uint32_t degree)
{
    bool large = s->n * s->m * (degree + 1) >= LARGE;
    return chance(g, large ? 75 : 40) ? 1 : chance(g, 60) ? between(g, 2, 3) : between(g, 2, SIDES);
}

// b drawn, zero, T·y, A·y, or nearly one of these two
static void draw_side(struct draws *g, const struct system *s, struct polynomial *b, const struct matrix *t, uint32_t rank,
                      uint32_t degree_of_y, uint32_t degree, uint32_t most)
{
    uint32_t form = below(g, 100);
    for (uint32_t i = 0; i < s->n; i++)
        draw_polynomial(g, s->p, &b[i], degree, DENSE);
    for (uint32_t i = 0; form < 5 && i < s->n; i++)
        b[i].size = 0;
    if (form >= 20 && form < 75)
        draw_combination(g, s, b, t->entry, rank, degree_of_y);
    if (form >= 75)
        draw_combination(g, s, b, s->a, s->m, most - degree);
    if (form >= 70 && form < 80)
        disturb(g, s->p, &b[below(g, s->n)], degree);
}

// Some right sides become equal to the one before, or nearly.
static void repeat_sides(struct draws *g, struct system *s, uint32_t most)
{
    for (uint32_t side = 1; side < s->sides; side++) {
        if (!chance(g, 15))
            continue;
        for (uint32_t i = 0; i < s->n; i++)
            copy(&s->b[side][i], &s->b[side - 1][i]);
        if (chance(g, 50))
            disturb(g, s->p, &s->b[side][below(g, s->n)], most);
    }
}

// nothing special: square systems have then the largest denominators
static void draw_plain(struct draws *g, struct system *s, uint32_t degree)
{
    for (uint32_t i = 0; i < s->n; i++) {
        for (uint32_t j = 0; j < s->m; j++)
            draw_polynomial(g, s->p, &s->a[i][j], degree, DENSE);
        for (uint32_t side = 0; side < s->sides; side++)
            draw_polynomial(g, s->p, &s->b[side][i], degree, DENSE);
    }
}

// A = T·F, of which T has rank columns: few for a thin product, m for F square. T·y has then small denominators.
static void draw_product(struct draws *g, struct system *s, uint32_t degree, uint32_t most)
{
    static struct matrix t, f;
    uint32_t of_f = degree == 0 || chance(g, 20) ? 0 : between(g, 1, degree);
    uint32_t rank = chance(g, 60) ? s->m : between(g, 1, s->m);
    draw_matrix(g, s->p, &t, s->n, rank, degree - of_f);
    if (rank == s->m && of_f == 0)
        set_unit(&f, rank);
    else
        draw_matrix(g, s->p, &f, rank, s->m, of_f);
    for (uint32_t i = 0; i < s->n; i++)
        for (uint32_t j = 0; j < s->m; j++)
            row_product(s->p, &s->a[i][j], t.entry[i], &f.entry[0][j], MOST, rank);
    for (uint32_t side = 0; side < s->sides; side++)
        draw_side(g, s, s->b[side], &t, rank, of_f, degree, most);
    repeat_sides(g, s, most);
    make_special(g, s);
}

void draw_entries(struct draws *g, struct system *s, uint32_t degree, uint32_t most)
{
    if (chance(g, 15))
        draw_plain(g, s, degree);
    else
        draw_product(g, s, degree, most);
}

void draw_system(struct draws *g, struct system *s)
{
    s->p = draw_prime(g);
    uint32_t degree = draw_shape(g, s);
    s->sides = draw_sides(g, s, degree);
    draw_entries(g, s, degree, SYSTEM_SIZE - 1);
}

void draw_sized(struct draws *g, uint32_t p, struct polynomial *f, uint32_t size)
{
    draw_polynomial(g, p, f, size - 1, DENSE);
    resize(f, size);
    f->coefficient[size - 1] = between(g, 1, p - 1);
}

// All polynomials have 16 coefficients. Columns may repeat others, and right sides columns, so that some have no solution and some one
// without a denominator; else denominators are the longest.
void draw_longest(struct draws *g, struct system *s)
{
    s->p = draw_prime(g);
    s->n = s->m = MOST;
    s->sides = SIDES;
    uint32_t rank = chance(g, 50) ? MOST : between(g, 1, MOST - 1);
    for (uint32_t i = 0; i < MOST; i++) {
        for (uint32_t j = 0; j < MOST; j++)
            if (j < rank)
                draw_sized(g, s->p, &s->a[i][j], SYSTEM_SIZE);
            else
                copy(&s->a[i][j], &s->a[i][j % rank]);
        for (uint32_t side = 0; side < SIDES; side++)
            if (side % 2 == 0)
                draw_sized(g, s->p, &s->b[side][i], SYSTEM_SIZE);
            else
                copy(&s->b[side][i], &s->a[i][side]);
    }
}
