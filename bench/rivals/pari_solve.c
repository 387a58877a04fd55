// What a user of PARI would do for kind, d and N, without the certificate. A solution that is the only one is found by values where p
// has enough points. Else by elimination over K[x] modulo an irreducible polynomial of greater degree than all minors of (A | b):
// ranks are then those over the fractions, and the numerators of Cramer's rule are found whole. Where there are many solutions,
// the denominator of one need not be the least: these systems are not done.
#include "pari_field.h"
#include "pari_values.h"
#include "writing.h"

enum { NOT_DONE = 63, STACK = 1 << 26 };

struct job {
    struct field k;
    GEN a, b, d, numerator; // d is NULL where there is no solution
};

static void job_init(struct job *t, const struct system *s)
{
    uint32_t minor = s->n < s->m + 1 ? s->n : s->m + 1;
    t->k = field_for(s->p, minor * (SYSTEM_SIZE - 1) + 1);
    t->a = cgetg(s->m + 1, t_MAT);
    t->b = cgetg(s->n + 1, t_COL);
    t->d = NULL;
    for (uint32_t j = 0; j < s->m; j++) {
        gel(t->a, j + 1) = cgetg(s->n + 1, t_COL);
        for (uint32_t i = 0; i < s->n; i++)
            gcoeff(t->a, i + 1, j + 1) = from_coefficients(t->k, s->a[i][j]);
    }
    for (uint32_t i = 0; i < s->n; i++)
        gel(t->b, i + 1) = from_coefficients(t->k, s->b[i]);
}

// N/d := numerator/det in lowest terms, d monic
static void take_solution(struct job *t, GEN numerator, GEN det)
{
    long m = lg(t->a) - 1;
    GEN divisor = det;
    for (long j = 1; j <= m && degree_of(t->k, divisor) > 0; j++)
        divisor = common_divisor(t->k, divisor, gel(numerator, j));
    t->d = quotient(t->k, det, divisor);
    t->numerator = cgetg(m + 1, t_COL);
    for (long j = 1; j <= m; j++)
        gel(t->numerator, j) = scaled(t->k, quotient(t->k, gel(numerator, j), divisor), t->d);
    t->d = scaled(t->k, t->d, t->d);
}

// the solution on nonsingular rows; there is none at all where another row does not hold
static void solve_by_values(struct job *t, GEN rows)
{
    GEN found = solution_by_values(t->k.p, rowpermute(t->a, rows), vecpermute(t->b, rows));
    take_solution(t, found, gel(found, lg(t->a)));
    for (long i = 1; lg(t->b) > lg(t->a) && t->d != NULL && i < lg(t->b); i++)
        if (!row_holds(t->k.p, t->a, t->b, t->numerator, t->d, i))
            t->d = NULL;
}

static void take_remainders(struct job *t, GEN y, GEN det)
{
    GEN numerator = cgetg(lg(y), t_COL);
    for (long j = 1; j < lg(y); j++)
        gel(numerator, j) = product(t->k, gel(y, j), det);
    take_solution(t, numerator, det);
}

// 0, or NOT_DONE
static uint64_t solve_by_elimination(struct job *t)
{
    GEN y = some_solution(t->k, t->a, t->b), part = t->a;
    if (y == NULL)
        return 0;
    if (lg(t->a) != lg(t->b)) {
        GEN rows = gel(rows_and_columns(t->k, t->a), 1);
        if (lg(rows) < lg(t->a))
            return NOT_DONE;
        part = rowpermute(t->a, rows);
    }
    GEN det = determinant(t->k, part);
    if (degree_of(t->k, det) < 0)
        return NOT_DONE;
    take_remainders(t, y, det);
    return 0;
}

static uint64_t solve(struct job *t)
{
    GEN rows = enough_points(t->k.p, lg(t->a) - 1) ? nonsingular_rows(t->k.p, t->a) : NULL;
    if (rows == NULL)
        return solve_by_elimination(t);
    solve_by_values(t, rows);
    return 0;
}

static void put_entry(struct writer *o, struct field k, GEN f)
{
    GEN g = to_coefficients(k, f);
    put(o, START, (uint32_t)(lg(g) - 2));
    for (long i = 2; i < lg(g); i++)
        put(o, COEFFICIENT, (uint32_t)g[i]);
}

// kind, d and N, as a certificate has them, and the number of these words
uint64_t NAME(const uint8_t *system, size_t system_bytes, uint64_t side, uint8_t *certificate, size_t lent_bytes)
{
    struct system s;
    struct job t;
    struct writer o = {certificate, 0};
    uint64_t refusal = read_to_solve(&s, system, system_bytes, side, lent_bytes);
    if (refusal != 0)
        return refusal;
    if (avma == 0)
        pari_init_opts(STACK, 2, INIT_DFTm);
    pari_sp before = avma;
    job_init(&t, &s);
    refusal = solve(&t);
    put(&o, CERTIFICATE_HEAD, t.d != NULL ? SOLUTION : ABSENCE);
    if (t.d != NULL) {
        put_entry(&o, t.k, t.d);
        for (uint32_t j = 0; j < s.m; j++)
            put_entry(&o, t.k, gel(t.numerator, j + 1));
    }
    set_avma(before);
    return refusal != 0 ? refusal : (uint64_t)o.words << 6;
}
