// For primes that have enough points: the only solution by values. At each point a determinant and a solution over the numbers
// modulo p, then interpolation of the determinant and of Cramer's numerators.
#ifndef PARI_VALUES_H
#define PARI_VALUES_H
#include "pari_field.h"

enum { POINTS_FOR_RANK = 3 };

// a determinant of m columns has degree at most 15·m: at that many points it may be 0, at one more it must be known
static bool enough_points(ulong p, long m)
{
    return p > 2 * (ulong)(m * (SYSTEM_SIZE - 1));
}

static GEN value_at(ulong p, GEN matrix, ulong x)
{
    ulong reciprocal = get_Fl_red(p);
    return FlxM_eval_powers_pre(matrix, Fl_powers_pre(x, SYSTEM_SIZE - 1, p, reciprocal), p, reciprocal);
}

// as many rows as columns, nonsingular at a point; NULL where no tried point has them
static GEN nonsingular_rows(ulong p, GEN a)
{
    for (ulong x = 0; x < POINTS_FOR_RANK; x++) {
        GEN rows = gel(Flm_indexrank(value_at(p, a, x), p), 1);
        if (lg(rows) == lg(a))
            return rows;
    }
    return NULL;
}

// the values of y·det, and of det last, at a point; false where det is 0 there
static bool put_values(ulong p, GEN values, long place, GEN a, GEN b)
{
    long m = lg(a) - 1;
    ulong det = Flm_det(a, p);
    if (det == 0)
        return false;
    GEN y = Flm_Flc_gauss(a, b, p);
    for (long j = 1; j <= m; j++)
        mael(values, j, place) = Fl_mul(y[j], det, p);
    mael(values, m + 1, place) = det;
    return true;
}

// the polynomials y·det, and det last, for the square system a, b, nonsingular at some point
static GEN solution_by_values(ulong p, GEN a, GEN b)
{
    long m = lg(a) - 1, count = m * (SYSTEM_SIZE - 1) + 1, place = 1;
    GEN points = cgetg(count + 1, t_VECSMALL), values = cgetg(m + 2, t_MAT), both = shallowconcat(a, b);
    for (long j = 1; j <= m + 1; j++)
        gel(values, j) = cgetg(count + 1, t_VECSMALL);
    for (ulong x = 0; place <= count; x++) {
        pari_sp before = avma;
        GEN at = value_at(p, both, x), side = gel(at, m + 1);
        setlg(at, m + 1);
        points[place] = (long)x;
        place += put_values(p, values, place, at, side);
        set_avma(before);
    }
    return Flv_Flm_polint(points, values, p, 0);
}

static bool row_holds(ulong p, GEN a, GEN b, GEN numerator, GEN d, long row)
{
    GEN sum = pol0_Flx(0);
    for (long j = 1; j < lg(a); j++)
        sum = Flx_add(sum, Flx_mul(gcoeff(a, row, j), gel(numerator, j), p), p);
    return Flx_equal(sum, Flx_mul(d, gel(b, row), p));
}
#endif
