// The field that pari_solve.c calculates in: K[x] modulo an irreducible polynomial t, in PARI's two forms, F2x for p = 2 and Flx for
// the other primes.
#ifndef PARI_FIELD_H
#define PARI_FIELD_H
#include <pari/pari.h>
#include "reading.h"

struct field {
    ulong p;
    GEN t;
};

// Modulo t, a polynomial with size coefficients is as good as itself. An irreducible polynomial is looked for once for each prime
// and size, and kept.
static struct field field_for(ulong p, long size)
{
    static ulong prime;
    static GEN kept[MOST * (SYSTEM_SIZE - 1) + 2];
    for (size_t i = 0; prime != p && i < sizeof kept / sizeof kept[0]; i++) {
        if (kept[i] != NULL)
            gunclone(kept[i]);
        kept[i] = NULL;
    }
    prime = p;
    if (kept[size] == NULL) {
        pari_sp before = avma;
        GEN t = init_Flxq(p, size, 0);
        kept[size] = gclone(p == 2 ? Flx_to_F2x(t) : Flx_get_red(t, p));
        set_avma(before);
    }
    return (struct field){p, kept[size]};
}

static GEN from_coefficients(struct field k, struct polynomial f)
{
    GEN g = cgetg(f.size + 2, t_VECSMALL);
    g[1] = 0;
    for (uint32_t i = 0; i < f.size; i++)
        g[i + 2] = f.coefficient[i];
    return k.p == 2 ? Flx_to_F2x(g) : g;
}

static GEN determinant(struct field k, GEN a)
{
    return k.p == 2 ? F2xqM_det(a, k.t) : FlxqM_det(a, k.t, k.p);
}

// a solution of any system, NULL where there is none
static GEN some_solution(struct field k, GEN a, GEN b)
{
    return k.p == 2 ? F2xqM_F2xqC_invimage(a, b, k.t) : FlxqM_FlxqC_invimage(a, b, k.t, k.p);
}

// rows and columns of a nonsingular part, as many as the rank
static GEN rows_and_columns(struct field k, GEN a)
{
    return k.p == 2 ? F2xqM_indexrank(a, k.t) : FlxqM_indexrank(a, k.t, k.p);
}

static GEN product(struct field k, GEN f, GEN g)
{
    return k.p == 2 ? F2xq_mul(f, g, k.t) : Flxq_mul(f, g, k.t, k.p);
}

static GEN common_divisor(struct field k, GEN f, GEN g)
{
    return k.p == 2 ? F2x_gcd(f, g) : Flx_gcd(f, g, k.p);
}

static GEN quotient(struct field k, GEN f, GEN g)
{
    return k.p == 2 ? F2x_div(f, g) : Flx_div(f, g, k.p);
}

static long degree_of(struct field k, GEN f)
{
    return k.p == 2 ? F2x_degree(f) : degpol(f);
}

// f divided by the leading coefficient of d
static GEN scaled(struct field k, GEN f, GEN d)
{
    return k.p == 2 ? f : Flx_Fl_mul(f, Fl_inv(Flx_lead(d), k.p), k.p);
}

static GEN to_coefficients(struct field k, GEN f)
{
    return k.p == 2 ? F2x_to_Flx(f) : f;
}
#endif
