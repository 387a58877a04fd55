// Makes the benchmark's systems, the same on every machine, as files LOAD-P-INDEX.system of a folder, and for each prime the
// largest certificate, largest-P.system and largest-P.certificate, and a system for the stack, falling-P.system: systems FOLDER.
#include <stdio.h>
#include <stdlib.h>
#include <string.h>
#include "loads.h"
#include "rivals/reading.h"
#include "rivals/writing.h"

solve_function solve_O3;
check_function check_O2;

struct matrix {
    uint32_t n, m;
    uint32_t entry[MOST][MOST][SYSTEM_SIZE];
};

// draws by the generator splitmix64
static uint32_t draw(uint64_t *state, uint32_t p)
{
    uint64_t z = *state += 0x9E3779B97F4A7C15;
    z = (z ^ z >> 30) * 0xBF58476D1CE4E5B9;
    z = (z ^ z >> 27) * 0x94D049BB133111EB;
    return (uint32_t)((z ^ z >> 31) % p);
}

static void draw_matrix(struct matrix *a, uint32_t n, uint32_t m, uint32_t degree, uint64_t *state, uint32_t p)
{
    memset(a, 0, sizeof *a);
    a->n = n, a->m = m;
    for (uint32_t i = 0; i < n; i++)
        for (uint32_t j = 0; j < m; j++)
            for (uint32_t e = 0; e <= degree; e++)
                a->entry[i][j][e] = draw(state, p);
}

static void add_product(uint32_t *sum, const uint32_t *f, const uint32_t *g, uint32_t p)
{
    for (uint32_t i = 0; i < SYSTEM_SIZE; i++)
        for (uint32_t j = 0; i + j < SYSTEM_SIZE; j++)
            sum[i + j] = (uint32_t)((sum[i + j] + (uint64_t)f[i] * g[j]) % p);
}

static struct matrix product(const struct matrix *a, const struct matrix *b, uint32_t p)
{
    struct matrix c = {.n = a->n, .m = b->m};
    for (uint32_t i = 0; i < a->n; i++)
        for (uint32_t j = 0; j < b->m; j++)
            for (uint32_t k = 0; k < a->m; k++)
                add_product(c.entry[i][j], a->entry[i][k], b->entry[k][j], p);
    return c;
}

static void put_entries(struct writer *o, const struct matrix *a)
{
    for (uint32_t i = 0; i < a->n; i++)
        for (uint32_t j = 0; j < a->m; j++) {
            uint64_t f[SYSTEM_SIZE];
            uint32_t size = 0;
            for (uint32_t e = 0; e < SYSTEM_SIZE; e++)
                if ((f[e] = a->entry[i][j][e]) != 0)
                    size = e + 1;
            put_polynomial(o, f, size);
        }
}

static size_t put_system(uint8_t *bytes, const struct matrix *a, const struct matrix *b, uint32_t p)
{
    struct writer o = {bytes, 0};
    put(&o, SYSTEM_HEAD, p | a->n << 16 | a->m << 20);
    put_entries(&o, a);
    put_entries(&o, b);
    put_end(&o);
    return 4 * o.words;
}

// the bytes of the next system of a load: A is the product of its factors, b is drawn, or the first factor times what is drawn
static size_t make_system(uint8_t *bytes, const struct load *l, uint32_t p, uint64_t *state)
{
    struct matrix a, b, first, factor;
    uint32_t rest = DEGREE;
    for (uint32_t t = 0; t < FACTORS && l->factor[t].columns > 0; t++) {
        draw_matrix(&factor, t == 0 ? l->rows : a.m, l->factor[t].columns, l->factor[t].degree, state, p);
        if (t == 0)
            first = a = factor;
        else
            a = product(&a, &factor, p);
    }
    if (l->solvable)
        rest = DEGREE - l->factor[0].degree;
    draw_matrix(&b, l->solvable ? first.m : l->rows, 1, rest, state, p);
    if (l->solvable)
        b = product(&first, &b, p);
    return put_system(bytes, &a, &b, p);
}

static void store(const char *folder, const char *name, const uint8_t *bytes, size_t count)
{
    char path[4096];
    snprintf(path, sizeof path, "%s/%s", folder, name);
    FILE *f = fopen(path, "wb");
    if (f == NULL || fwrite(bytes, 1, count, f) != count || fclose(f) != 0) {
        perror(path);
        exit(1);
    }
}

static bool all_longest(const struct certificate *c, const struct system *s)
{
    bool longest = c->kind == SOLUTION && c->d.size == CERTIFICATE_SIZE && c->w.size == CERTIFICATE_SIZE;
    for (uint32_t j = 0; j < s->m; j++)
        longest = longest && c->numerator[j].size == CERTIFICATE_SIZE;
    return longest;
}

// z, or z + w where z is shorter than w: this adds a polynomial to z/w, and the certificate stays right
static void put_raised(struct writer *o, struct polynomial z, struct polynomial w, uint32_t p)
{
    uint64_t f[CERTIFICATE_SIZE];
    for (uint32_t e = 0; e < w.size; e++)
        f[e] = z.size == w.size ? z.coefficient[e] : (w.coefficient[e] + (e < z.size ? z.coefficient[e] : 0)) % p;
    put_polynomial(o, f, w.size);
}

static void put_short(struct writer *o, struct polynomial f)
{
    uint64_t wide[CERTIFICATE_SIZE];
    for (uint32_t e = 0; e < f.size; e++)
        wide[e] = f.coefficient[e];
    put_polynomial(o, wide, f.size);
}

// the certificate with all its polynomials of the greatest degree, where that can be had; else no bytes
static size_t raise_certificate(uint8_t *raised, const uint8_t *system, size_t system_bytes)
{
    static uint8_t bytes[4 * LONGEST_CERTIFICATE];
    static struct system s;
    static struct certificate c;
    struct writer o = {raised, 0};
    size_t count = 4 * (solve_O3(system, system_bytes, 0, bytes, sizeof bytes) >> 6);
    if (read_system(&s, system, system_bytes, 0) != 0 || read_certificate(&c, &s, bytes, count) != 0 || !all_longest(&c, &s))
        return 0;
    put(&o, CERTIFICATE_HEAD, SOLUTION);
    put_short(&o, c.d);
    for (uint32_t j = 0; j < s.m; j++)
        put_short(&o, c.numerator[j]);
    put_short(&o, c.w);
    for (uint32_t i = 0; i < s.n; i++)
        put_raised(&o, c.z[i], c.w, s.p);
    put_end(&o);
    return check_O2(system, system_bytes, 0, raised, 4 * o.words) == 0 ? 4 * o.words : 0;
}

static void make_largest(const char *folder, uint32_t p)
{
    static uint8_t system[4 * LONGEST_SYSTEM], certificate[4 * LONGEST_CERTIFICATE];
    char name[64];
    uint64_t state = 0;
    size_t system_bytes, certificate_bytes;
    do {
        system_bytes = make_system(system, largest_load(), p, &state);
        certificate_bytes = raise_certificate(certificate, system, system_bytes);
    } while (certificate_bytes != sizeof certificate);
    snprintf(name, sizeof name, "largest-%u.system", p);
    store(folder, name, system, system_bytes);
    snprintf(name, sizeof name, "largest-%u.certificate", p);
    store(folder, name, certificate, certificate_bytes);
}

// One row x^15, x^14, .. and b = 1: each column but the first is shorter than what it meets, and makes a level of its own. No system
// has more levels, so that none goes deeper.
static void make_falling(const char *folder, uint32_t p)
{
    static uint8_t bytes[4 * LONGEST_SYSTEM];
    char name[64];
    struct matrix a = {.n = 1, .m = MOST}, b = {.n = 1, .m = 1};
    for (uint32_t j = 0; j < MOST; j++)
        a.entry[0][j][DEGREE - j] = 1;
    b.entry[0][0][0] = 1;
    snprintf(name, sizeof name, "falling-%u.system", p);
    store(folder, name, bytes, put_system(bytes, &a, &b, p));
}

int main(int count, char **argument)
{
    static uint8_t bytes[4 * LONGEST_SYSTEM];
    char name[64];
    if (count != 2) {
        fprintf(stderr, "usage: systems FOLDER\n");
        return 2;
    }
    for (size_t i = 0; i < PRIMES; i++) {
        for (size_t l = 0; l < LOADS; l++) {
            uint64_t state = 0;
            for (int t = 0; t < SYSTEMS; t++) {
                snprintf(name, sizeof name, "%s-%u-%d.system", loads[l].name, primes[i], t);
                store(argument[1], name, bytes, make_system(bytes, &loads[l], primes[i], &state));
            }
        }
        make_largest(argument[1], primes[i]);
        make_falling(argument[1], primes[i]);
    }
    return 0;
}
