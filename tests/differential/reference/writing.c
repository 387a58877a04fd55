// From values to words: the written form of systems and certificates.
#include <stdio.h>
#include <stdlib.h>
#include "reference.h"

static void put(struct file *f, enum kind_of_word kind, uint32_t payload)
{
    if (f->count + 4 > FILE_ROOM) {
        fputs("a file has outgrown its room\n", stderr);
        exit(2);
    }
    set_word(f, f->count / 4, (uint32_t)kind << 28 | payload);
    f->count += 4;
}

static void put_polynomials(struct file *f, const struct polynomial *g, uint32_t count)
{
    for (uint32_t j = 0; j < count; j++) {
        put(f, START, g[j].size);
        for (uint32_t i = 0; i < g[j].size; i++)
            put(f, COEFFICIENT, g[j].coefficient[i]);
    }
}

static void put_end(struct file *f)
{
    put(f, END, (uint32_t)(f->count / 4) + 1);
}

void write_system(struct file *f, const struct system *s)
{
    f->count = 0;
    put(f, SYSTEM_HEAD, (s->sides - 1) << 24 | s->m << 20 | s->n << 16 | s->p);
    for (uint32_t i = 0; i < s->n; i++)
        put_polynomials(f, s->a[i], s->m);
    for (uint32_t k = 0; k < s->sides; k++)
        put_polynomials(f, s->b[k], s->n);
    put_end(f);
}

void write_certificate(struct file *f, const struct system *s, const struct certificate *c)
{
    f->count = 0;
    put(f, CERTIFICATE_HEAD, c->kind);
    if (c->kind == SOLUTION) {
        put_polynomials(f, &c->d, 1);
        put_polynomials(f, c->numerator, s->m);
        put_polynomials(f, &c->w, 1);
    }
    put_polynomials(f, c->row, s->n);
    put_end(f);
}
