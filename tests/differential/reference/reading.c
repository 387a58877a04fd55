// Reading word by word; the first word at fault decides.
#include "reference.h"

struct reader {
    const struct file *file;
    uint32_t words, place; // of the next word
    uint32_t p, limit;     // of a polynomial's coefficients
    uint32_t base;         // 20 on a certificate
    struct refusal refusal;
};

static bool refuse(struct reader *r, uint32_t number, uint32_t place)
{
    r->refusal = (struct refusal){r->base + number, place};
    return false;
}

// the next word, whatever its kind
static bool next_word(struct reader *r, uint32_t *word)
{
    if (r->place == r->words)
        return refuse(r, 4, r->words);
    *word = word_at(r->file, r->place++);
    return true;
}

// the payload of the next word, which must have that kind
static bool next_payload(struct reader *r, enum kind_of_word kind, uint32_t *payload)
{
    uint32_t word;
    if (!next_word(r, &word))
        return false;
    if (word >> 28 != kind)
        return refuse(r, 5, r->place - 1);
    *payload = word & 0x0FFFFFFF;
    return true;
}

static bool read_polynomial(struct reader *r, struct polynomial *f)
{
    uint32_t size;
    if (!next_payload(r, START, &size))
        return false;
    if (size > r->limit)
        return refuse(r, 6, r->place - 1);
    resize(f, size);
    for (uint32_t i = 0; i < size; i++) {
        if (!next_payload(r, COEFFICIENT, &f->coefficient[i]))
            return false;
        if (f->coefficient[i] >= r->p)
            return refuse(r, 7, r->place - 1);
        if (i == size - 1 && f->coefficient[i] == 0)
            return refuse(r, 8, r->place - 1);
    }
    return true;
}

static bool read_polynomials(struct reader *r, struct polynomial *f, uint32_t count)
{
    for (uint32_t i = 0; i < count; i++)
        if (!read_polynomial(r, &f[i]))
            return false;
    return true;
}

static bool read_end(struct reader *r)
{
    uint32_t count;
    if (!next_payload(r, END, &count))
        return false;
    if (count != r->place)
        return refuse(r, 9, r->place - 1);
    return r->place == r->words || refuse(r, 9, r->place);
}

bool is_prime(uint32_t p)
{
    for (uint32_t a = 2; a * a <= p; a++)
        if (p % a == 0)
            return false;
    return p >= 2;
}

static bool read_system_head(struct reader *r, struct system *s)
{
    uint32_t head;
    if (!next_word(r, &head))
        return false;
    s->sides = (head >> 24 & 0xF) + 1;
    if (head >> 28 != SYSTEM_HEAD || s->sides > SIDES)
        return refuse(r, 1, 0);
    s->p = head & 0xFFFF;
    s->n = head >> 16 & 0xF;
    s->m = head >> 20 & 0xF;
    r->p = s->p;
    if (!is_prime(s->p))
        return refuse(r, 2, 0);
    if (s->n < 1 || s->n > MOST || s->m < 1 || s->m > MOST)
        return refuse(r, 3, 0);
    return true;
}

struct refusal read_system(struct system *s, const struct file *f)
{
    if (!holds_words(f) || f->count > 4 * LONGEST_SYSTEM)
        return (struct refusal){10, 0};
    return read_system_words(s, f);
}

struct refusal read_system_words(struct system *s, const struct file *f)
{
    struct reader r = {.file = f, .words = (uint32_t)(f->count / 4), .limit = SYSTEM_SIZE};
    bool read = read_system_head(&r, s);
    for (uint32_t i = 0; read && i < s->n; i++)
        read = read_polynomials(&r, s->a[i], s->m);
    for (uint32_t k = 0; read && k < s->sides; k++)
        read = read_polynomials(&r, s->b[k], s->n);
    if (read)
        read_end(&r);
    return r.refusal;
}

// the system, and then whether it has that right side
struct refusal read_to_side(struct system *s, const struct file *f, uint64_t side)
{
    struct refusal r = read_system(s, f);
    if (r.number == 0 && side >= s->sides)
        r.number = 40;
    return r;
}

bool holds_words(const struct file *f)
{
    return f->count % 4 == 0;
}

static bool read_certificate_head(struct reader *r, struct certificate *c)
{
    uint32_t head;
    if (!next_word(r, &head))
        return false;
    c->kind = head & 0x0FFFFFFF;
    if (head >> 28 != CERTIFICATE_HEAD || (c->kind != SOLUTION && c->kind != ABSENCE))
        return refuse(r, 1, 0);
    return true;
}

struct refusal read_certificate(struct certificate *c, const struct system *s, const struct file *f)
{
    struct reader r = {.file = f, .words = (uint32_t)(f->count / 4), .p = s->p, .limit = CERTIFICATE_SIZE, .base = 20};
    bool read = read_certificate_head(&r, c);
    if (read && c->kind == SOLUTION)
        read = read_polynomial(&r, &c->d) && read_polynomials(&r, c->numerator, s->m) && read_polynomial(&r, &c->w);
    if (read && read_polynomials(&r, c->row, s->n))
        read_end(&r);
    return r.refusal;
}
