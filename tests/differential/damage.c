// Damage to files: bits, words and lengths, with words that a reader may take for right ones.
#include "damage.h"
#include <string.h>

typedef void change(struct draws *g, struct file *f, uint32_t p);

static size_t words(const struct file *f)
{
    return f->count / 4;
}

// the place of a word; the first, the last and those of the last quarter, where right sides stand, more often
static size_t draw_place(struct draws *g, const struct file *f)
{
    uint32_t drawn = below(g, 100), count = (uint32_t)words(f);
    if (drawn < 25)
        return drawn < 10 ? 0 : count - 1;
    return drawn < 40 ? count - 1 - below(g, (count + 3) / 4) : below(g, count);
}

// a word that a reader may be tempted by
static uint32_t draw_word(struct draws *g, const struct file *f, uint32_t p)
{
    const uint32_t sizes[] = {0, 1, 2, 3, 15, 16, 17, 120, 121, 122, p - 1, p, p + 1, (uint32_t)words(f), 0x0FFFFFFF, 1u << 27};
    uint32_t size = sizes[below(g, sizeof sizes / sizeof sizes[0])];
    if (chance(g, 10))
        return (uint32_t)draw(g);
    if (chance(g, 5))
        return (uint32_t)SYSTEM_HEAD << 28 | below(g, 3) << 24 | below(g, 10) << 20 | below(g, 10) << 16 | p;
    return between(g, 0, chance(g, 10) ? 15 : 5) << 28 | size;
}

static void flip_bits(struct draws *g, struct file *f, uint32_t p)
{
    (void)p;
    for (uint32_t count = chance(g, 70) ? 1 : between(g, 2, 5); f->count > 0 && count > 0; count--)
        f->byte[below(g, (uint32_t)f->count)] ^= (uint8_t)(1u << below(g, 8));
}

static void replace_word(struct draws *g, struct file *f, uint32_t p)
{
    if (words(f) > 0)
        set_word(f, draw_place(g, f), draw_word(g, f, p));
}

// the payload moves, the kind stays
static void change_payload(struct draws *g, struct file *f, uint32_t p)
{
    (void)p;
    if (words(f) == 0)
        return;
    size_t place = draw_place(g, f);
    uint32_t word = word_at(f, place), payload = chance(g, 50) ? word + 1 : chance(g, 50) ? word - 1 : (uint32_t)draw(g);
    set_word(f, place, (word & 0xF0000000) | (payload & 0x0FFFFFFF));
}

static void change_kind(struct draws *g, struct file *f, uint32_t p)
{
    (void)p;
    if (words(f) == 0)
        return;
    size_t place = draw_place(g, f);
    set_word(f, place, (word_at(f, place) & 0x0FFFFFFF) | below(g, 16) << 28);
}

// a coefficient becomes 0, the last of a polynomial if there is one from the drawn place on
static void clear_coefficient(struct draws *g, struct file *f, uint32_t p)
{
    (void)p;
    size_t place = below(g, (uint32_t)words(f) + 1);
    while (place + 1 < words(f) && (word_at(f, place) >> 28 != COEFFICIENT || word_at(f, place + 1) >> 28 == COEFFICIENT))
        place++;
    if (place < words(f))
        set_word(f, place, (uint32_t)COEFFICIENT << 28);
}

// numbers that a test for primes may get wrong: squares, products, neighbours
static uint32_t draw_modulus(struct draws *g, uint32_t p)
{
    uint32_t a = below(g, 256), b = between(g, 253, 255), kind = below(g, 5);
    return kind == 0 ? p + 1 : kind == 1 ? a * a : kind == 2 ? a * b : kind == 3 ? a : below(g, 65536);
}

// the head's prime, rows or columns
static void change_head(struct draws *g, struct file *f, uint32_t p)
{
    if (words(f) == 0)
        return;
    uint32_t rows = chance(g, 20) ? below(g, 16) : between(g, 0, 9), columns = between(g, 0, 9), head = word_at(f, 0);
    if (chance(g, 40))
        set_word(f, 0, (head & 0xFFFF0000) | draw_modulus(g, p));
    else
        set_word(f, 0, (head & 0xFF00FFFF) | rows << 16 | columns << 20);
}

// the head's number of right sides: any that its bits may have, or one more or less
static void change_count(struct draws *g, struct file *f, uint32_t p)
{
    (void)p;
    if (words(f) == 0)
        return;
    uint32_t head = word_at(f, 0), count = head >> 24;
    count = chance(g, 50) ? below(g, 16) : chance(g, 50) ? count + 1 : count - 1;
    set_word(f, 0, (head & 0xF0FFFFFF) | (count & 0xF) << 24);
}

static void drop_words(struct draws *g, struct file *f, uint32_t p)
{
    (void)p;
    if (words(f) == 0)
        return;
    size_t place = draw_place(g, f), count = chance(g, 70) ? 1 : between(g, 1, 6);
    if (place + count > words(f))
        count = words(f) - place;
    memmove(f->byte + 4 * place, f->byte + 4 * (place + count), f->count - 4 * (place + count));
    f->count -= 4 * count;
}

static void insert_word(struct draws *g, struct file *f, uint32_t p)
{
    size_t place = below(g, (uint32_t)words(f) + 1);
    uint32_t word = draw_word(g, f, p);
    if (f->count + 4 > FILE_ROOM)
        return;
    if (chance(g, 40) && place < words(f))
        word = word_at(f, place);
    memmove(f->byte + 4 * (place + 1), f->byte + 4 * place, f->count - 4 * place);
    f->count += 4;
    set_word(f, place, word);
}

static void swap_words(struct draws *g, struct file *f, uint32_t p)
{
    (void)p;
    if (words(f) == 0)
        return;
    size_t i = draw_place(g, f), j = chance(g, 50) ? draw_place(g, f) : (i + 1) % words(f);
    uint32_t word = word_at(f, i);
    set_word(f, i, word_at(f, j));
    set_word(f, j, word);
}

static void cut_words(struct draws *g, struct file *f, uint32_t p)
{
    (void)p;
    f->count = 4 * (size_t)below(g, (uint32_t)words(f) + 1);
}

static void cut_bytes(struct draws *g, struct file *f, uint32_t p)
{
    (void)p;
    f->count = chance(g, 50) && f->count > 3 ? f->count - between(g, 1, 3) : below(g, (uint32_t)f->count + 1);
}

// up to around the longest system or certificate, or by a few bytes
static void lengthen(struct draws *g, struct file *f, uint32_t p)
{
    const size_t around[] = {4 * LONGEST_SYSTEM, 4 * LONGEST_CERTIFICATE, 4 * (LONGEST_CERTIFICATE + 1), f->count + 4};
    size_t from = f->count, bytes = around[below(g, 4)] + 4 - 4 * below(g, 3) + (chance(g, 20) ? below(g, 4) : 0);
    if (bytes <= from || bytes > FILE_ROOM)
        return;
    f->count = bytes;
    uint32_t word = draw_word(g, f, p);
    for (size_t i = from; i < bytes; i++)
        f->byte[i] = (uint8_t)(word >> 8 * (i % 4));
}

// the last word becomes the end word of this length, so that damage before it is what decides
static void repair_end(struct file *f)
{
    if (words(f) > 0)
        set_word(f, words(f) - 1, (uint32_t)END << 28 | (uint32_t)words(f));
}

void damage(struct draws *g, struct file *f, uint32_t p)
{
    static change *const all[] = {flip_bits,      flip_bits,   replace_word,      replace_word, change_payload,
                                  change_payload, change_kind, clear_coefficient, change_head,  change_count,
                                  drop_words,     insert_word, swap_words,        cut_words,    cut_bytes,
                                  lengthen};
    for (uint32_t count = chance(g, 70) ? 1 : between(g, 2, 3); count > 0; count--)
        all[below(g, sizeof all / sizeof all[0])](g, f, p);
    if (chance(g, 30))
        repair_end(f);
}

void change_value(struct draws *g, struct file *f, uint32_t p)
{
    size_t place = below(g, (uint32_t)words(f));
    for (size_t i = 0; i < words(f); i++, place = (place + 1) % words(f))
        if (word_at(f, place) >> 28 == COEFFICIENT) {
            bool last = word_at(f, place + 1) >> 28 != COEFFICIENT;
            set_word(f, place, (uint32_t)COEFFICIENT << 28 | (last ? between(g, 1, p - 1) : below(g, p)));
            return;
        }
}
