// Systems, certificates and refusals of document 01, with the right sides of document 02's item 1, as values, and their bounds; those
// of the panel, item 4.
#ifndef WORDS_H
#define WORDS_H
#include <stddef.h>
#include "polynomial.h"

enum {
    MOST = 8, // rows, columns
    SIDES = 8,
    SYSTEM_SIZE = 16,
    CERTIFICATE_SIZE = 121, // coefficients of a polynomial
    LONGEST_SYSTEM = 2178,
    LONGEST_CERTIFICATE = 2198 // words
};

// The same on the panel.
enum {
    PANEL_MOST = 4,
    PANEL_SIDES = 1,
    PANEL_SYSTEM_SIZE = 8,
    PANEL_CERTIFICATE_SIZE = 29,
    PANEL_LONGEST_SYSTEM = 182,
    PANEL_LONGEST_CERTIFICATE = 302
};

enum kind_of_word { SYSTEM_HEAD = 1, START, COEFFICIENT, END, CERTIFICATE_HEAD };

enum kind { SOLUTION = 1, ABSENCE = 2 };

struct system {
    uint32_t p, n, m, sides;
    struct polynomial a[MOST][MOST], b[SIDES][MOST]; // b: by right side
};

struct certificate {
    uint32_t kind;
    struct polynomial d, numerator[MOST], w;
    struct polynomial row[MOST]; // Z, or q of an absence
};

// number 0: nothing is refused
struct refusal {
    uint32_t number, place;
};

// The bytes of a file: room for more than any reader takes.
enum { FILE_ROOM = 102400 }; // whole pages of 4,096

struct file {
    size_t count;
    uint8_t byte[FILE_ROOM];
};

static inline uint32_t word_at(const struct file *f, size_t place)
{
    const uint8_t *b = f->byte + 4 * place;
    return (uint32_t)b[0] | (uint32_t)b[1] << 8 | (uint32_t)b[2] << 16 | (uint32_t)b[3] << 24;
}

static inline void set_word(struct file *f, size_t place, uint32_t word)
{
    for (size_t i = 0; i < 4; i++)
        f->byte[4 * place + i] = (uint8_t)(word >> 8 * i);
}
#endif
