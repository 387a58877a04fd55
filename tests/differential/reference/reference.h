// Document 01 once more, with items 1, 2 and 4 of document 02: what the product is compared with. A side is the number of a right side.
// Those that take one as 32 bits are asked for sides that the system has.
#ifndef REFERENCE_H
#define REFERENCE_H
#include "words.h"

// reading.c: numbers 10, 1 to 9, then 40; for a certificate 21, 24 to 29
bool is_prime(uint32_t p);
struct refusal read_system(struct system *s, const struct file *f);
struct refusal read_system_words(struct system *s, const struct file *f); // of whole words, however many; no 10
struct refusal read_to_side(struct system *s, const struct file *f, uint64_t side);
bool holds_words(const struct file *f); // whole ones
struct refusal read_certificate(struct certificate *c, const struct system *s, const struct file *f);

// writing.c: the written form of values, whether or not they keep the bounds
void write_system(struct file *f, const struct system *s);
void write_certificate(struct file *f, const struct system *s, const struct certificate *c);

// verdict.c: numbers 31 to 36; then all numbers of two files
struct refusal verdict(const struct system *s, uint32_t side, const struct certificate *c);
struct refusal check_files(const struct file *system, uint64_t side, const struct file *certificate);

// panel.c: the same on the panel, for the first right side, with 41
struct refusal check_on_panel(const struct file *system, const struct file *certificate);

// hermite.c: kind, and the least denominator where there is a solution
enum kind least_denominator(const struct system *s, uint32_t side, struct polynomial *d);

// hermite.c: the same, and m numerators, from the last to the first of as few coefficients as they can have.
enum kind solve_side(const struct system *s, uint32_t side, struct polynomial *d, struct polynomial *numerator);

// hermite.c: the same of a system with one right side. Its polynomials may have any size, and it may have no column.
enum kind solve_single(const struct system *s, struct polynomial *d, struct polynomial *numerator);

// hermite.c: the first so many v, as the result says, are vectors of m polynomials with A·v = 0
uint32_t kernel(const struct system *s, struct polynomial v[MOST][MOST]);

// chosen.c: the certificate that the solver is to give
void choose_certificate(const struct system *s, uint32_t side, struct certificate *c);

// answer.c: what is to be said of a right side of a system's file, and the report's text on it
struct answer {
    struct refusal refusal;
    enum kind kind;           // if nothing is refused
    struct polynomial d;      // of a solution, the least denominator
    uint32_t feedback, delay; // of d: the degree without its factors x, and their number
};

enum { REPORT_ROOM = 1024 };

void answer_to(struct answer *a, const struct file *system, uint64_t side);
size_t report_text(char text[REPORT_ROOM], const struct answer *a);
#endif
