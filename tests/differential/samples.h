// Random systems: all shapes, degrees, primes and numbers of right sides, most of them small and special.
#ifndef SAMPLES_H
#define SAMPLES_H
#include "draws.h"
#include "reference/words.h"

enum form { DENSE, SPARSE, POWER, FACTORS, HIGHEST, FORMS };

uint32_t draw_prime(struct draws *g);
void draw_polynomial(struct draws *g, uint32_t p, struct polynomial *f, uint32_t degree, enum form form); // or of less degree
void draw_sized(struct draws *g, uint32_t p, struct polynomial *f, uint32_t size);                        // not zero
void draw_system(struct draws *g, struct system *s);
void draw_longest(struct draws *g, struct system *s); // its file has as many words as any

// all of a system whose p, rows, columns and number of right sides are set: A of this degree or of less, b of at most that
void draw_entries(struct draws *g, struct system *s, uint32_t degree, uint32_t most);

// one coefficient of f, of degree at most that, becomes another
void disturb(struct draws *g, uint32_t p, struct polynomial *f, uint32_t degree);
#endif
