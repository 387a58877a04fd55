// A system with other right sides: one more, one less, two exchanged, or one changed. A certificate stays right for its own.
#ifndef SIDES_H
#define SIDES_H
#include "draws.h"
#include "reference/words.h"

// side: that of the certificate; it is the one that is not changed, but it may go or come to stand elsewhere
void change_sides(struct draws *g, struct system *s, uint32_t side);

// any number as that of a right side: mostly the one given, else another that the system has, or one that it has not
uint64_t draw_side_number(struct draws *g, const struct system *s, uint32_t side);
#endif
