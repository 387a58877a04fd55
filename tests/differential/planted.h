// Systems and certificates that are drawn for number 33: b = 0, d = 1 and N = 0, so that any w, Z and A come as far as that.
#ifndef PLANTED_H
#define PLANTED_H
#include "draws.h"
#include "reference/words.h"

// w and Z are drawn first, of any length, and then columns from all those that Z takes to multiples of w: the certificate is right
void plant(struct draws *g, struct system *s, struct certificate *c);
void plant_longest(struct draws *g, struct system *s, struct certificate *c); // 8 x 8, deg w = 120, Z of 120 or 121 coefficients
#endif
