// Certificates that are nearly right, or right in another way.
#ifndef VARIANTS_H
#define VARIANTS_H
#include "draws.h"
#include "reference/words.h"

// Z plus multiples of w, which is not zero: right again, and no row gets more coefficients than a certificate may have
void lengthen_rows(struct draws *g, const struct system *s, struct certificate *c);

// certificate: one that the reader takes for this system; varied: its variant, in written form
void vary(struct draws *g, const struct system *s, const struct file *certificate, struct file *varied);
#endif
