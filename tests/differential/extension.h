// A system with one more row or column, and its certificate with a 0 there. All conditions hold as before but, mostly, the one in
// the new place: what only looks at the first rows or columns takes it for right.
#ifndef EXTENSION_H
#define EXTENSION_H
#include "draws.h"
#include "reference/words.h"

// s and certificate become those of the extension; false where there is no place for a row or column
bool extend(struct draws *g, struct system *s, struct file *certificate);
#endif
