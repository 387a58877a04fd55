// Files whose words or bytes are changed, whatever they mean.
#ifndef DAMAGE_H
#define DAMAGE_H
#include "draws.h"
#include "reference/words.h"

void damage(struct draws *g, struct file *f, uint32_t p);

// one coefficient of a file becomes another below p, but not the last of a polynomial 0
void change_value(struct draws *g, struct file *f, uint32_t p);
#endif
