// Number 33 alone: certificates that are drawn with their systems, and what is changed of them.
#ifndef COLUMNS_H
#define COLUMNS_H
#include <stdint.h>

void try_all_columns(uint64_t count, uint64_t seed);
#endif
