// The panel's check: systems and certificates at its limits and around them, whole and damaged.
#ifndef PANEL_H
#define PANEL_H
#include <stdint.h>

void try_all_panel(uint64_t count, uint64_t seed);
#endif
