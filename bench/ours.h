// The product among the rivals: the library that other programs link, called as rivals/rivals.h has it.
#include "../include/yezsdolak.h"
#include "rivals/rivals.h"

// the library counts a certificate's bytes, the rivals its words
static uint64_t solve_ours(const uint8_t *system, size_t system_bytes, uint64_t side, uint8_t *certificate, size_t lent_bytes)
{
    uint64_t result = yezsdolak_solve(system, system_bytes, side, certificate, lent_bytes);
    return yezsdolak_number(result) == 0 ? result / 4 : result;
}
