// The rivals: the same jobs as the product's, in C and without code of the product's. Every call takes the bytes of files, four to a word,
// lowest first, and the number of the right side that is meant, and gives place × 64 + refusal number; where nothing is refused the number
// is 0.
#ifndef RIVALS_H
#define RIVALS_H
#include <stddef.h>
#include <stdint.h>

enum { LONGEST_SYSTEM = 2178, LONGEST_CERTIFICATE = 2198 }; // words

// The check: 0 where the certificate is accepted.
typedef uint64_t check_function(const uint8_t *system, size_t system_bytes, uint64_t side, const uint8_t *certificate,
                                size_t certificate_bytes);

// The solver: writes a certificate into the lent bytes, and gives its number of words in the place of the place.
typedef uint64_t solve_function(const uint8_t *system, size_t system_bytes, uint64_t side, uint8_t *certificate, size_t lent_bytes);

// Each rival is compiled once for each compiler and level that is compared, under a name of its own.
#ifndef NAME
#define NAME rival
#endif
#endif
