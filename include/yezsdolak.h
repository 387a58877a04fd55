// Yezsdolak: a proved solver of A·y = b over polynomials modulo a prime, and its check, for other programs.
//
// `make` builds libyezsdolak.a for x86-64, `make install` puts it where `pkg-config yezsdolak` finds it; examples/c, examples/panel
// and examples/rust show how to link and call it.
//
// A system (a sheet) and a certificate (a card) are files of 32-bit words, four bytes to a word, lowest first (docs/FORMAT.md). Calls
// take the bytes of whole files. What a call gives is proved for all bytes, damaged ones included (crates/link): there is no input
// that it does not answer.
//
// A system has one matrix A and 1 to 8 right sides b, which count from 0. Solver and check are told which one is meant, `side`: where
// there is one right side, that is 0. Each is answered by itself, as if the system had no other. The panel's check has a section of its
// own below.
//
// - No pointer may be NULL, also where its count is 0, and what a call writes must not overlap what it reads.
// - A call keeps nothing, allocates nothing and prints nothing. Any number of threads may call at the same time; each needs the
//   stack that the constants below say.
//
// Every call but yezsdolak_version gives one number, and the functions below take it apart. yezsdolak_number is 0 where nothing is
// refused; then yezsdolak_count is the count of what was written. Else it is the number of a refusal, yezsdolak_place says where it
// is, and nothing that was lent has changed. The numbers of refusals and a sentence for each are in yezsdolak_refusals.h.
#ifndef YEZSDOLAK_H
#define YEZSDOLAK_H
#include <stddef.h>
#include <stdint.h>

#include "yezsdolak_refusals.h"

#ifdef __cplusplus
extern "C" {
#endif

#define YEZSDOLAK_VERSION "0.11.1"

enum {
    YEZSDOLAK_VERSION_NUMBER = 1101, // 10000 × major + 100 × minor + patch

    YEZSDOLAK_SYSTEM_BYTES = 8712,      // no system's file is longer: to be lent to yezsdolak_write_system
    YEZSDOLAK_CERTIFICATE_BYTES = 8792, // no certificate's file is longer: to be lent to yezsdolak_solve
    YEZSDOLAK_REPORT_BYTES = 1024,      // no report is longer: to be lent to yezsdolak_report

    YEZSDOLAK_SIDES = 8,               // no system has more right sides
    YEZSDOLAK_POLYNOMIALS = 128,       // no system has more: 8 rows of A with 8 columns, and 8 right sides of 8
    YEZSDOLAK_COEFFICIENTS = 16,       // no polynomial of a system has more
    YEZSDOLAK_MOST_COEFFICIENTS = 121, // no polynomial of a certificate has more

    // bytes of stack that a call needs, more than a tenth above what was measured
    YEZSDOLAK_SOLVE_STACK = 448 * 1024, // also yezsdolak_report
    YEZSDOLAK_CHECK_STACK = 96 * 1024,  // all others but the panel's
};

// The number of a refusal, 0 where nothing is refused.
static inline unsigned yezsdolak_number(uint64_t result)
{
    return (unsigned)(result % 64);
}

// The place of a refusal.
static inline uint64_t yezsdolak_place(uint64_t result)
{
    return result / 64;
}

// Where nothing is refused: the count of what was written, or the kind of a certificate.
static inline uint64_t yezsdolak_count(uint64_t result)
{
    return result / 64;
}

// YEZSDOLAK_VERSION_NUMBER of the library that is linked, which may differ from the header's.
uint64_t yezsdolak_version(void);

// ---- solving, checking, reporting

// Solves A·y = b for right side number `side` (0 where there is one) and writes the certificate's file over the first of the lent
// bytes; those behind keep their values. The count is that of these bytes. Of all solutions this one has the least denominator d;
// where there is none at all, the certificate is an absence certificate, which shows that. The same p, A and b always have the same
// certificate, whatever other right sides the system has. A side that the system does not have is refused (40).
uint64_t yezsdolak_solve(const uint8_t *system, size_t system_bytes, uint64_t side, uint8_t *certificate, size_t lent_bytes);

// Checks a certificate for right side number `side` (0 where there is one), whoever made it. 0: it is right. Else a refusal; a side
// that the system does not have is one (40), and nothing of the certificate but its length is then looked at.
uint64_t yezsdolak_check(const uint8_t *system, size_t system_bytes, uint64_t side, const uint8_t *certificate,
                         size_t certificate_bytes);

// Writes the report of the system's file on its first right side, lines of text without a zero at the end, over the first of the lent
// bytes; those behind keep their values. The count is that of these bytes. The lines are
//
//     answer solution
//     denominator 0 1
//     feedback 0 delay 1
//
// for d = x: the coefficients of the least denominator d, lowest power first; the degree of d after its factors x are taken out, and
// the number of these factors. No solution has less of either. Of another right side they follow from its d, which yezsdolak_lookup
// gives as polynomial 0 of its certificate: the degree less the number of zeros in front, and that number. Where there is no solution
// the only line is `answer none`. A refused system has a report too, the line `refused N at P`: this call refuses nothing. Each line
// ends with a line feed. Where fewer than YEZSDOLAK_REPORT_BYTES are lent, nothing is written and the count is 0.
uint64_t yezsdolak_report(const uint8_t *system, size_t system_bytes, uint8_t *text, size_t lent_bytes);

// ---- the panel

enum {
    YEZSDOLAK_PANEL_SYSTEM_BYTES = 728,       // no system that is accepted here is longer
    YEZSDOLAK_PANEL_CERTIFICATE_BYTES = 1208, // no certificate that is accepted here is longer

    YEZSDOLAK_PANEL_STACK = 72 * 1024, // bytes of stack that the call needs, more than a tenth above what was measured
};

// Checks a certificate as yezsdolak_check does for right side 0, and accepts it only where it and its system keep the panel's limits: 1
// to 4 rows and columns, one right side, at most 8 coefficients in a polynomial of the system and 29 in one of the certificate, and so
// at most 302 words of a certificate. 0: it is right, and the limits are kept. Else a refusal; they are tried in this order:
//
// - 10 at 0: the byte count of either is not a multiple of four. For a length alone it is not given here, however great that is.
// - 1 to 9, then 21 and 24 to 29: the system cannot be read, then the certificate; the limits in these are those of yezsdolak_check.
// - YEZSDOLAK_BEYOND_PANEL, 41: both can be read, and the system exceeds a limit of the panel, place 0, or the certificate does, place 1.
// - 31 to 36: the certificate is not right.
uint64_t yezsdolak_panel_check(const uint8_t *system, size_t system_bytes, const uint8_t *certificate, size_t certificate_bytes);

// ---- systems from values, certificates as values

// Writes a system's file over the first of the lent bytes; those behind keep their values. The count is that of these bytes. `sides`
// is how many right sides there are, 1 to 8. Polynomial k, of A row by row and then of the right sides one after another, has
// sizes[k] coefficients, that of x^j at coefficients[16·k + j]; the last is not 0, and zero has none. Polynomials behind those of the
// system are not looked at. Refused are right sides not 1 to 8 (1), p that is no prime up to 65,521 (2), rows or columns not 1 to 8
// (3), more than 16 coefficients (6), a coefficient not below p (7), a last one that is 0 (8), each at the place that its word would
// have; and then fewer than YEZSDOLAK_SYSTEM_BYTES lent (11).
uint64_t yezsdolak_write_system(uint32_t modulus, uint32_t rows, uint32_t columns, uint32_t sides,
                                const uint64_t sizes[YEZSDOLAK_POLYNOMIALS],
                                const uint64_t coefficients[YEZSDOLAK_POLYNOMIALS * YEZSDOLAK_COEFFICIENTS],
                                uint8_t *system, size_t lent_bytes);

// Reads the shape of a system: the modulus, how many rows, columns and right sides it has. Where nothing is refused, the functions
// behind it take the shape apart.
uint64_t yezsdolak_shape(const uint8_t *system, size_t system_bytes);

static inline unsigned yezsdolak_modulus(uint64_t shape)
{
    return (unsigned)(shape / 64 % 65536);
}

static inline unsigned yezsdolak_rows(uint64_t shape)
{
    return (unsigned)(shape / 64 / 65536 % 16);
}

static inline unsigned yezsdolak_columns(uint64_t shape)
{
    return (unsigned)(shape / 64 / 1048576 % 16);
}

// How many right sides there are, 1 to 8, by a shape that was not refused: their numbers are those below it.
static inline unsigned yezsdolak_sides(uint64_t shape)
{
    return (unsigned)(shape / 64 / 16777216 % 16 + 1);
}

enum {
    YEZSDOLAK_SOLUTION = 1, // d, N, w, Z: its polynomials in this order
    YEZSDOLAK_ABSENCE = 2,  // q
};

// Reads the kind of a certificate for the system, which is the count; whether the certificate is right is not asked.
uint64_t yezsdolak_kind(const uint8_t *system, size_t system_bytes, const uint8_t *certificate, size_t certificate_bytes);

enum {
    YEZSDOLAK_OF_SYSTEM = 0,      // A row by row, then the right sides one after another
    YEZSDOLAK_OF_CERTIFICATE = 1, // d, N, w, Z, or else q
};

// Writes the coefficients of polynomial `number` of the system or of the certificate, counted from 0, that of x^0 first, over the
// first of `coefficients`; those behind keep their values. The count is that of the coefficients, 0 for zero. Both files are read
// first, whichever is asked for; where there is no polynomial of that number, that is refused (12). Any `of` but 0 is the certificate.
// Entry i of right side s, all counted from 0, is polynomial rows·columns + rows·s + i of the system.
uint64_t yezsdolak_lookup(const uint8_t *system, size_t system_bytes, const uint8_t *certificate, size_t certificate_bytes,
                          uint64_t of, uint64_t number, uint64_t coefficients[YEZSDOLAK_MOST_COEFFICIENTS]);

#ifdef __cplusplus
}
#endif
#endif
