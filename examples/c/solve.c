// Solves the system in a file for each of its right sides, checks the certificates, says which are solutions, and prints the report,
// which is on the first: solve SHEET [CARD...]. With more names the certificates are written there, that of the first right side first.
// Status 1: the system is refused; 2: a file or the command is at fault.
#include <stdio.h>
#include <stdlib.h>
#include "yezsdolak.h"

// Reads one byte more than any system has, so that a longer file is seen to be longer.
static size_t read_file(const char *name, uint8_t *bytes, size_t limit)
{
    FILE *f = fopen(name, "rb");
    if (f == NULL) {
        perror(name);
        exit(2);
    }
    size_t count = fread(bytes, 1, limit, f);
    if (ferror(f)) {
        perror(name);
        exit(2);
    }
    fclose(f);
    return count;
}

static void write_file(const char *name, const uint8_t *bytes, size_t count)
{
    FILE *f = fopen(name, "wb");
    if (f == NULL || fwrite(bytes, 1, count, f) != count || fclose(f) != 0) {
        perror(name);
        exit(2);
    }
}

static void refused(const char *what, uint64_t result)
{
    unsigned number = yezsdolak_number(result);
    fprintf(stderr, "%s: refused %u at %llu: %s\n", what, number, (unsigned long long)yezsdolak_place(result), yezsdolak_message(number));
    exit(1);
}

// Solves for one right side, and writes the certificate where there is a name for it.
static void solve(const char *sheet, const uint8_t *system, size_t system_bytes, unsigned side, const char *card)
{
    static uint8_t certificate[YEZSDOLAK_CERTIFICATE_BYTES];
    uint64_t solved = yezsdolak_solve(system, system_bytes, side, certificate, sizeof certificate);
    if (yezsdolak_number(solved) != 0)
        refused(sheet, solved);
    size_t bytes = (size_t)yezsdolak_count(solved);

    // It is proved that this accepts; a program that was given a certificate by others would ask the same.
    uint64_t verdict = yezsdolak_check(system, system_bytes, side, certificate, bytes);
    if (yezsdolak_number(verdict) != 0)
        refused("certificate", verdict);

    uint64_t kind = yezsdolak_count(yezsdolak_kind(system, system_bytes, certificate, bytes));
    printf("right side %u: %s\n", side, kind == YEZSDOLAK_ABSENCE ? "none" : "solution");
    if (card != NULL)
        write_file(card, certificate, bytes);
}

int main(int count, char **argument)
{
    static uint8_t system[YEZSDOLAK_SYSTEM_BYTES + 1], text[YEZSDOLAK_REPORT_BYTES];
    if (count < 2) {
        fputs("usage: solve SHEET [CARD...]\n", stderr);
        return 2;
    }
    size_t system_bytes = read_file(argument[1], system, sizeof system);

    uint64_t shape = yezsdolak_shape(system, system_bytes);
    if (yezsdolak_number(shape) != 0)
        refused(argument[1], shape);
    unsigned sides = yezsdolak_sides(shape), cards = (unsigned)count - 2;
    if (cards > sides) {
        fprintf(stderr, "solve: %u cards for %u right sides\n", cards, sides);
        return 2;
    }
    for (unsigned side = 0; side < sides; side++)
        solve(argument[1], system, system_bytes, side, side < cards ? argument[side + 2] : NULL);

    if (sides > 1)
        puts("report on right side 0:");
    size_t text_bytes = (size_t)yezsdolak_count(yezsdolak_report(system, system_bytes, text, sizeof text));
    if (fwrite(text, 1, text_bytes, stdout) != text_bytes || fflush(stdout) != 0 || ferror(stdout)) {
        perror("standard output");
        return 2;
    }
    return 0;
}
