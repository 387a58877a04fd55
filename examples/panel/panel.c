// The panel's host program, in C99: panel SHEET CARD. One line says whether the card is accepted for the sheet and both keep the panel's
// limits, or why not. Status 0: it is accepted; 1: it is refused; 2: a file or the command is at fault.
#include <errno.h>
#include <stdio.h>
#include <stdlib.h>
#include <string.h>
#include "yezsdolak.h"

enum { MOST = 1 << 24 }; // bytes of a file: more are not read, so that one without an end is no trap

// Prints a file's name with question marks for control characters: a line's end in it makes no line that looks like a verdict.
static void print_name(FILE *to, const char *name)
{
    for (; *name != 0; name++) {
        unsigned char c = (unsigned char)*name;
        putc(c < 32 || c == 127 ? '?' : c, to);
    }
}

static void fail(const char *name, const char *reason)
{
    print_name(stderr, name);
    fprintf(stderr, ": %s\n", reason);
    exit(2);
}

// Reads a whole file, for the verdict is on all of its bytes: their number counts too. Ends the program where that cannot be done.
static size_t read_file(const char *name, uint8_t bytes[MOST + 1])
{
    FILE *f = fopen(name, "rb");
    size_t count = 0;
    if (f != NULL)
        count = fread(bytes, 1, MOST + 1, f);
    if (f == NULL || ferror(f))
        fail(name, strerror(errno));
    fclose(f);
    if (count > MOST)
        fail(name, "no end within 16777216 bytes");
    return count;
}

int main(int count, char **argument)
{
    static uint8_t system[MOST + 1], certificate[MOST + 1];
    if (count != 3) {
        fputs("usage: panel SHEET CARD\n", stderr);
        return 2;
    }
    size_t system_bytes = read_file(argument[1], system);
    size_t certificate_bytes = read_file(argument[2], certificate);

    uint64_t verdict = yezsdolak_panel_check(system, system_bytes, certificate, certificate_bytes);
    print_name(stdout, argument[2]);
    if (verdict == 0) {
        puts(": accepted");
    } else {
        unsigned number = yezsdolak_number(verdict);
        printf(": refused %u at %llu: %s\n", number, (unsigned long long)yezsdolak_place(verdict), yezsdolak_message(number));
    }
    if (fflush(stdout) != 0 || ferror(stdout)) {
        perror("standard output");
        return 2;
    }
    return verdict == 0 ? 0 : 1;
}
