// Checks certificates against a system, with a status that a shell can ask: check [--side=NUMBER] SHEET CARD... For each card one line
// says whether it is accepted for the right side of that number, else for the first, or why not; `--side NUMBER` is the same. Status 0:
// all are accepted; 1: one is refused; 2: a file or the command is at fault.
#include <ctype.h>
#include <errno.h>
#include <stdbool.h>
#include <stdio.h>
#include <stdlib.h>
#include <string.h>
#include "yezsdolak.h"

// Prints a file's name with question marks for control characters: a line's end in it makes no line that looks like a verdict.
static void print_name(FILE *to, const char *name)
{
    for (; *name != 0; name++) {
        unsigned char c = (unsigned char)*name;
        putc(c < 32 || c == 127 ? '?' : c, to);
    }
}

// Reads a file, or its first bytes up to one more than `limit`: a longer one is then seen to be longer. Ends the program where the
// file cannot be read.
static size_t read_file(const char *name, uint8_t *bytes, size_t limit)
{
    FILE *f = fopen(name, "rb");
    size_t count = 0;
    if (f != NULL)
        count = fread(bytes, 1, limit + 1, f);
    if (f == NULL || ferror(f)) {
        const char *reason = strerror(errno);
        print_name(stderr, name);
        fprintf(stderr, ": %s\n", reason);
        exit(2);
    }
    fclose(f);
    return count;
}

// Takes the option off the arguments, if it is there: the number, 0 without it. It stands in the same argument or in the next. A number
// beyond 64 bits becomes the greatest, which no system has as a right side. False where it is no number.
static bool take_side(int *count, char ***argument, uint64_t *side)
{
    const char *digits;
    char *end;
    int taken = 1;
    *side = 0;
    if (*count > 1 && strncmp((*argument)[1], "--side=", 7) == 0)
        digits = (*argument)[1] + 7;
    else if (*count > 2 && strcmp((*argument)[1], "--side") == 0)
        digits = (*argument)[2], taken = 2;
    else
        return true;
    *side = strtoull(digits, &end, 10);
    *count -= taken, *argument += taken;
    return isdigit((unsigned char)*digits) && *end == 0;
}

int main(int count, char **argument)
{
    // what is longer is refused by its length, or where its last word should stand, whatever follows
    static uint8_t system[YEZSDOLAK_SYSTEM_BYTES + 1], certificate[YEZSDOLAK_CERTIFICATE_BYTES + 4 + 1];
    int status = 0;
    uint64_t side;
    if (!take_side(&count, &argument, &side) || count < 3) {
        fputs("usage: check [--side=NUMBER] SHEET CARD... (NUMBER: a right side's, from 0)\n", stderr);
        return 2;
    }
    size_t system_bytes = read_file(argument[1], system, YEZSDOLAK_SYSTEM_BYTES);
    for (int i = 2; i < count; i++) {
        size_t bytes = read_file(argument[i], certificate, YEZSDOLAK_CERTIFICATE_BYTES + 4);
        if (bytes > YEZSDOLAK_CERTIFICATE_BYTES + 4)
            bytes = YEZSDOLAK_CERTIFICATE_BYTES + 4;
        uint64_t verdict = yezsdolak_check(system, system_bytes, side, certificate, bytes);
        print_name(stdout, argument[i]);
        if (verdict == 0) {
            puts(": accepted");
        } else {
            unsigned number = yezsdolak_number(verdict);
            printf(": refused %u at %llu: %s\n", number, (unsigned long long)yezsdolak_place(verdict), yezsdolak_message(number));
            status = 1;
        }
    }
    if (fflush(stdout) != 0 || ferror(stdout)) {
        perror("standard output");
        return 2;
    }
    return status;
}
