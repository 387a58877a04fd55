// Makes a system with two right sides from numbers, solves it on a thread with just the stack that the header says, and prints the
// solutions: no file, no bit is shifted. Modulo 3, x^2*y1 + (x^2 + x)*y2 is to be x, or 1: document 01's cases 6 and 7.
#include <pthread.h>
#include <stdio.h>
#include <stdlib.h>
#include "yezsdolak.h"

static uint8_t system_file[YEZSDOLAK_SYSTEM_BYTES], certificate[YEZSDOLAK_CERTIFICATE_BYTES];
static size_t system_bytes, certificate_bytes;
static unsigned side;

static void refused(const char *what, uint64_t result)
{
    unsigned number = yezsdolak_number(result);
    fprintf(stderr, "%s: refused %u at %llu: %s\n", what, number, (unsigned long long)yezsdolak_place(result), yezsdolak_message(number));
    exit(1);
}

static void *solve(void *result)
{
    *(uint64_t *)result = yezsdolak_solve(system_file, system_bytes, side, certificate, sizeof certificate);
    return NULL;
}

// Solves on a thread of its own.
static uint64_t solve_on_thread(void)
{
    pthread_t thread;
    pthread_attr_t attributes;
    uint64_t result = 0;
    // the thread's own needs come on top
    if (pthread_attr_init(&attributes) != 0 || pthread_attr_setstacksize(&attributes, YEZSDOLAK_SOLVE_STACK + 64 * 1024) != 0
        || pthread_create(&thread, &attributes, solve, &result) != 0 || pthread_join(thread, NULL) != 0) {
        fputs("values: no thread\n", stderr);
        exit(2);
    }
    pthread_attr_destroy(&attributes);
    return result;
}

// Prints one polynomial of the certificate, lowest power first.
static void show(const char *name, uint64_t number)
{
    uint64_t coefficients[YEZSDOLAK_MOST_COEFFICIENTS];
    uint64_t found = yezsdolak_lookup(system_file, system_bytes, certificate, certificate_bytes, YEZSDOLAK_OF_CERTIFICATE, number,
                                      coefficients);
    if (yezsdolak_number(found) != 0)
        refused(name, found);
    printf("%s", name);
    for (uint64_t j = 0; j < yezsdolak_count(found); j++)
        printf(" %llu", (unsigned long long)coefficients[j]);
    puts("");
}

// The status: 0, or 2 where standard output could not be written.
static int written_out(void)
{
    if (fflush(stdout) == 0 && !ferror(stdout))
        return 0;
    perror("standard output");
    return 2;
}

int main(void)
{
    // polynomials 0 and 1 are A's row, 2 is the first right side, 3 the second
    static const uint64_t sizes[YEZSDOLAK_POLYNOMIALS] = {3, 3, 2, 1};
    static const uint64_t coefficients[YEZSDOLAK_POLYNOMIALS * YEZSDOLAK_COEFFICIENTS] = {
        [0 * YEZSDOLAK_COEFFICIENTS + 2] = 1,
        [1 * YEZSDOLAK_COEFFICIENTS + 1] = 1,
        [1 * YEZSDOLAK_COEFFICIENTS + 2] = 1,
        [2 * YEZSDOLAK_COEFFICIENTS + 1] = 1,
        [3 * YEZSDOLAK_COEFFICIENTS + 0] = 1,
    };
    if (yezsdolak_version() != YEZSDOLAK_VERSION_NUMBER)
        fputs("values: header and library are of different versions\n", stderr);

    uint64_t written = yezsdolak_write_system(3, 1, 2, 2, sizes, coefficients, system_file, sizeof system_file);
    if (yezsdolak_number(written) != 0)
        refused("system", written);
    system_bytes = (size_t)yezsdolak_count(written);

    for (side = 0; side < 2; side++) {
        uint64_t solved = solve_on_thread();
        if (yezsdolak_number(solved) != 0)
            refused("system", solved);
        certificate_bytes = (size_t)yezsdolak_count(solved);

        uint64_t kind = yezsdolak_kind(system_file, system_bytes, certificate, certificate_bytes);
        printf("right side %u: %s\n", side, yezsdolak_count(kind) == YEZSDOLAK_ABSENCE ? "none" : "solution");
        if (yezsdolak_count(kind) == YEZSDOLAK_ABSENCE)
            continue;
        show("d", 0);
        show("N1", 1);
        show("N2", 2);
    }
    return written_out();
}
