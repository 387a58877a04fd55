// Prints the lines of a stored set (as tests/reference/split writes it) as the rivals answer them:
// answers systems|certificates|verdicts|solutions|sides < SET.stdin. What a solver gives must also pass the check.
#include <stdio.h>
#include <stdlib.h>
#include <string.h>
#include "reading.h"

check_function check_O2;
solve_function RIVAL_SOLVE;

struct list {
    uint8_t *bytes;
    size_t count;
};

// the next list of the set; false at its end
static bool next_list(struct list *l)
{
    uint8_t head[4];
    if (fread(head, 1, 4, stdin) != 4)
        return false;
    l->count = (size_t)head[0] | (size_t)head[1] << 8 | (size_t)head[2] << 16 | (size_t)head[3] << 24;
    l->bytes = realloc(l->bytes, l->count + 1);
    return fread(l->bytes, 1, l->count, stdin) == l->count;
}

static bool refused(uint64_t result)
{
    if (result % 64 != 0)
        printf("refused %d at %ld\n", (int)(result % 64), (long)(result / 64));
    return result % 64 != 0;
}

static void print_solution(const struct certificate *c)
{
    if (c->kind == ABSENCE) {
        printf("answer none;");
        return;
    }
    printf("answer solution; denominator");
    for (uint32_t i = 0; i < c->d.size; i++)
        printf(" %u", c->d.coefficient[i]);
    uint32_t delay = 0; // factors x
    while (delay + 1 < c->d.size && c->d.coefficient[delay] == 0)
        delay++;
    printf("; feedback %u delay %u;", c->d.size - 1 - delay, delay);
}

static void print_words(const uint8_t *bytes, uint64_t words)
{
    for (uint64_t i = 0; i < words; i++)
        printf("%s%02X%02X%02X%02X", i == 0 ? "" : " ", bytes[4 * i + 3], bytes[4 * i + 2], bytes[4 * i + 1], bytes[4 * i]);
    puts("");
}

static uint32_t number_at(struct list l, size_t i)
{
    const uint8_t *b = l.bytes + 4 * i;
    return (uint32_t)b[0] | (uint32_t)b[1] << 8 | (uint32_t)b[2] << 16 | (uint32_t)b[3] << 24;
}

// the number of a certificate's words, or 0 where a refusal was printed
static uint64_t solve_side(struct list system, uint32_t side, uint8_t *lent, size_t bytes)
{
    uint64_t result = RIVAL_SOLVE(system.bytes, system.count, side, lent, bytes);
    if (refused(result))
        return 0;
    uint64_t verdict = check_O2(system.bytes, system.count, side, lent, 4 * (result / 64));
    if (verdict != 0)
        printf("its certificate is refused %d at %ld: ", (int)(verdict % 64), (long)(verdict / 64));
    return result / 64;
}

static uint8_t lent[4 * LONGEST_CERTIFICATE];

static void answer_solution(struct list system)
{
    static struct system s;
    static struct certificate c;
    uint64_t words = solve_side(system, 0, lent, sizeof lent);
    if (words == 0)
        return;
    read_system(&s, system.bytes, system.count, 0);
    read_certificate(&c, &s, lent, 4 * words);
    print_solution(&c);
    putchar(' ');
    print_words(lent, words);
}

// told: the right side, and how many bytes are lent
static void answer_side(struct list system, struct list told)
{
    uint64_t words = solve_side(system, number_at(told, 0), lent, number_at(told, 1));
    if (words != 0)
        print_words(lent, words);
}

static void answer_system(struct list system)
{
    static struct system s;
    if (!refused(read_system(&s, system.bytes, system.count, 0)))
        printf("read %u %u %u %u\n", s.p, s.n, s.m, s.sides);
}

static void answer_certificate(struct list system, struct list certificate)
{
    static struct system s;
    static struct certificate c;
    if (!refused(read_system(&s, system.bytes, system.count, 0)) &&
        !refused(read_certificate(&c, &s, certificate.bytes, certificate.count)))
        puts(c.kind == SOLUTION ? "solution" : "absence");
}

static void answer_verdict(struct list system, struct list certificate, struct list told)
{
    if (!refused(check_O2(system.bytes, system.count, number_at(told, 0), certificate.bytes, certificate.count)))
        puts("accepted");
}

int main(int count, char **argument)
{
    struct list system = {0}, second = {0}, third = {0};
    const char *set = count == 2 ? argument[1] : "";
    while (next_list(&system))
        if (strcmp(set, "systems") == 0)
            answer_system(system);
        else if (strcmp(set, "solutions") == 0)
            answer_solution(system);
        else if (!next_list(&second))
            return 1;
        else if (strcmp(set, "sides") == 0)
            answer_side(system, second);
        else if (strcmp(set, "certificates") == 0)
            answer_certificate(system, second);
        else if (!next_list(&third))
            return 1;
        else if (strcmp(set, "verdicts") == 0)
            answer_verdict(system, second, third);
        else
            return 2;
    free(system.bytes);
    free(second.bytes);
    free(third.bytes);
    return 0;
}
