// The reference against reports and numbers by hand and the stored sets that tests/reference/split writes to a folder: selftest FOLDER.
#include <stdio.h>
#include <stdlib.h>
#include <string.h>
#include "reference/reference.h"

enum { LINE = REPORT_ROOM + 9 * LONGEST_CERTIFICATE + 64 };

struct set {
    const char *name;
    FILE *input, *output;
    uint32_t cases;
};

static _Noreturn void fail(const struct set *set, const char *why)
{
    fprintf(stderr, "self-test: %s, case %u: %s\n", set->name, set->cases, why);
    exit(1);
}

static FILE *open_part(const char *folder, const char *name, const char *part)
{
    char path[LINE];
    snprintf(path, sizeof path, "%s/%s.%s", folder, name, part);
    FILE *file = fopen(path, "rb");
    if (file == NULL) {
        fprintf(stderr, "self-test: no %s\n", path);
        exit(2);
    }
    return file;
}

// the next list of bytes; false at the end of the set
static bool next_list(struct set *set, struct file *list)
{
    list->count = fread(list->byte, 1, 4, set->input);
    if (list->count == 0)
        return false;
    list->count = word_at(list, 0);
    if (list->count > FILE_ROOM || fread(list->byte, 1, list->count, set->input) != list->count)
        fail(set, "the set is broken");
    return true;
}

// a line of text, its own line ends as "; ", is the next stored one
static void expect(struct set *set, const char *text)
{
    char stored[LINE], said[LINE];
    size_t count = 0;
    for (; *text != '\0'; text++) {
        said[count++] = *text == '\n' && text[1] != '\0' ? ';' : *text;
        if (*text == '\n' && text[1] != '\0')
            said[count++] = ' ';
    }
    said[count] = '\0';
    if (fgets(stored, sizeof stored, set->output) == NULL || strcmp(stored, said) != 0)
        fail(set, said);
}

static void expect_refusal(struct set *set, struct refusal r, const char *otherwise)
{
    char text[LINE];
    if (r.number == 0)
        snprintf(text, sizeof text, "%s\n", otherwise);
    else
        snprintf(text, sizeof text, "refused %u at %u\n", r.number, r.place);
    expect(set, text);
}

// A·v = 0 for all vectors that are to be a kernel
static void expect_kernel(struct set *set, const struct system *s)
{
    static struct polynomial v[MOST][MOST], f;
    uint32_t count = kernel(s, v);
    for (uint32_t k = 0; k < count; k++)
        for (uint32_t i = 0; i < s->n; i++) {
            f.size = 0;
            for (uint32_t j = 0; j < s->m; j++)
                add_product(s->p, &f, &s->a[i][j], &v[k][j]);
            if (f.size != 0)
                fail(set, "no vector of the kernel");
        }
}

// behind so many characters of the text, as one more line, the words of the chosen certificate of a right side
static void add_words(char text[LINE], size_t count, const struct system *s, uint32_t side)
{
    static struct certificate c;
    static struct file written;
    choose_certificate(s, side, &c);
    write_certificate(&written, s, &c);
    for (size_t i = 0; i < written.count / 4; i++)
        count += (size_t)snprintf(text + count, LINE - count, "%s%08X", i == 0 ? "" : " ", word_at(&written, i));
    snprintf(text + count, LINE - count, "\n");
}

// the report and the certificate of the first right side
static void try_solution(struct set *set, const struct file *system)
{
    static struct answer a;
    static struct system s;
    char text[LINE];
    answer_to(&a, system, 0);
    size_t count = report_text(text, &a);
    if (read_system(&s, system).number == 0) {
        add_words(text, count, &s, 0);
        expect_kernel(set, &s);
    }
    expect(set, text);
}

static void expect_list(struct set *set, struct file *list)
{
    if (!next_list(set, list))
        fail(set, "the set is broken");
}

// the certificate of the right side that a second list names, with the number of bytes that are lent
static void try_side(struct set *set, const struct file *system)
{
    static struct file told;
    static struct system s;
    char text[LINE];
    expect_list(set, &told);
    uint32_t side = word_at(&told, 0);
    struct refusal r = read_to_side(&s, system, side);
    if (r.number == 0 && word_at(&told, 1) < 4 * LONGEST_CERTIFICATE)
        r.number = 11;
    if (r.number != 0) {
        expect_refusal(set, r, "");
        return;
    }
    add_words(text, 0, &s, side);
    expect(set, text);
}

static void try_system(struct set *set, const struct file *system)
{
    static struct system s;
    char text[64];
    struct refusal r = read_system(&s, system);
    snprintf(text, sizeof text, "read %u %u %u %u", s.p, s.n, s.m, s.sides);
    expect_refusal(set, r, text);
}

// what is read of a valid system and certificate is written back to the same bytes
static void expect_written(struct set *set, const struct file *system, const struct file *certificate)
{
    static struct system s;
    static struct certificate c;
    static struct file written;
    if (read_system(&s, system).number != 0 || read_certificate(&c, &s, certificate).number != 0)
        return;
    write_system(&written, &s);
    if (written.count != system->count || memcmp(written.byte, system->byte, system->count) != 0)
        fail(set, "the system is written in another way");
    write_certificate(&written, &s, &c);
    if (written.count != certificate->count || memcmp(written.byte, certificate->byte, certificate->count) != 0)
        fail(set, "the certificate is written in another way");
}

// the check for the right side that a third list names
static void try_verdict(struct set *set, const struct file *system)
{
    static struct file certificate, told;
    expect_list(set, &certificate);
    expect_list(set, &told);
    expect_refusal(set, check_files(system, word_at(&told, 0), &certificate), "accepted");
    expect_written(set, system, &certificate);
}

// the panel's check
static void try_panel(struct set *set, const struct file *system)
{
    static struct file certificate;
    expect_list(set, &certificate);
    expect_refusal(set, check_on_panel(system, &certificate), "accepted");
}

static uint32_t try_set(const char *folder, const char *name, void try(struct set *, const struct file *))
{
    static struct file list;
    struct set set = {name, open_part(folder, name, "stdin"), open_part(folder, name, "stdout"), 0};
    for (; next_list(&set, &list); set.cases++)
        try(&set, &list);
    if (fgetc(set.output) != EOF)
        fail(&set, "lines are left over");
    fclose(set.input);
    fclose(set.output);
    return set.cases;
}

// the report on A = (f), b = 1, where f is monic, or zero
static const struct {
    uint32_t p, size, f[SYSTEM_SIZE];
    const char *text;
} by_hand[] = {
    {2,     0, {0},                 "answer none\n"                                                   },
    {2,     1, {1},                 "answer solution\ndenominator 1\nfeedback 0 delay 0\n"            },
    {2,     2, {0, 1},              "answer solution\ndenominator 0 1\nfeedback 0 delay 1\n"          },
    {2,     2, {1, 1},              "answer solution\ndenominator 1 1\nfeedback 1 delay 0\n"          },
    {2,     4, {0, 0, 1, 1},        "answer solution\ndenominator 0 0 1 1\nfeedback 1 delay 2\n"      },
    {3,     5, {0, 2, 0, 0, 1},     "answer solution\ndenominator 0 2 0 0 1\nfeedback 3 delay 1\n"    },
    {257,   5, {256, 0, 0, 0, 1},   "answer solution\ndenominator 256 0 0 0 1\nfeedback 4 delay 0\n"  },
    {65521, 5, {0, 0, 0, 65520, 1}, "answer solution\ndenominator 0 0 0 65520 1\nfeedback 1 delay 3\n"}
};

enum { BY_HAND = sizeof by_hand / sizeof by_hand[0] };

static void try_by_hand(void)
{
    static struct system s;
    static struct file system;
    static struct answer a;
    for (uint32_t i = 0; i < BY_HAND; i++) {
        char text[REPORT_ROOM];
        s.p = by_hand[i].p, s.n = s.m = s.sides = 1;
        resize(&s.a[0][0], by_hand[i].size);
        for (uint32_t k = 0; k < by_hand[i].size; k++)
            s.a[0][0].coefficient[k] = by_hand[i].f[k];
        set_constant(&s.b[0][0], 1);
        write_system(&system, &s);
        answer_to(&a, &system, 0);
        if (report_text(text, &a) != strlen(by_hand[i].text) || strcmp(text, by_hand[i].text) != 0) {
            fprintf(stderr, "self-test: report by hand %u: %s", i, text);
            exit(1);
        }
    }
}

static void expect_number(const char *what, uint32_t i, const struct file *system, const struct file *certificate, uint64_t number)
{
    struct refusal r = check_on_panel(system, certificate);
    if (64 * (uint64_t)r.place + r.number != number) {
        fprintf(stderr, "self-test: %s by hand %u: %u at %u\n", what, i, r.number, r.place);
        exit(1);
    }
}

// the panel's number for case 1 of document 01 with zero bytes behind its system and behind its certificate
static const struct {
    uint32_t behind_system, behind_certificate;
    uint64_t number;
} lengths[] = {
    {0,      0,      0  },
    {4,      0,      457},
    {0,      4,      797},
    {100000, 0,      457},
    {0,      100000, 797},
    {100000, 100000, 457},
    {1,      0,      10 },
    {0,      2,      10 },
    {3,      4,      10 },
    {2,      2,      10 },
    {100001, 0,      10 },
    {0,      100003, 10 }
};

enum { LENGTHS = sizeof lengths / sizeof lengths[0] };

static void put_words(struct file *f, const uint32_t *word, uint32_t count, uint32_t zeros)
{
    f->count = 4 * (size_t)count + zeros;
    memset(f->byte, 0, f->count);
    for (uint32_t i = 0; i < count; i++)
        set_word(f, i, word[i]);
}

static void try_lengths(void)
{
    static const uint32_t of_system[] = {0x10110002, 0x20000002, 0x30000000, 0x30000001, 0x20000001, 0x30000001, 0x40000007};
    static const uint32_t of_certificate[] = {0x50000001, 0x20000002, 0x30000000, 0x30000001, 0x20000001, 0x30000001,
                                              0x20000002, 0x30000000, 0x30000001, 0x20000001, 0x30000001, 0x4000000C};
    static struct file system, certificate;
    for (uint32_t i = 0; i < LENGTHS; i++) {
        put_words(&system, of_system, 7, lengths[i].behind_system);
        put_words(&certificate, of_certificate, 12, lengths[i].behind_certificate);
        expect_number("length", i, &system, &certificate, lengths[i].number);
    }
}

// the panel's number for y = 0 modulo 2: b is 0, all of A has so many coefficients, and w has so many, all 1
static const struct {
    uint32_t n, m, sides, size, w;
    uint64_t number;
} extents[] = {
    {4, 4, 1, 8,  29,  0  },
    {5, 4, 1, 8,  29,  41 },
    {4, 5, 1, 8,  29,  41 },
    {4, 4, 2, 8,  29,  41 },
    {4, 4, 8, 8,  29,  41 },
    {4, 4, 1, 9,  29,  41 },
    {4, 4, 1, 16, 29,  41 },
    {4, 4, 1, 17, 29,  70 },
    {4, 4, 1, 8,  30,  105},
    {4, 4, 1, 8,  121, 105},
    {5, 4, 1, 8,  30,  41 },
    {4, 4, 2, 9,  121, 41 },
    {1, 1, 1, 1,  30,  105},
    {4, 4, 1, 8,  122, 474},
    {4, 4, 1, 9,  122, 474}
};

enum { EXTENTS = sizeof extents / sizeof extents[0] };

static void set_ones(struct polynomial *f, uint32_t size)
{
    resize(f, size);
    for (uint32_t k = 0; k < size; k++)
        f->coefficient[k] = 1;
}

static void try_extents(void)
{
    static struct system s;
    static struct certificate c = {.kind = SOLUTION};
    static struct file system, certificate;
    for (uint32_t e = 0; e < EXTENTS; e++) {
        s.p = 2, s.n = extents[e].n, s.m = extents[e].m, s.sides = extents[e].sides;
        for (uint32_t i = 0; i < s.n; i++)
            for (uint32_t j = 0; j < s.m; j++)
                set_ones(&s.a[i][j], extents[e].size);
        set_constant(&c.d, 1);
        set_ones(&c.w, extents[e].w);
        write_system(&system, &s);
        write_certificate(&certificate, &s, &c);
        expect_number("extent", e, &system, &certificate, extents[e].number);
    }
}

int main(int count, char **argument)
{
    const char *folder = count == 2 ? argument[1] : "target/differential/stored";
    try_by_hand();
    try_lengths();
    try_extents();
    uint32_t solutions = try_set(folder, "solutions", try_solution);
    uint32_t sides = try_set(folder, "sides", try_side);
    uint32_t systems = try_set(folder, "systems", try_system);
    uint32_t verdicts = try_set(folder, "verdicts", try_verdict);
    uint32_t panel = try_set(folder, "panel", try_panel);
    printf("self-test: %u reports and %u numbers of the panel as by hand; %u solutions, %u right sides, %u systems, %u verdicts, %u of the "
           "panel as stored\n",
           BY_HAND, LENGTHS + EXTENTS, solutions, sides, systems, verdicts, panel);
    return 0;
}
