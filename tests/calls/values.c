// The calls on files and values against a reading of their own of the same files: values NAME..., each the sheet NAME.sheet and the
// card NAME.card or, where it has several right sides, NAME.0.card, NAME.1.card and so on. Whole files, files with one bit turned or cut
// short, right sides that are not there, values that are at fault, the longest system. Prints how many expectations were met.
#include <stdbool.h>
#include <stdio.h>
#include <stdlib.h>
#include <string.h>
#include "yezsdolak.h"

enum { ROOM = YEZSDOLAK_CERTIFICATE_BYTES + 8, MOST = YEZSDOLAK_POLYNOMIALS, FILL = 0xA5 };

struct file {
    size_t count;
    uint8_t bytes[ROOM];
};

// Polynomials in written order.
struct values {
    size_t count, size[MOST];
    uint64_t coefficient[MOST][YEZSDOLAK_MOST_COEFFICIENTS];
};

static unsigned long met;

static void expect(bool holds, const char *name, const char *what)
{
    if (!holds) {
        fprintf(stderr, "%s: %s\n", name, what);
        exit(1);
    }
    met++;
}

static void read_file(struct file *f, const char *path)
{
    FILE *stream = fopen(path, "rb");
    if (stream == NULL) {
        perror(path);
        exit(2);
    }
    f->count = fread(f->bytes, 1, sizeof f->bytes, stream);
    fclose(stream);
}

static uint32_t word(const struct file *f, size_t place)
{
    const uint8_t *b = f->bytes + 4 * place;
    return b[0] | (uint32_t)b[1] << 8 | (uint32_t)b[2] << 16 | (uint32_t)b[3] << 24;
}

static uint32_t sides_of(const struct file *sheet)
{
    return (word(sheet, 0) >> 24) % 16 + 1;
}

// Reads the polynomials behind the head of a file that is not at fault.
static void parse(const struct file *f, struct values *v)
{
    v->count = 0;
    for (size_t place = 1; word(f, place) >> 28 == 2; v->count++) {
        size_t size = word(f, place++) & 0xFFFFFFF;
        v->size[v->count] = size;
        for (size_t j = 0; j < size; j++)
            v->coefficient[v->count][j] = word(f, place++) & 0xFFFFFFF;
    }
}

static bool filled(const void *start, size_t count)
{
    const uint8_t *bytes = start;
    for (size_t i = 0; i < count; i++)
        if (bytes[i] != FILL)
            return false;
    return true;
}

static uint64_t refusal(unsigned number, uint64_t place)
{
    return 64 * place + number;
}

// ---- lookup, shape, kind

static uint64_t look_up(const struct file *sheet, const struct file *card, uint64_t of, uint64_t number, uint64_t *lent)
{
    memset(lent, FILL, YEZSDOLAK_MOST_COEFFICIENTS * sizeof *lent);
    return yezsdolak_lookup(sheet->bytes, sheet->count, card->bytes, card->count, of, number, lent);
}

static void expect_polynomials(const char *name, const struct file *sheet, const struct file *card, uint64_t of, const struct values *v)
{
    uint64_t lent[YEZSDOLAK_MOST_COEFFICIENTS];
    for (size_t k = 0; k < v->count; k++) {
        uint64_t found = look_up(sheet, card, of, k, lent);
        expect(found == 64 * v->size[k] && yezsdolak_count(found) == v->size[k], name, "lookup: another count");
        expect(memcmp(lent, v->coefficient[k], v->size[k] * sizeof *lent) == 0, name, "lookup: another polynomial");
        expect(filled(lent + v->size[k], sizeof lent - v->size[k] * sizeof *lent), name, "lookup: numbers behind are changed");
    }
    for (uint64_t number = v->count; number != 1; number = number == v->count ? UINT64_MAX : 1) {
        expect(look_up(sheet, card, of, number, lent) == refusal(YEZSDOLAK_NO_SUCH_POLYNOMIAL, 0), name, "lookup: not refused");
        expect(filled(lent, sizeof lent), name, "lookup: changed in spite of a refusal");
    }
}

static void test_files(const char *name, const struct file *sheet, const struct file *card, const struct values *of_sheet,
                       const struct values *of_card)
{
    uint32_t head = word(sheet, 0);
    uint64_t shape = yezsdolak_shape(sheet->bytes, sheet->count), kind = yezsdolak_kind(sheet->bytes, sheet->count, card->bytes, card->count);
    expect(yezsdolak_number(shape) == 0 && yezsdolak_modulus(shape) == head % 65536, name, "shape: another modulus");
    expect(yezsdolak_rows(shape) == (head >> 16) % 16 && yezsdolak_columns(shape) == (head >> 20) % 16, name, "shape: other rows or columns");
    expect(yezsdolak_sides(shape) == sides_of(sheet), name, "shape: another number of right sides");
    expect(kind == 64 * (word(card, 0) & 0xFFFFFFF), name, "kind: another");
    expect_polynomials(name, sheet, card, YEZSDOLAK_OF_SYSTEM, of_sheet);
    expect_polynomials(name, sheet, card, YEZSDOLAK_OF_CERTIFICATE, of_card);
    expect_polynomials(name, sheet, card, 2, of_card);
}

// ---- right sides

static uint64_t check(const struct file *sheet, uint64_t side, const struct file *card)
{
    return yezsdolak_check(sheet->bytes, sheet->count, side, card->bytes, card->count);
}

// The solver's certificate in a file, without bytes where it is refused.
static uint64_t solve(const char *name, const struct file *sheet, uint64_t side, size_t lent_bytes, struct file *card)
{
    memset(card->bytes, FILL, sizeof card->bytes);
    uint64_t result = yezsdolak_solve(sheet->bytes, sheet->count, side, card->bytes, lent_bytes);
    card->count = yezsdolak_number(result) == 0 ? (size_t)yezsdolak_count(result) : 0;
    expect(filled(card->bytes + card->count, sizeof card->bytes - card->count), name, "solve: bytes behind are changed");
    return result;
}

// Each right side has a certificate that is right for it; one that is not there is 40, whatever is lent and whatever the card is.
static void test_sides(const char *name, const struct file *sheet, const struct file *card)
{
    static struct file solved, empty;
    const uint64_t none = refusal(YEZSDOLAK_NO_SUCH_SIDE, 0), sides = sides_of(sheet);
    const uint64_t missing[] = {sides, YEZSDOLAK_SIDES, 256, (uint64_t)1 << 32, ((uint64_t)1 << 32) + sides - 1, UINT64_MAX};
    for (uint64_t side = 0; side < sides; side++) {
        uint64_t result = solve(name, sheet, side, YEZSDOLAK_CERTIFICATE_BYTES, &solved);
        expect(yezsdolak_number(result) == 0 && check(sheet, side, &solved) == 0, name, "solve: a certificate that is not right");
        result = solve(name, sheet, side, YEZSDOLAK_CERTIFICATE_BYTES - 1, &solved);
        expect(result == refusal(YEZSDOLAK_SPACE_SHORT, 0), name, "solve: too little lent, and not refused");
    }
    for (size_t i = 0; i < sizeof missing / sizeof missing[0]; i++) {
        expect(solve(name, sheet, missing[i], YEZSDOLAK_CERTIFICATE_BYTES, &solved) == none, name, "solve: a right side that is not there");
        expect(solve(name, sheet, missing[i], 0, &solved) == none, name, "solve: not there, nothing lent");
        expect(check(sheet, missing[i], card) == none && check(sheet, missing[i], &empty) == none, name, "check: not there");
    }
}

// ---- files at fault: shape, kind and lookup refuse what the check refuses before it judges, and nothing else

// What the check is to say on a right side that no system has.
static uint64_t without_side(const struct file *sheet, const struct file *card)
{
    uint64_t shape = yezsdolak_shape(sheet->bytes, sheet->count);
    if (card->count % 4 != 0)
        return refusal(YEZSDOLAK_BAD_FILE_LENGTH, 0);
    return yezsdolak_number(shape) != 0 ? shape : refusal(YEZSDOLAK_NO_SUCH_SIDE, 0);
}

static void expect_as_checked(const char *name, const struct file *sheet, uint64_t side, const struct file *card)
{
    uint64_t lent[YEZSDOLAK_MOST_COEFFICIENTS];
    uint64_t verdict = check(sheet, side, card);
    uint64_t kind = yezsdolak_kind(sheet->bytes, sheet->count, card->bytes, card->count);
    uint64_t found = look_up(sheet, card, YEZSDOLAK_OF_SYSTEM, 0, lent);
    expect(check(sheet, UINT64_MAX, card) == without_side(sheet, card), name, "check: 40 not in its order");
    if (yezsdolak_number(verdict) == YEZSDOLAK_NO_SUCH_SIDE) {
        expect(side >= sides_of(sheet) && verdict == without_side(sheet, card), name, "check: a right side that is there");
        return;
    }
    bool read = yezsdolak_number(verdict) == 0 || yezsdolak_number(verdict) >= YEZSDOLAK_NOT_MONIC;
    expect(read ? yezsdolak_number(kind) == 0 && yezsdolak_count(kind) == (word(card, 0) & 0xFFFFFFF) : kind == verdict, name, "kind: not as the check");
    expect(read ? yezsdolak_number(found) == 0 : found == verdict && filled(lent, sizeof lent), name, "lookup: not as the check");
    uint64_t shape = yezsdolak_shape(sheet->bytes, sheet->count);
    bool of_system = !read && yezsdolak_number(verdict) <= YEZSDOLAK_BAD_FILE_LENGTH && card->count % 4 == 0;
    expect(of_system ? shape == verdict : yezsdolak_number(shape) == 0, name, "shape: not as the check");
}

// Turns each bit of `damaged`, which is one of the two, and cuts it at each byte.
static void test_damaged(const char *name, struct file *damaged, const struct file *sheet, uint64_t side, const struct file *card)
{
    size_t count = damaged->count;
    for (size_t bit = 0; bit < 8 * count; bit++) {
        damaged->bytes[bit / 8] ^= (uint8_t)(1 << bit % 8);
        expect_as_checked(name, sheet, side, card);
        damaged->bytes[bit / 8] ^= (uint8_t)(1 << bit % 8);
    }
    for (damaged->count = 0; damaged->count < count; damaged->count++)
        if (damaged == card || card->count % 4 == 0)
            expect_as_checked(name, sheet, side, card);
    damaged->count = count;
}

// ---- the writer

struct numbers {
    uint32_t modulus, rows, columns, sides;
    uint64_t sizes[YEZSDOLAK_POLYNOMIALS], coefficients[YEZSDOLAK_POLYNOMIALS * YEZSDOLAK_COEFFICIENTS];
};

static void expect_written(const char *name, const struct numbers *n, size_t lent_bytes, uint64_t result, const struct file *written)
{
    uint8_t lent[ROOM];
    memset(lent, FILL, sizeof lent);
    uint64_t given = yezsdolak_write_system(n->modulus, n->rows, n->columns, n->sides, n->sizes, n->coefficients, lent, lent_bytes);
    size_t count = yezsdolak_number(result) == 0 ? (size_t)yezsdolak_count(result) : 0;
    expect(given == result, name, "write_system: another result");
    expect(memcmp(lent, written->bytes, count) == 0, name, "write_system: other bytes");
    expect(filled(lent + count, sizeof lent - count), name, "write_system: bytes behind are changed");
}

static void test_writer(const char *name, const struct file *sheet, const struct values *v)
{
    struct numbers n = {word(sheet, 0) % 65536, (word(sheet, 0) >> 16) % 16, (word(sheet, 0) >> 20) % 16, sides_of(sheet), {0}, {0}};
    struct numbers faulty;
    size_t last = 0, place = 1; // the last polynomial that is not zero, and where it would start
    for (size_t k = 0, at = 1; k < v->count; at += 1 + v->size[k], k++) {
        n.sizes[k] = v->size[k];
        memcpy(n.coefficients + YEZSDOLAK_COEFFICIENTS * k, v->coefficient[k], v->size[k] * sizeof n.coefficients[0]);
        if (v->size[k] > 0)
            last = k, place = at;
    }
    expect_written(name, &n, YEZSDOLAK_SYSTEM_BYTES, 64 * sheet->count, sheet);
    expect_written(name, &n, YEZSDOLAK_SYSTEM_BYTES + 5, 64 * sheet->count, sheet);
    expect_written(name, &n, YEZSDOLAK_SYSTEM_BYTES - 1, refusal(YEZSDOLAK_SPACE_SHORT, 0), sheet);
    expect_written(name, &n, 0, refusal(YEZSDOLAK_SPACE_SHORT, 0), sheet);
    const uint32_t no_primes[] = {0, 1, 4, 65520, 65537, UINT32_MAX}, no_sizes[] = {0, 9, 17, UINT32_MAX};
    for (size_t i = 0; i < 6; i++)
        faulty = n, faulty.modulus = no_primes[i], expect_written(name, &faulty, 0, refusal(YEZSDOLAK_NOT_PRIME, 0), sheet);
    for (size_t i = 0; i < 4; i++) {
        faulty = n, faulty.rows = no_sizes[i], expect_written(name, &faulty, 0, refusal(YEZSDOLAK_BAD_SHAPE, 0), sheet);
        faulty = n, faulty.columns = no_sizes[i], expect_written(name, &faulty, 0, refusal(YEZSDOLAK_BAD_SHAPE, 0), sheet);
        // the number of right sides is tried first
        faulty = n, faulty.sides = no_sizes[i];
        expect_written(name, &faulty, YEZSDOLAK_SYSTEM_BYTES, refusal(YEZSDOLAK_BAD_SYSTEM_HEAD, 0), sheet);
        faulty.modulus = 4, faulty.rows = 9, expect_written(name, &faulty, 0, refusal(YEZSDOLAK_BAD_SYSTEM_HEAD, 0), sheet);
    }
    if (n.sizes[last] == 0)
        return;
    uint64_t *top = faulty.coefficients + YEZSDOLAK_COEFFICIENTS * last + n.sizes[last] - 1;
    faulty = n, faulty.sizes[0] = YEZSDOLAK_COEFFICIENTS + 1;
    expect_written(name, &faulty, 0, refusal(YEZSDOLAK_SYSTEM_TOO_MANY_COEFFICIENTS, 1), sheet);
    faulty = n, faulty.sizes[last] = UINT64_MAX;
    expect_written(name, &faulty, 0, refusal(YEZSDOLAK_SYSTEM_TOO_MANY_COEFFICIENTS, place), sheet);
    faulty = n, *top = n.modulus;
    expect_written(name, &faulty, 0, refusal(YEZSDOLAK_SYSTEM_COEFFICIENT_TOO_LARGE, place + n.sizes[last]), sheet);
    faulty = n, *top = UINT64_MAX;
    expect_written(name, &faulty, 0, refusal(YEZSDOLAK_SYSTEM_COEFFICIENT_TOO_LARGE, place + n.sizes[last]), sheet);
    faulty = n, *top = 0;
    expect_written(name, &faulty, 0, refusal(YEZSDOLAK_SYSTEM_LAST_COEFFICIENT_ZERO, place + n.sizes[last]), sheet);
}

// ---- the report refuses nothing

static void test_report(const char *name, const struct file *sheet)
{
    uint8_t lent[ROOM];
    memset(lent, FILL, sizeof lent);
    expect(yezsdolak_report(sheet->bytes, sheet->count, lent, YEZSDOLAK_REPORT_BYTES - 1) == 0 && filled(lent, sizeof lent), name,
           "report: written where too little is lent");
    uint64_t result = yezsdolak_report(sheet->bytes, sheet->count, lent, YEZSDOLAK_REPORT_BYTES);
    size_t count = (size_t)yezsdolak_count(result);
    expect(yezsdolak_number(result) == 0 && count > 0 && lent[count - 1] == '\n', name, "report: no lines");
    expect(filled(lent + count, sizeof lent - count), name, "report: bytes behind are changed");
}

// ---- the longest system: 8 x 8, 8 right sides, 16 coefficients each; right side k is column k

static void make_longest(struct file *sheet)
{
    static struct numbers n = {65521, 8, 8, YEZSDOLAK_SIDES, {0}, {0}};
    for (size_t k = 0; k < YEZSDOLAK_POLYNOMIALS; k++) {
        size_t entry = k < 64 ? k : 8 * (k % 8) + (k - 64) / 8;
        n.sizes[k] = YEZSDOLAK_COEFFICIENTS;
        for (size_t j = 0; j < YEZSDOLAK_COEFFICIENTS; j++)
            n.coefficients[YEZSDOLAK_COEFFICIENTS * k + j] = 1 + (1021 * entry + 97 * j * entry + j * j) % 65520;
    }
    uint64_t result = yezsdolak_write_system(n.modulus, n.rows, n.columns, n.sides, n.sizes, n.coefficients, sheet->bytes,
                                             YEZSDOLAK_SYSTEM_BYTES);
    expect(result == 64 * YEZSDOLAK_SYSTEM_BYTES, "longest", "write_system: another result");
    sheet->count = YEZSDOLAK_SYSTEM_BYTES;
}

static void test_longest(void)
{
    static struct file sheet, card;
    static struct values of_sheet, of_card;
    make_longest(&sheet);
    parse(&sheet, &of_sheet);
    expect(of_sheet.count == YEZSDOLAK_POLYNOMIALS, "longest", "write_system: another number of polynomials");
    test_writer("longest", &sheet, &of_sheet);
    for (uint32_t side = 0; side < YEZSDOLAK_SIDES; side++) {
        solve("longest", &sheet, side, YEZSDOLAK_CERTIFICATE_BYTES, &card);
        parse(&card, &of_card);
        test_files("longest", &sheet, &card, &of_sheet, &of_card);
    }
    test_sides("longest", &sheet, &card);
    sheet.count += 4;
    expect(check(&sheet, 0, &card) == refusal(YEZSDOLAK_BAD_FILE_LENGTH, 0), "longest", "check: a longer file");
    expect(check(&sheet, 9, &card) == refusal(YEZSDOLAK_BAD_FILE_LENGTH, 0), "longest", "check: a longer file, no such side");
}

int main(int count, char **argument)
{
    static struct file sheet, card;
    static struct values of_sheet, of_card;
    char path[4096];
    int major, minor, patch, pairs = 0;
    expect(sscanf(YEZSDOLAK_VERSION, "%d.%d.%d", &major, &minor, &patch) == 3, "header", "the version is not three numbers");
    expect(10000 * major + 100 * minor + patch == YEZSDOLAK_VERSION_NUMBER, "header", "its two versions differ");
    expect(yezsdolak_version() == YEZSDOLAK_VERSION_NUMBER, "library", "another version than the header's");
    for (int i = 1; i < count; i++) {
        snprintf(path, sizeof path, "%s.sheet", argument[i]);
        read_file(&sheet, path);
        parse(&sheet, &of_sheet);
        for (uint32_t side = 0; side < sides_of(&sheet); side++, pairs++) {
            if (sides_of(&sheet) == 1)
                snprintf(path, sizeof path, "%s.card", argument[i]);
            else
                snprintf(path, sizeof path, "%s.%u.card", argument[i], side);
            read_file(&card, path);
            parse(&card, &of_card);
            test_files(path, &sheet, &card, &of_sheet, &of_card);
            test_damaged(path, &sheet, &sheet, side, &card);
            test_damaged(path, &card, &sheet, side, &card);
        }
        test_sides(argument[i], &sheet, &card);
        test_writer(argument[i], &sheet, &of_sheet);
        test_report(argument[i], &sheet);
    }
    test_longest();
    printf("%lu expectations of the calls on files and values met, %d pairs of files\n", met, pairs);
    return 0;
}
