// Four exported calls on guarded memory, and all that must hold of what they give back and leave behind.
#include "compare.h"
#include <signal.h>
#include <stdarg.h>
#include <stdio.h>
#include <stdlib.h>
#include <string.h>
#include <unistd.h>
#include "lent.h"
#include "yezsdolak.h"

enum { SECONDS = 60 }; // the longest that a call may take

struct trial trial;
static struct area lent_system, lent_certificate, lent_result;

static void print_words(const char *name, const struct file *f)
{
    fprintf(stderr, "%s (%zu bytes):", name, f->count);
    for (size_t i = 0; i < f->count / 4; i++)
        fprintf(stderr, " %08X", word_at(f, i));
    for (size_t i = f->count / 4 * 4; i < f->count; i++)
        fprintf(stderr, " .%02X", f->byte[i]);
    fputc('\n', stderr);
}

static _Noreturn void differ(const char *form, ...)
{
    va_list values;
    va_start(values, form);
    fprintf(stderr, "difference in %s, case %lu, seed %lu, right side %llu: ", trial.part, (unsigned long)trial.number,
            (unsigned long)trial.seed, (unsigned long long)trial.side);
    vfprintf(stderr, form, values);
    fputc('\n', stderr);
    va_end(values);
    print_words("system", trial.system);
    if (trial.certificate != NULL)
        print_words("certificate", trial.certificate);
    if (trial.expected != NULL)
        print_words("expected", trial.expected);
    fflush(NULL);
    _exit(1);
}

static void on_signal(int number)
{
    differ(number == SIGALRM ? "no answer in time" : "signal %d", number);
}

void open_comparison(void)
{
    static const int signals[] = {SIGSEGV, SIGBUS, SIGILL, SIGFPE, SIGTRAP, SIGABRT, SIGALRM};
    struct sigaction action = {.sa_handler = on_signal};
    for (size_t i = 0; i < sizeof signals / sizeof signals[0]; i++)
        sigaction(signals[i], &action, NULL);
    open_area(&lent_system);
    open_area(&lent_certificate);
    open_area(&lent_result);
}

static void lend_file(struct draws *g, struct area *a, const struct file *f)
{
    lend(a, f->count, chance(g, 75), (uint8_t)draw(g));
    memcpy(a->bytes, f->byte, f->count);
}

// what was lent to be read is as it was
static void expect_unchanged(const char *call, const struct area *a, const struct file *f)
{
    if (memcmp(a->bytes, f->byte, f->count) != 0 || !untouched(a, f->count))
        differ("%s has changed what it reads, or bytes around it", call);
}

static void expect_result(const char *call, uint64_t result, struct refusal r)
{
    if (result != (uint64_t)r.place * 64 + r.number)
        differ("%s: %u at %u expected, %u at %lu found", call, r.number, r.place, yezsdolak_number(result),
               (unsigned long)yezsdolak_place(result));
}

// the solver's certificate is a right one, of the kind and with the denominator that are due
static void expect_right(const struct answer *a, const struct file *certificate)
{
    static struct system s;
    static struct certificate c;
    read_system(&s, trial.system);
    struct refusal r = read_certificate(&c, &s, certificate);
    if (word_at(certificate, certificate->count / 4 - 1) != ((uint32_t)END << 28 | certificate->count / 4))
        differ("solve: the end word is not that of the count");
    if (r.number != 0)
        differ("solve: its certificate is refused by the reference's reader, %u at %u", r.number, r.place);
    if (c.kind != a->kind)
        differ("solve: kind %u expected, %u found", a->kind, c.kind);
    if (c.kind == SOLUTION && !equal(&c.d, &a->d))
        differ("solve: the denominator is not the least, which has degree %u", a->d.size - 1);
    r = verdict(&s, (uint32_t)trial.side, &c);
    if (r.number != 0)
        differ("solve: its certificate is refused by the reference's check, %u at %u", r.number, r.place);
}

// a call that takes the system and writes over so many lent bytes; the system's bytes must stay
static uint64_t call_lending(struct draws *g, const char *name, uint64_t (*call)(const uint8_t *, size_t, uint8_t *, size_t), size_t lent)
{
    lend_file(g, &lent_system, trial.system);
    lend(&lent_result, lent, chance(g, 75), (uint8_t)draw(g));
    alarm(SECONDS);
    uint64_t result = call(lent_system.bytes, trial.system->count, lent_result.bytes, lent);
    alarm(0);
    expect_unchanged(name, &lent_system, trial.system);
    return result;
}

static uint64_t solve(const uint8_t *system, size_t bytes, uint8_t *certificate, size_t lent)
{
    return yezsdolak_solve(system, bytes, trial.side, certificate, lent);
}

struct refusal compare_solve(struct draws *g, const struct answer *a, size_t lent, struct file *certificate)
{
    uint64_t result = call_lending(g, "solve", solve, lent);
    struct refusal r = a->refusal;
    if (r.number == 0 && lent < 4 * LONGEST_CERTIFICATE)
        r = (struct refusal){11, 0};
    if (r.number != 0 || yezsdolak_number(result) != 0) {
        expect_result("solve", result, r);
        if (!untouched(&lent_result, 0))
            differ("solve has written in spite of its refusal");
        return r;
    }
    uint64_t count = yezsdolak_count(result);
    if (count == 0 || count % 4 != 0 || count > 4 * LONGEST_CERTIFICATE)
        differ("solve: no count of a certificate's bytes: %lu", (unsigned long)count);
    certificate->count = (size_t)count;
    memcpy(certificate->byte, lent_result.bytes, certificate->count);
    trial.certificate = certificate;
    if (!untouched(&lent_result, certificate->count))
        differ("solve has written behind the certificate or around the lent bytes");
    expect_right(a, certificate);
    return r;
}

void compare_chosen(const struct file *certificate)
{
    static struct system s;
    static struct certificate c;
    static struct file expected;
    read_system(&s, trial.system);
    choose_certificate(&s, (uint32_t)trial.side, &c);
    write_certificate(&expected, &s, &c);
    trial.expected = &expected;
    if (certificate->count != expected.count || memcmp(certificate->byte, expected.byte, expected.count) != 0)
        differ("solve: another certificate than the chosen one");
    trial.expected = NULL;
}

void compare_single(struct draws *g, const struct file *certificate)
{
    static struct system s;
    static struct file single, found;
    struct trial several = trial;
    read_system(&s, trial.system);
    for (uint32_t i = 0; trial.side != 0 && i < s.n; i++)
        exchange(&s.b[0][i], &s.b[trial.side][i]);
    s.sides = 1;
    write_system(&single, &s);
    trial.system = &single, trial.side = 0, trial.certificate = &found, trial.expected = certificate;
    uint64_t result = call_lending(g, "solve", solve, 4 * LONGEST_CERTIFICATE);
    found.count = yezsdolak_count(result) <= 4 * LONGEST_CERTIFICATE ? (size_t)yezsdolak_count(result) : 0;
    memcpy(found.byte, lent_result.bytes, found.count);
    if (result != 64 * (uint64_t)certificate->count || memcmp(found.byte, certificate->byte, found.count) != 0)
        differ("solve: a right side alone has another certificate than among others");
    trial = several;
}

void compare_but_numerators(const struct system *s, const struct file *first, const struct file *second)
{
    static struct certificate c, other;
    read_certificate(&c, s, first);
    read_certificate(&other, s, second);
    bool same = c.kind == other.kind && (c.kind == ABSENCE || (equal(&c.d, &other.d) && equal(&c.w, &other.w)));
    for (uint32_t i = 0; i < s->n; i++)
        same = same && equal(&c.row[i], &other.row[i]);
    trial.expected = first;
    if (!same)
        differ("solve: the order of the columns has changed more than the numerators");
    trial.expected = NULL;
}

// a call that takes system and certificate and gives a verdict; the bytes of both must stay
static void compare_verdict(struct draws *g, const char *name, uint64_t (*call)(const uint8_t *, size_t, const uint8_t *, size_t),
                            struct refusal r)
{
    lend_file(g, &lent_system, trial.system);
    lend_file(g, &lent_certificate, trial.certificate);
    alarm(SECONDS);
    uint64_t result = call(lent_system.bytes, trial.system->count, lent_certificate.bytes, trial.certificate->count);
    alarm(0);
    expect_unchanged(name, &lent_system, trial.system);
    expect_unchanged(name, &lent_certificate, trial.certificate);
    expect_result(name, result, r);
}

static uint64_t check(const uint8_t *system, size_t system_bytes, const uint8_t *certificate, size_t certificate_bytes)
{
    return yezsdolak_check(system, system_bytes, trial.side, certificate, certificate_bytes);
}

struct refusal compare_check(struct draws *g)
{
    struct refusal r = check_files(trial.system, trial.side, trial.certificate);
    compare_verdict(g, "check", check, r);
    return r;
}

struct refusal compare_panel(struct draws *g)
{
    struct refusal r = check_on_panel(trial.system, trial.certificate);
    compare_verdict(g, "panel check", yezsdolak_panel_check, r);
    return r;
}

void compare_report(struct draws *g, const struct answer *a, size_t lent)
{
    char text[REPORT_ROOM];
    size_t count = lent < REPORT_ROOM ? 0 : report_text(text, a);
    uint64_t result = call_lending(g, "report", yezsdolak_report, lent);
    if (result != 64 * (uint64_t)count)
        differ("report: %zu bytes expected, %lu found, number %u", count, (unsigned long)yezsdolak_count(result), yezsdolak_number(result));
    if (memcmp(lent_result.bytes, text, count) != 0)
        differ("report: \"%.*s\" expected, \"%.*s\" found", (int)count, text, (int)count, (const char *)lent_result.bytes);
    if (!untouched(&lent_result, count))
        differ("report has written behind its text or around the lent bytes");
}
