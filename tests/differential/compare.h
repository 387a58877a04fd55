// One call of the product and the reference's opinion of it. A difference ends the program with the words at hand.
#ifndef COMPARE_H
#define COMPARE_H
#include "draws.h"
#include "reference/reference.h"

// the case that is being tried, for the calls and for the message; the certificate and the one expected may be NULL
struct trial {
    const char *part;
    uint64_t number, seed, side; // the right side that is meant
    const struct file *system, *certificate, *expected;
};

extern struct trial trial;

void open_comparison(void);

// Each call is made on memory lent anew, placed and filled by draws. The certificate is the one that was solved, if any. The answer is
// that for the side that is meant, but to a report that for the first.
struct refusal compare_solve(struct draws *g, const struct answer *a, size_t lent, struct file *certificate);
struct refusal compare_check(struct draws *g);
struct refusal compare_panel(struct draws *g); // for the first right side, whichever is meant
void compare_report(struct draws *g, const struct answer *a, size_t lent);

// the solver's certificate with the chosen one, word for word
void compare_chosen(const struct file *certificate);

// the solver's certificate with the one that it gives for the system that has this right side alone, word for word
void compare_single(struct draws *g, const struct file *certificate);

// the solver's certificates for two systems that differ in the order of their columns
void compare_but_numerators(const struct system *s, const struct file *first, const struct file *second);
#endif
