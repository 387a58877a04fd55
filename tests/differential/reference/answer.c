// What is to be said of a right side of a system's file: a refusal, or kind and least denominator, with its feedback and delay; the
// report's text on it.
#include <stdio.h>
#include "reference.h"

// takes the factors x out of d: they are what it has in common with x to the power of its degree
static void find_delay(uint32_t p, struct answer *a)
{
    static struct polynomial power, rest, quotient;
    power.size = 0;
    resize(&power, a->d.size);
    power.coefficient[a->d.size - 1] = 1;
    copy(&rest, &a->d);
    common_divisor(p, &power, &rest);
    copy(&rest, &a->d);
    divide(p, &quotient, &rest, &power);
    a->feedback = quotient.size - 1;
    a->delay = power.size - 1;
}

void answer_to(struct answer *a, const struct file *system, uint64_t side)
{
    static struct system s;
    a->refusal = read_to_side(&s, system, side);
    if (a->refusal.number != 0)
        return;
    a->kind = least_denominator(&s, (uint32_t)side, &a->d);
    if (a->kind == SOLUTION)
        find_delay(s.p, a);
}

size_t report_text(char text[REPORT_ROOM], const struct answer *a)
{
    size_t count = 0;
    if (a->refusal.number != 0)
        return (size_t)snprintf(text, REPORT_ROOM, "refused %u at %u\n", a->refusal.number, a->refusal.place);
    if (a->kind == ABSENCE)
        return (size_t)snprintf(text, REPORT_ROOM, "answer none\n");
    count = (size_t)snprintf(text, REPORT_ROOM, "answer solution\ndenominator");
    for (uint32_t i = 0; i < a->d.size; i++)
        count += (size_t)snprintf(text + count, REPORT_ROOM - count, " %u", a->d.coefficient[i]);
    return count + (size_t)snprintf(text + count, REPORT_ROOM - count, "\nfeedback %u delay %u\n", a->feedback, a->delay);
}
