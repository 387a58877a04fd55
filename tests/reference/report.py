"""What the program prints for a system's file: document 01, "The report", on its first right side; document 02, item 2."""

import polynomial as poly
from reading import read_system
from solve import solve
from words import Absence, Refusal, words_of_file


def report(data):
    """The lines of the report on a system given as bytes."""
    try:
        system = read_system(words_of_file(data)).side(0)
    except Refusal as refusal:
        return [str(refusal)]
    return report_on(solve(system), system.p)


def report_on(certificate, p):
    """The lines of the report on a certificate modulo p."""
    if isinstance(certificate, Absence):
        return ["answer none"]
    coefficients = " ".join(str(a) for a in certificate.d)
    feedback, delay = feedback_and_delay(certificate.d, p)
    return ["answer solution", f"denominator {coefficients}", f"feedback {feedback} delay {delay}"]


def feedback_and_delay(d, p):
    """The degree of d after all factors x are taken out, one at a time, and the number of these factors; d is not zero."""
    delay = 0
    while poly.divides(poly.X, d, p):
        d = poly.exact_quotient(d, poly.X, p)
        delay += 1
    return poly.degree(d), delay
