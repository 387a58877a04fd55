"""Writers: values to words, or the refusal of the first value at fault. Document 01, "Turned back", on the writers; document 02, item 1.

A value here is whatever a caller may hand over, so a polynomial is a pair: its count and its coefficients. They agree, except
that a count above the limit need not be followed by that many coefficients.
"""

import words as form
from reading import ON_CERTIFICATE, ON_SYSTEM
from residue import is_prime
from words import Absence, Refusal


def pairs(polynomials):
    """Ordinary polynomials as pairs of count and coefficients."""
    return [(len(f), f) for f in polynomials]


def check_shape(p, n, m):
    """2, then 3, at 0."""
    if p > form.LARGEST_PRIME or not is_prime(p):
        raise Refusal(2, 0)
    if not (1 <= n <= form.MOST_ROWS_OR_COLUMNS and 1 <= m <= form.MOST_ROWS_OR_COLUMNS):
        raise Refusal(3, 0)


def written(head, p, polynomials, limit, base):
    """Head, polynomials and end; 6 to 8, raised by the base, at the place that the word at fault would have."""
    words = [head]
    for count, coefficients in polynomials:
        if count > limit:
            raise Refusal(base + 6, len(words))
        words.append(form.word(form.START, count))
        for i, a in enumerate(coefficients):
            if a >= p:
                raise Refusal(base + 7, len(words))
            if i == count - 1 and a == 0:
                raise Refusal(base + 8, len(words))
            words.append(form.word(form.COEFFICIENT, a))
    return words + [form.word(form.END, len(words) + 1)]


def write_system_values(p, n, m, sides, polynomials, lent):
    """The words of a system with so many right sides, or a refusal: 1 comes first, the number of lent words is looked at last."""
    if not 1 <= sides <= form.MOST_SIDES:
        raise Refusal(1, 0)
    check_shape(p, n, m)
    head = form.word(form.SYSTEM_HEAD, p | n << 16 | m << 20 | sides - 1 << 24)
    words = written(head, p, polynomials, form.SYSTEM_LIMIT, ON_SYSTEM)
    if lent < form.LONGEST_SYSTEM:
        raise Refusal(11, 0)
    return words


def write_certificate_values(kind, p, n, m, polynomials, lent):
    """The words of a certificate of this kind, or a refusal."""
    check_shape(p, n, m)
    head = form.word(form.CERTIFICATE_HEAD, kind)
    words = written(head, p, polynomials, form.CERTIFICATE_LIMIT, ON_CERTIFICATE)
    if lent < form.LONGEST_CERTIFICATE:
        raise Refusal(11, 0)
    return words


def write_system(system, lent=form.LONGEST_SYSTEM):
    """The words of a system, or of systems that share a matrix."""
    polynomials = pairs(system.polynomials())
    return write_system_values(system.p, system.rows(), system.columns(), len(system.sides), polynomials, lent)


def write_certificate(certificate, system, lent=form.LONGEST_CERTIFICATE):
    """The words of a certificate for this system."""
    kind = form.ABSENCE if isinstance(certificate, Absence) else form.SOLUTION
    polynomials = pairs(certificate.polynomials())
    return write_certificate_values(kind, system.p, system.rows(), system.columns(), polynomials, lent)
