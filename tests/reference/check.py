"""The check: document 01, "The system" (what a right certificate is) and numbers 31 to 36 of "Turned back"; document 02, item 1."""

import polynomial as poly
from reading import read_certificate, read_system
from words import Absence, Refusal


def check_words(system_words, certificate_words, side=0):
    """Nothing where the certificate is accepted for the right side, else a refusal: system, 40, certificate, 31 to 36."""
    system = read_system(system_words).side(side)
    check_values(system, read_certificate(certificate_words, system))


def check_values(system, certificate):
    """31 to 34 for a solution, 35 and 36 for an absence."""
    if isinstance(certificate, Absence):
        check_absence(system, certificate)
    else:
        check_solution(system, certificate)


def check_solution(system, certificate):
    """d and w monic, A·N = d·b, w divides Z·A, and the denominator of z·b is d."""
    d, N, w, Z = certificate
    p = system.p
    if not poly.is_monic(d):
        raise Refusal(31, 0)
    if not poly.is_monic(w):
        raise Refusal(31, 1)
    for i, (row, b) in enumerate(zip(system.matrix, system.right)):
        if poly.dot(row, N, p) != poly.multiply(d, b, p):
            raise Refusal(32, i)
    for j in range(system.columns()):
        if not poly.divides(w, poly.dot(Z, system.column(j), p), p):
            raise Refusal(33, j)
    if denominator(poly.dot(Z, system.right, p), w, p) != d:
        raise Refusal(34, 0)


def denominator(numerator, w, p):
    """The monic denominator of numerator / w in lowest terms, w not zero."""
    return poly.monic(poly.exact_quotient(w, poly.gcd(w, numerator, p), p), p)


def check_absence(system, certificate):
    """q·A is zero in every column, q·b is not zero."""
    p = system.p
    for j in range(system.columns()):
        if poly.dot(certificate.q, system.column(j), p):
            raise Refusal(35, j)
    if not poly.dot(certificate.q, system.right, p):
        raise Refusal(36, 0)
