"""The stored set `verdicts`: a case is three lists, the words of a system and of a certificate, and the number of the right side; the
answer is the check's.

Systems are at most 8,712 bytes long here and byte counts are multiples of four, so number 10 never comes into question.
"""

import examples
import polynomial as poly
import words as form
from cases import CHECK, CaseSet
from column_verdicts import add_columns
from damage import damaged
from draws import Draws
from samples import chain, exact, generic, outside, prime, shapes
from searched import with_denominator
from side_verdicts import add_sides
from variants import of_certificate
from verdicts import FRUITFUL, add, add_all, add_words, around, at_each_place, solved
from words import Absence, Solution, System
from writing import write_certificate, write_system


def from_document(cases):
    """Cases 1 to 10, the table's examples, and the words of case 1."""
    for _, system, certificate, says in examples.CASES:
        cases.add([write_system(system), write_certificate(certificate, system), [0]], says)
    for system, certificate, says in examples.TABLE_VERDICTS:
        cases.add([write_system(system), write_certificate(certificate, system), [0]], says)
    for words, says in examples.TABLE_CERTIFICATES:
        cases.add([examples.SYSTEM_1_WORDS, words, [0]], says)
    for words, _ in examples.TABLE_SYSTEMS:
        add_words(cases, words, examples.CERTIFICATE_1_WORDS)


def all_shapes(cases, draws):
    """Every shape, with small polynomials: whatever is drawn, and a system with a denominator."""
    for n, m in shapes():
        size = 2 if n * m > 16 else 4
        for _ in range(2):
            add_all(cases, around(draws, draws.choose(FRUITFUL)(draws, prime(draws), n, m, draws.between(1, size)), 5))
        add_all(cases, around(draws, with_denominator(draws, n, m, draws.between(2, size)), 8))


def small_shapes(cases, draws):
    """At most four rows and columns, with most of the variants."""
    for _ in range(20):
        system = draws.choose(FRUITFUL)(draws, prime(draws), draws.between(1, 3), draws.between(1, 3), draws.between(2, 6))
        add_all(cases, around(draws, system, 20))
    for _ in range(30):
        add_all(cases, around(draws, with_denominator(draws, draws.between(1, 3), draws.between(1, 4), draws.between(2, 6)), 20))
    for _ in range(16):
        system = outside(draws, prime(draws), draws.between(2, 4), draws.between(1, 3), draws.between(1, 4))
        add_all(cases, around(draws, system, 20))


def large(cases, draws):
    """Polynomials of the highest degrees: denominators of degree 120, and free entries of degree 120."""
    for p in (2, 257):
        system = chain(p, 8, 15)
        certificate = solved(system)
        add(cases, system, certificate)
        for variant in list(of_certificate(draws, system, certificate))[10:14]:
            if all(len(f) <= form.CERTIFICATE_LIMIT for f in variant.polynomials()):
                add(cases, system, variant)
    for p in (2, 3, 65521):
        nothing = System(p, [[[]]], [[]])
        monic = exact(draws, p, 120)[:-1] + [1]
        add(cases, nothing, Solution([1], [exact(draws, p, 121)], [0] + monic, [exact(draws, p, 121)]))
        add(cases, nothing, Solution(monic, [exact(draws, p, 121)], [0] + monic, [exact(draws, p, 121)]))
        wide = System(p, [[exact(draws, p, 16), exact(draws, p, 16)]], [exact(draws, p, 16)])
        add(cases, wide, Solution([0] + monic, [exact(draws, p, 121)] * 2, monic, [exact(draws, p, 121)]))
        add(cases, wide, Absence([exact(draws, p, 121)]))
        long_divisor(cases, draws, p)
    for n, m in ((2, 2), (3, 3), (4, 4), (2, 4), (4, 2)):
        add_all(cases, around(draws, generic(draws, draws.choose([2, 5, 65521]), n, m, 16), 2))


def long_divisor(cases, draws, p):
    """y = x times Z over w with 121 coefficients each, so that products have 136: accepted, and with one coefficient off."""
    f = exact(draws, p, 15)[:-1] + [1]
    w = exact(draws, p, 106)[:-1] + [1]
    system = System(p, [[[0] + f]], [f])
    right = Solution([0, 1], [[1]], [0] + poly.multiply(f, w, p), [w])
    add(cases, system, right)
    add(cases, system, right._replace(Z=[w[:-1] + [0, 1]]))
    add(cases, system, right._replace(w=[(right.w[0] + 1) % p] + right.w[1:]))


def late_places(cases, draws):
    """One row or column at fault, every place in turn."""
    for n, m in ((8, 8), (3, 7), (7, 3), (8, 1), (1, 8), (4, 4)):
        add_all(cases, at_each_place(draws, n, m))


def damaged_words(cases, draws):
    """Right certificates with damage to their words, to the system's, or to both."""
    for k in range(200):
        p = prime(draws)
        system = draws.choose(FRUITFUL)(draws, p, draws.between(1, 3), draws.between(1, 3), draws.between(1, 3))
        system_words, certificate_words = write_system(system), write_certificate(solved(system), system)
        if k % 4 != 0:
            certificate_words = damaged(draws, certificate_words, p, form.CERTIFICATE_LIMIT)
        if k % 4 < 2:
            system_words = damaged(draws, system_words, p, form.SYSTEM_LIMIT)
        add_words(cases, system_words, certificate_words)


def make():
    """Make the set."""
    cases, draws = CaseSet("verdicts", CHECK, 2000), Draws(0x0E)
    from_document(cases)
    all_shapes(cases, draws)
    small_shapes(cases, draws)
    late_places(cases, draws)
    large(cases, draws)
    damaged_words(cases, draws)
    add_sides(cases)
    add_columns(cases)
    cases.require(range(31, 37), 40)
    cases.require_places(33, range(8), 5)
    cases.require([40], 100)
    return cases
