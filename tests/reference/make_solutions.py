"""The stored set `solutions`: a case is one list, the bytes of a system's file; the answer is the report and the chosen certificate's
words on one line, both for the first right side.

The lines of the report and the words are joined by `; `. Every certificate has passed the check, and its denominator agrees with the
formula by minors.
"""

import examples
import words as form
from cases import REPORT, CaseSet
from check import check_words
from chosen import solve_words
from damage import damaged
from draws import Draws
from minors import least_denominator
from reading import read_certificate, read_system
from report import report_on
from samples import (
    STRUCTURES, chain, common_factor, concealed, delayed_chain, generic, longest, low_rank, of_rank, outside, powers_of_x, prime, shapes,
    sharing,
)
from says import says_solved
from searched import with_denominator
from words import Absence, System, bytes_of_words
from writing import write_system


def add(cases, system):
    """A case on a system, or on systems that share a matrix."""
    words = write_system(system)
    certificate, certificate_words = confirmed(words, 0)
    cases.add([words], "; ".join(report_on(certificate, system.p) + [form.hexadecimal(certificate_words)]))


def add_delayed(cases, system, feedback, delay):
    """A case on a system that was made to have this feedback and this delay."""
    add(cases, system)
    if cases.lines[-1].split("; ")[2] != f"feedback {feedback} delay {delay}":
        raise SystemExit(f"not feedback {feedback} and delay {delay}: {system}")


def confirmed(words, side):
    """The chosen certificate of a right side, and its words; its kind and denominator are found in two ways."""
    system = read_system(words).side(side)
    certificate_words = solve_words(words, form.LONGEST_CERTIFICATE, side)
    check_words(words, certificate_words, side)
    certificate = read_certificate(certificate_words, system)
    if least_denominator(system) != (None if isinstance(certificate, Absence) else certificate.d):
        raise SystemExit(f"two answers for {system}")
    return certificate, certificate_words


def add_bytes(cases, data):
    """A case on bytes, mostly one that is refused."""
    cases.add([data], says_solved(data))


def from_document(cases):
    """The systems of the cases, and every example that is refused on reading."""
    for _, system, _, _ in examples.CASES:
        add(cases, system)
    for words, _ in examples.TABLE_SYSTEMS + list(examples.bounds()):
        add_bytes(cases, bytes_of_words(words))
    add_bytes(cases, bytes(5))
    add_bytes(cases, bytes(4908))


def all_shapes(cases, draws):
    """Every shape with every structure, and more with denominators."""
    for n, m in shapes():
        for structure in STRUCTURES:
            add(cases, structure(draws, prime(draws), n, m, draws.between(1, 4)))
        add(cases, with_denominator(draws, n, m, draws.between(2, 4)))
        add(cases, with_denominator(draws, n, m, draws.between(3, 6)))


def long_polynomials(cases, draws):
    """Few rows and columns, polynomials up to degree 15."""
    for k in range(120):
        structure = [generic, low_rank, outside, common_factor, powers_of_x, low_rank][k % 6]
        add(cases, structure(draws, prime(draws), draws.between(1, 3), draws.between(1, 4), draws.between(8, 16)))


def largest(cases, draws):
    """Eight rows or columns with polynomials up to degree 15."""
    for p, structure, n, m in (
        (2, generic, 8, 8), (65521, generic, 8, 8), (2, low_rank, 8, 8), (257, low_rank, 8, 8), (3, outside, 8, 8),
        (5, common_factor, 8, 8), (2, generic, 8, 7), (2, generic, 7, 8), (257, common_factor, 6, 8), (2, powers_of_x, 8, 8),
    ):
        add(cases, structure(draws, p, n, m, 16))


def chains(cases):
    """Denominators that are powers of x up to degree 120, found only from all entries of y together."""
    for n in range(1, 9):
        for p, degree in ((2, 1), (3, 2), (257, 7), (65521, 15)):
            add(cases, chain(p, n, degree))
    add(cases, chain(2, 8, 15))


def slips(cases):
    """Where the first nonsingular columns give a larger denominator than all columns together (as in case 7)."""
    for p in (3, 5, 65521):
        add(cases, System(p, [[[0, 0, 1], [0, 1, 1], [1, 0, 1]]], [[1]]))
        add(cases, System(p, [[[0, 0, 1], [0, 1, 1]], [[], [0, 1]]], [[1], [1]]))
        add(cases, System(p, [[[0, 0, 1], [], [0, 1, 1]], [[], [0, 0, 1], [0, 1, 2]]], [[1], [1]]))
        add(cases, System(p, [[[0, 0, 1], [0, 0, 0, 1], [0, 1]]], [[1]]))


def every_rank(cases, draws):
    """Every shape with every rank that it can have, b in reach or drawn."""
    for n, m in shapes():
        for r in range(min(n, m) + 1):
            add(cases, of_rank(draws, prime(draws), n, m, r, draws.between(2, 3), draws.once_in(2)))


def long_and_low(cases, draws):
    """Five to eight rows and columns, low ranks, polynomials up to degree 15; b in reach, and drawn."""
    for n, m in ((8, 8), (5, 8), (8, 5), (6, 7)):
        for r in range(1, 5):
            for inside in (True, False):
                add(cases, of_rank(draws, draws.choose([2, 257, 65521]), n, m, r, 16, inside))


def refused(cases, draws):
    """Damaged systems: the report says what the reader says."""
    for _ in range(60):
        p = prime(draws)
        words = write_system(draws.choose(STRUCTURES)(draws, p, draws.between(1, 2), draws.between(1, 2), 2))
        add_bytes(cases, bytes_of_words(damaged(draws, words, p, form.SYSTEM_LIMIT)))


def several_sides(cases, draws):
    """Several right sides, of which the first decides: document 01's cases, every shape, the longest file, and damaged ones."""
    for _, systems in examples.SHARED:
        add(cases, systems)
    for n, m in shapes():
        system = draws.choose(STRUCTURES)(draws, prime(draws), n, m, draws.between(1, 3))
        add(cases, sharing(draws, system, draws.between(2, 8)))
    for count in range(2, 9):
        add(cases, sharing(draws, with_denominator(draws, draws.between(1, 3), draws.between(1, 3), 3), count))
    add(cases, longest(draws, 65521))
    for words, _ in examples.SIDE_SYSTEMS:
        add_bytes(cases, bytes_of_words(words))
    for count in range(2, 9):
        p = prime(draws)
        words = write_system(sharing(draws, generic(draws, p, draws.between(1, 2), draws.between(1, 2), 2), count))
        add_bytes(cases, bytes_of_words(damaged(draws, words, p, form.SYSTEM_LIMIT)))
    for count in (8708, 8712, 8716):
        add_bytes(cases, bytes(count))


def delays(cases, draws):
    """Feedback, delay and both: of one row and column, of degree 120, and where rows and columns are mixed and added."""
    for p in (2, 3, 257, 65521):
        for feedback, delay in ((1, 1), (1, 2), (2, 1), (5, 3), (1, 14), (14, 1), (15, 0), (0, 15)):
            add_delayed(cases, delayed_chain(draws, p, 1, feedback, delay), feedback, delay)
        for feedback, delay in ((1, 119), (119, 1), (60, 60), (120, 0), (0, 120)):
            add_delayed(cases, delayed_chain(draws, p, 8, feedback, delay), feedback, delay)
        for n, m, r in ((1, 2, 1), (2, 1, 1), (2, 2, 2), (3, 2, 2), (2, 4, 2), (4, 4, 3), (3, 8, 3), (8, 3, 3), (5, 6, 4)):
            feedback, delay = draws.between(1, 4 * r), draws.between(1, 4 * r)
            add_delayed(cases, concealed(draws, delayed_chain(draws, p, r, feedback, delay), n, m), feedback, delay)
    for p, feedback, delay in ((2, 119, 1), (257, 60, 60), (65521, 1, 119)):
        add_delayed(cases, concealed(draws, delayed_chain(draws, p, 8, feedback, delay), 8, 8), feedback, delay)


def make():
    """Make the set."""
    cases, draws = CaseSet("solutions", REPORT, 500), Draws(0x0F)
    from_document(cases)
    all_shapes(cases, draws)
    long_polynomials(cases, draws)
    largest(cases, draws)
    chains(cases)
    slips(cases)
    refused(cases, draws)
    every_rank(cases, Draws(0x10))
    long_and_low(cases, Draws(0x11))
    several_sides(cases, Draws(0x0F01))
    delays(cases, Draws(0x0F02))
    return cases
