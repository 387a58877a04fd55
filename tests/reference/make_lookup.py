"""The stored set `lookup`: a case is three lists, the words of a system, those of a certificate, and two more words: of which (0 system,
1 certificate), and the number of the polynomial. The answer is the words shown or a refusal."""

import examples
import words as form
from cases import LOOKUP, CaseSet
from damage import damaged
from draws import Draws
from lookup import IN_CERTIFICATE, IN_SYSTEM
from make_certificates import random_certificate
from samples import STRUCTURES, generic, prime, sharing
from says import says_lookup
from words import Absence, Solution, System, Systems
from writing import write_certificate, write_system


def add(cases, system_words, certificate_words, of, number):
    """A case."""
    line = says_lookup(system_words, certificate_words, of, number)
    cases.add([system_words, certificate_words, [of, number]], line)


def all_numbers(cases, system, certificate):
    """Every polynomial of both, the first number that is none, and numbers far beyond."""
    system_words, certificate_words = write_system(system), write_certificate(certificate, system)
    for of, values in ((IN_SYSTEM, system), (IN_CERTIFICATE, certificate)):
        count = len(values.polynomials())
        for number in list(range(count + 1)) + [256, 65536, 0xFFFFFFFF]:
            add(cases, system_words, certificate_words, of, number)


def random_numbers(cases, draws):
    """All shapes, one number each: of a polynomial, or sometimes just beyond the last."""
    for k in range(240):
        p, n, m = prime(draws), draws.between(1, 8), draws.between(1, 8)
        system = draws.choose(STRUCTURES)(draws, p, n, m, draws.between(1, 3))
        certificate = random_certificate(draws, system, draws.between(1, 5))
        system_words, certificate_words = write_system(system), write_certificate(certificate, system)
        of = draws.choose([IN_SYSTEM, IN_CERTIFICATE])
        count = len((certificate if of else system).polynomials())
        number = draws.between(0, count)
        if k % 4 == 0:
            certificate_words = damaged(draws, certificate_words, p, form.CERTIFICATE_LIMIT)
        if k % 8 == 0:
            system_words = damaged(draws, system_words, p, form.SYSTEM_LIMIT)
        add(cases, system_words, certificate_words, of, number)


def longest(cases):
    """The first and last polynomials of the longest system with one right side, and of the longest certificate."""
    system = System(65521, [[list(range(1, 17))] * 8] * 8, [list(range(2, 18))] * 8)
    f, g = list(range(1, 122)), list(range(3, 124))
    certificate = Solution(f, [g] * 8, f, [g] * 8)
    for of, number in ((IN_SYSTEM, 0), (IN_SYSTEM, 71), (IN_SYSTEM, 72), (IN_CERTIFICATE, 17), (IN_CERTIFICATE, 18)):
        add(cases, write_system(system), write_certificate(certificate, system), of, number)


def right_sides(cases, draws):
    """Systems with several right sides: polynomials of the later ones, and the first number behind the last."""
    for numbers, systems in examples.SHARED:
        all_numbers(cases, systems, examples.CASES[numbers[0] - 1][2])
    for n, m, count in ((2, 2, 3), (3, 1, 2), (1, 1, 8)):
        systems = sharing(draws, generic(draws, prime(draws), n, m, 3), count)
        all_numbers(cases, systems, random_certificate(draws, systems, 2))
    for k in range(64):
        p, n, m, count = prime(draws), draws.between(1, 8), draws.between(1, 4), draws.between(2, 8)
        systems = sharing(draws, draws.choose(STRUCTURES)(draws, p, n, m, draws.between(1, 2)), count)
        system_words = write_system(systems)
        certificate_words = write_certificate(random_certificate(draws, systems, 2), systems)
        number = draws.between(n * m + n, n * m + n * count)
        if k % 8 == 0:
            certificate_words = damaged(draws, certificate_words, p, form.CERTIFICATE_LIMIT)
        if k % 8 == 1:
            system_words = system_words[:-1] + [form.word(form.END, 0)]
        add(cases, system_words, certificate_words, IN_SYSTEM, draws.below(n * m) if k % 8 == 1 else number)


def longest_sides(cases):
    """Polynomials at both ends of the matrix and of the right sides of the longest system."""
    p, small = 65521, Absence([[1]] * 8)
    systems = Systems(p, [[list(range(1, 17))] * 8] * 8, [[list(range(s + i, s + i + 16)) for i in range(8)] for s in range(2, 10)])
    for number in (63, 64, 72, 127, 128):
        add(cases, write_system(systems), write_certificate(small, systems), IN_SYSTEM, number)
    add(cases, write_system(systems), write_certificate(small, systems), IN_CERTIFICATE, 7)


def make():
    """Make the set."""
    cases, draws = CaseSet("lookup", LOOKUP, 300), Draws(0x0D)
    for number in (0, 1, 2, 7):
        all_numbers(cases, *examples.CASES[number][1:3])
    all_numbers(cases, System(3, [[[], [1]], [[0, 2], []]], [[], [1, 1, 1]]), Absence([[], [0, 0, 1]]))
    add(cases, [], [], IN_SYSTEM, 0)
    add(cases, examples.SYSTEM_1_WORDS, [], IN_SYSTEM, 0)
    add(cases, examples.SYSTEM_1_WORDS, [], IN_SYSTEM, 2)
    add(cases, examples.SYSTEM_1_WORDS[:-1], examples.CERTIFICATE_1_WORDS[:-1], IN_CERTIFICATE, 9)
    random_numbers(cases, draws)
    longest(cases)
    right_sides(cases, Draws(0x0D01))
    longest_sides(cases)
    cases.require([12], 40)
    return cases
