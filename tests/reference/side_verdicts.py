"""The part of the stored set `verdicts` that has several right sides, or asks for one that is not there."""

import examples
import words as form
from damage import at_fault, damaged
from draws import Draws
from reading import walk_system
from samples import exact, prime, shapes, sharing
from searched import with_denominator
from variants import of_absence, of_certificate
from verdicts import FRUITFUL, add, add_words, solved, some
from words import Absence, Solution, Systems
from writing import write_certificate, write_system

HUGE_SIDES = [8, 9, 15, 16, 255, 256, 257, 263, 65536, 65537, 1 << 24, 1 << 28, 0x80000000, 0xFFFFFFFF]


def shared_cases(cases):
    """Document 01's cases as right sides of one file: each certificate on each right side."""
    for numbers, systems in examples.SHARED:
        for side in range(len(numbers) + 1):
            for number in sorted(set(numbers)):
                add(cases, systems, examples.CASES[number - 1][2], side)


def every_side(cases, draws):
    """Two to eight right sides: the certificate of each, one of another right side in its place, and nearly right ones."""
    for k in range(28):
        n, m, size = draws.between(1, 3), draws.between(1, 4), draws.between(2, 4)
        system = with_denominator(draws, n, m, size) if k % 2 else draws.choose(FRUITFUL)(draws, prime(draws), n, m, size)
        systems = sharing(draws, system, 2 + k % 7)
        certificates = [solved(systems.side(side)) for side in range(len(systems.sides))]
        for side, certificate in enumerate(certificates):
            add(cases, systems, certificate, side)
            add(cases, systems, draws.choose(certificates), side)
            variants = of_absence if isinstance(certificate, Absence) else of_certificate
            for variant in some(draws, variants(draws, systems.side(side), certificate), 2):
                add(cases, systems, variant, side)


def side_shapes(cases, draws):
    """Every shape with several right sides: a certificate on its right side, on the next one, and behind the last."""
    for n, m in shapes():
        system = draws.choose(FRUITFUL)(draws, prime(draws), n, m, draws.between(1, 2 if n * m > 16 else 3))
        count = draws.between(2, 8)
        systems, side = sharing(draws, system, count), draws.below(count)
        certificate = solved(systems.side(side))
        for told in (side, (side + 1) % count, count):
            add(cases, systems, certificate, told)


def late_sides(cases):
    """All right sides zero but one, which is not zero in one row: 32 at that row on that right side, and 36 on the others."""
    for n, count in ((1, 8), (2, 8), (3, 4), (8, 2)):
        nothing, zero = Solution([1], [[]], [1], [[]] * n), [[]] * n
        for side in range(count):
            i = (side + count) % n
            unit = [[1] if k == i else [] for k in range(n)]
            systems = Systems(3, [[[]]] * n, [unit if k == side else zero for k in range(count)])
            for told in (side, (side + 1) % count):
                add(cases, systems, nothing, told)
                add(cases, systems, Absence(unit), told)


def no_such_side(cases, draws):
    """40: behind the system and before all of the certificate, on systems with each number of right sides."""
    certificates = [
        examples.CERTIFICATE_1_WORDS, [], [0x50000003], [0x50000001], examples.CERTIFICATE_1_WORDS[:-1],
        examples.CERTIFICATE_1_WORDS + [0], write_certificate(examples.CASES[8][2], examples.SYSTEM_1),
    ]
    for count in range(1, 9):
        words = write_system(Systems(2, [[[0, 1]]], [[[1]], [[]], [[0, 1]], [[1, 1]], [[0, 0, 1]], [[1]], [[]], [[1]]][:count]))
        for side in [count, count + 1] + HUGE_SIDES:
            add_words(cases, words, draws.choose(certificates), side)
    for certificate_words in certificates:
        for side in (0, 1, 2):
            add_words(cases, examples.SYSTEM_1_WORDS, certificate_words, side)


def no_such_side_at_fault(cases, draws):
    """A system at fault comes before 40; what is behind the meant right side counts as well."""
    for words, _ in examples.TABLE_SYSTEMS + examples.SIDE_SYSTEMS:
        for side in (1, 9):
            add_words(cases, words, draws.choose([[], examples.CERTIFICATE_1_WORDS]), side)
    systems = examples.SHARED[0][1]
    words, certificate_words = examples.SHARED_WORDS, write_certificate(examples.CASES[5][2], systems)
    for part in walk_system(words)[1].parts:
        for faulty in at_fault(words, part, 3, form.SYSTEM_LIMIT):
            add_words(cases, faulty, certificate_words, draws.choose([0, 2]))


def damaged_sides(cases, draws):
    """Several right sides: damage to the words of the system, of the certificate, or of both; the right side is there, or not."""
    for k in range(120):
        p, count = prime(draws), draws.between(2, 8)
        system = draws.choose(FRUITFUL)(draws, p, draws.between(1, 3), draws.between(1, 3), draws.between(1, 3))
        systems, side = sharing(draws, system, count), draws.between(0, count)
        system_words = write_system(systems)
        certificate_words = write_certificate(solved(systems.side(side % count)), systems)
        if k % 4 != 0:
            certificate_words = damaged(draws, certificate_words, p, form.CERTIFICATE_LIMIT)
        if k % 4 < 2:
            system_words = damaged(draws, system_words, p, form.SYSTEM_LIMIT)
        add_words(cases, system_words, certificate_words, side)


def longest_system(cases, draws):
    """The longest system; its right sides are columns of its matrix, the last one first."""
    for p, sides in ((2, (0, 7)), (65521, (0, 3, 7, 8))):
        matrix = [[exact(draws, p, 16) for _ in range(8)] for _ in range(8)]
        systems = Systems(p, matrix, [[row[7 - side] for row in matrix] for side in range(8)])
        for side in sides:
            add(cases, systems, Solution([1], [[1] if j == 7 - side else [] for j in range(8)], [1], [[]] * 8), side)
        add(cases, systems, Solution([1], [[]] * 7 + [[1]], [1], [[]] * 8), 7)


def add_sides(cases):
    """Add them all."""
    shared_cases(cases)
    draws = Draws(0x0E01)
    every_side(cases, draws)
    side_shapes(cases, draws)
    late_sides(cases)
    no_such_side(cases, draws)
    no_such_side_at_fault(cases, draws)
    damaged_sides(cases, draws)
    longest_system(cases, draws)
