"""The stored set `writers`: a case is one list of words: what one writer is given.

These are the kind (0 system, 1 solution, 2 absence), p, n, m, the number of right sides (1 for a certificate, which has none), the
number of lent words, and then each polynomial in written order as its count and its coefficients. Where n, m or the number of right
sides is outside 1 to 8 none or some polynomials follow; where a count is above the limit none of its coefficients follow. The answer is
`wrote COUNT` and the words, or a refusal.
"""

import examples
import words as form
from cases import WRITER, CaseSet
from draws import Draws
from make_certificates import random_certificate
from samples import STRUCTURES, exact, generic, prime, shapes, sharing
from says import says_written
from words import Absence
from writing import pairs, write_certificate_values, write_system_values

SYSTEM = 0
ENOUGH = {SYSTEM: form.LONGEST_SYSTEM, form.SOLUTION: form.LONGEST_CERTIFICATE, form.ABSENCE: form.LONGEST_CERTIFICATE}
LIMITS = {SYSTEM: form.SYSTEM_LIMIT, form.SOLUTION: form.CERTIFICATE_LIMIT, form.ABSENCE: form.CERTIFICATE_LIMIT}
HUGE_COUNTS = [255, 256, 65536, 1 << 28, (1 << 28) + 1, 0xFFFFFFFF]
STRANGE_PRIMES = [0, 1, 4, 561, 63001, 65520, 65522, 65535, 65536, 65537, 65538, 131073, 0x10000 + 65521, 0x80000002, 0xFFFFFFFB,
                  0xFFFFFFFF]
STRANGE_SIZES = [0, 9, 15, 16, 17, 255, 256, 257, 65537, 0x80000001, 0xFFFFFFFF]
STRANGE_SIDES = STRANGE_SIZES + [10, 32, 128, 264, 65536, 65544, 1 << 28, 0xFFFFFFF8]
WIDE_COEFFICIENTS = [65536, 65537, 0x10000 + 65520, 1 << 28, (1 << 28) + 1, 0x80000000, 0xFFFFFFFF]


def add(cases, kind, p, n, m, lent, polynomials, sides=1):
    """A case; the polynomials are pairs of count and coefficients."""
    packed = [value for count, coefficients in polynomials for value in [count] + coefficients]
    if kind == SYSTEM:
        line = says_written(write_system_values, p, n, m, sides, polynomials, lent)
    else:
        line = says_written(write_certificate_values, kind, p, n, m, polynomials, lent)
    cases.add([[kind, p, n, m, sides, lent] + packed], line)


def values(draws, n, m, size):
    """Kind, p, n, m and polynomials of a system or a certificate, without fault."""
    p = prime(draws)
    system = draws.choose(STRUCTURES)(draws, p, n, m, draws.between(1, 3))
    if draws.once_in(2):
        return SYSTEM, p, n, m, pairs(system.polynomials())
    certificate = random_certificate(draws, system, size)
    kind = form.ABSENCE if isinstance(certificate, Absence) else form.SOLUTION
    return kind, p, n, m, pairs(certificate.polynomials())


def from_document(cases):
    """Systems and certificates of the cases."""
    for _, system, certificate, _ in examples.CASES:
        p, n, m = system.p, system.rows(), system.columns()
        add(cases, SYSTEM, p, n, m, ENOUGH[SYSTEM], pairs(system.polynomials()))
        kind = form.ABSENCE if isinstance(certificate, Absence) else form.SOLUTION
        add(cases, kind, p, n, m, ENOUGH[kind], pairs(certificate.polynomials()))


def whole(cases, draws):
    """All shapes without fault, and lent words around the number that is enough."""
    for n, m in shapes():
        kind, p, n, m, polynomials = values(draws, n, m, 3)
        add(cases, kind, p, n, m, ENOUGH[kind] + draws.choose([0, 0, 1, 500]), polynomials)
    for k in range(24):
        kind, p, n, m, polynomials = values(draws, draws.between(1, 3), draws.between(1, 3), 3)
        add(cases, kind, p, n, m, ENOUGH[kind] + [-1, 0, -ENOUGH[kind], -100][k % 4], polynomials)


def shape_faults(cases, draws):
    """p, n or m at fault, alone and together; a certificate's writer says the same."""
    for kind in ENOUGH:
        polynomials = [(1, [1])] * {SYSTEM: 2, form.SOLUTION: 4, form.ABSENCE: 1}[kind]
        for p in STRANGE_PRIMES:
            add(cases, kind, p, 1, 1, draws.choose([0, ENOUGH[kind]]), polynomials)
        for size in STRANGE_SIZES:
            add(cases, kind, 2, size, 1, ENOUGH[kind], [])
            add(cases, kind, 2, 1, size, draws.choose([0, ENOUGH[kind]]), [])
        add(cases, kind, 65537, 9, 0, 0, [])
        add(cases, kind, 4, 0, 9, ENOUGH[kind], [])


def faulty(draws, kind, p, f):
    """A polynomial made faulty: too long, a coefficient of p or more, or the last coefficient 0."""
    count, coefficients = f
    way = draws.below(4)
    if way == 0 or count == 0:
        return draws.choose([LIMITS[kind] + 1, LIMITS[kind] + 2] + HUGE_COUNTS), []
    if way == 1:
        return count, coefficients[:-1] + [0]
    place = draws.below(count)
    large = draws.choose([p, p + 1, 65535, max(p, draws.below(65536))])
    return count, coefficients[:place] + [large] + coefficients[place + 1:]


def value_faults(cases, draws):
    """One to three polynomials at fault, with enough lent words or too few."""
    for k in range(170):
        kind, p, n, m, polynomials = values(draws, draws.between(1, 4), draws.between(1, 4), 6)
        for _ in range([1, 1, 2, 3][k % 4]):
            place = draws.below(len(polynomials))
            if polynomials[place][1] or not polynomials[place][0]:
                polynomials[place] = faulty(draws, kind, p, polynomials[place])
        add(cases, kind, p, n, m, 0 if draws.once_in(5) else ENOUGH[kind], polynomials)


def lengths(cases, draws):
    """Counts at the limit, and the longest system and certificate."""
    for kind, polynomial_count in ((SYSTEM, 2), (form.SOLUTION, 4), (form.ABSENCE, 1)):
        for p in (2, 65521):
            polynomials = [(0, [])] * (polynomial_count - 1)
            full = exact(draws, p, LIMITS[kind])
            add(cases, kind, p, 1, 1, ENOUGH[kind], polynomials + [(len(full), full)])
            add(cases, kind, p, 1, 1, ENOUGH[kind], polynomials + [(len(full) + 1, [])])
            add(cases, kind, p, 1, 1, ENOUGH[kind], polynomials + [(len(full), full[:-1] + [0])])
    system = generic(draws, 65521, 8, 8, 1)
    for kind, count in ((SYSTEM, 72), (form.SOLUTION, 18), (form.ABSENCE, 8)):
        for lent in (ENOUGH[kind] - 1, ENOUGH[kind]):
            add(cases, kind, system.p, 8, 8, lent, pairs(exact(draws, system.p, LIMITS[kind]) for _ in range(count)))


def wide_coefficients(cases):
    """Coefficients beyond 16 bits: refused like all others of p or more."""
    for kind, count in ((SYSTEM, 2), (form.SOLUTION, 4), (form.ABSENCE, 1)):
        for a in WIDE_COEFFICIENTS:
            add(cases, kind, 65521, 1, 1, ENOUGH[kind], [(0, [])] * (count - 1) + [(2, [a, 1])])


def side_numbers(cases, draws):
    """Numbers of right sides outside 1 to 8: 1, before 2, 3, any value at fault, and 11."""
    for sides in STRANGE_SIDES:
        add(cases, SYSTEM, 2, 1, 1, ENOUGH[SYSTEM], [(1, [1])] * 2, sides)
        p, n, m = draws.choose(STRANGE_PRIMES + [2]), draws.choose(STRANGE_SIZES + [1]), draws.choose(STRANGE_SIZES + [1])
        add(cases, SYSTEM, p, n, m, draws.choose([0, ENOUGH[SYSTEM]]), draws.choose([[], [(17, []), (1, [5])]]), sides)
    for sides in range(12):
        for p, n, m in ((4, 9, 0), (65537, 1, 1), (2, 0, 1), (2, 1, 9)):
            add(cases, SYSTEM, p, n, m, 0, [], sides)


def whole_sides(cases, draws):
    """Each number of rows with each number of right sides, with enough lent words; and around what is enough, also for one."""
    for n in range(1, 9):
        for sides in range(1, 9):
            systems = sharing(draws, draws.choose(STRUCTURES)(draws, prime(draws), n, draws.between(1, 4), 2), sides)
            add_systems(cases, systems, ENOUGH[SYSTEM])
    for sides in range(1, 9):
        systems = sharing(draws, generic(draws, prime(draws), draws.between(1, 2), draws.between(1, 2), 3), sides)
        for lent in (0, 1226, ENOUGH[SYSTEM] - 1, ENOUGH[SYSTEM], ENOUGH[SYSTEM] + 1):
            add_systems(cases, systems, lent)


def add_systems(cases, systems, lent):
    """A case on systems."""
    p, n, m = systems.p, systems.rows(), systems.columns()
    add(cases, SYSTEM, p, n, m, lent, pairs(systems.polynomials()), len(systems.sides))


def side_faults(cases, draws):
    """One or two polynomials at fault, the first of them in a right side; its place counts the words of those before it."""
    for k in range(80):
        p, n, m, sides = prime(draws), draws.between(1, 3), draws.between(1, 3), 1 + k % 8
        polynomials = pairs(sharing(draws, generic(draws, p, n, m, 4), sides).polynomials())
        for _ in range(1 + k % 2):
            place = draws.between(n * m, len(polynomials) - 1)
            if polynomials[place][1] or not polynomials[place][0]:
                polynomials[place] = faulty(draws, SYSTEM, p, polynomials[place])
        add(cases, SYSTEM, p, n, m, draws.choose([0, ENOUGH[SYSTEM]]), polynomials, sides)


def longest_sides(cases, draws):
    """The longest system: written where just enough words are lent, and with a fault in its last polynomial."""
    p = 65521
    polynomials = pairs(exact(draws, p, form.SYSTEM_LIMIT) for _ in range(128))
    for lent in (1226, ENOUGH[SYSTEM] - 1, ENOUGH[SYSTEM]):
        add(cases, SYSTEM, p, 8, 8, lent, polynomials, 8)
    add(cases, SYSTEM, p, 8, 8, 0, polynomials[:-1] + [(16, [1] * 15 + [0])], 8)
    add(cases, SYSTEM, p, 8, 8, 0, polynomials[:-1] + [(17, [])], 8)


def make():
    """Make the set."""
    cases, draws = CaseSet("writers", WRITER, 300), Draws(0x10)
    from_document(cases)
    whole(cases, draws)
    shape_faults(cases, draws)
    value_faults(cases, draws)
    lengths(cases, draws)
    wide_coefficients(cases)
    draws = Draws(0x1001)
    side_numbers(cases, draws)
    whole_sides(cases, draws)
    side_faults(cases, draws)
    longest_sides(cases, draws)
    cases.require([1, 2, 3, 6, 7, 8, 11, 26, 27, 28], 8)
    return cases
