"""The stored set `arithmetic`: residues and polynomials.

A case is one list of words: operation code, p, operands. A polynomial is its number of coefficients, then the coefficients.
Exact quotients get the product and the divisor, so that only the division is at work.
"""

import polynomial as poly
import residue
from cases import ARITHMETIC, CaseSet
from draws import Draws
from samples import PRIMES, exact, prime, up_to

IS_PRIME, RESIDUES, ADD, SUBTRACT, SCALE, MULTIPLY, REMAINDER, EXACT_QUOTIENT, MONIC, GCD, EQUAL = range(1, 12)

NOT_PRIMES = [0, 1, 4, 6, 8, 9, 15, 25, 49, 91, 121, 169, 255, 256, 961, 63001, 64009, 64507, 65025, 65520, 65522, 65533,
              65534, 65535]
CARMICHAEL = [561, 1105, 1729, 2465, 2821, 6601, 8911, 10585, 15841, 29341, 41041, 46657, 52633, 62745, 63973]
SOME_PRIMES = [2, 3, 5, 7, 11, 13, 17, 31, 127, 131, 241, 251, 257, 8191, 32749, 32771, 65497, 65519, 65521]


def shown(f):
    """A polynomial as text."""
    return " ".join(str(a) for a in f) if f else "zero"


def packed(f):
    """A polynomial as words of a case."""
    return [len(f)] + f


def primality(cases, draws):
    """Every bound of interest, and numbers at random."""
    for p in NOT_PRIMES + CARMICHAEL + SOME_PRIMES + [draws.below(65536) for _ in range(25)]:
        cases.add([[IS_PRIME, p]], "prime" if residue.is_prime(p) else "not prime")


def residues(cases, draws):
    """Sum, difference, product, opposite, and the inverse where there is one."""
    for p in PRIMES + [prime(draws) for _ in range(9)]:
        some = [(0, 0), (0, p - 1), (p - 1, p - 1), (1, p - 1), (p // 2, p // 2 + p % 2), (draws.below(p), draws.below(p))]
        for a, b in some:
            a, b = a % p, b % p
            values = [residue.add(a, b, p), residue.subtract(a, b, p), residue.multiply(a, b, p), residue.negate(a, p)]
            values.append(residue.inverse(a, p) if a else "-")
            cases.add([[RESIDUES, p, a, b]], " ".join(str(v) for v in values))


def pair(draws, p, size):
    """Two polynomials; sometimes with a common factor, equal, opposite, or one of them zero."""
    f, g = up_to(draws, p, size), up_to(draws, p, size)
    way = draws.below(8)
    if way == 0:
        g = list(f)
    elif way == 1:
        g = poly.scale(-1, f, p)
    elif way == 2:
        f = poly.ZERO
    elif way == 3:
        g = poly.ZERO
    elif way < 6:
        factor = exact(draws, p, draws.between(1, max(1, size // 2)))
        f, g = poly.multiply(factor, f[:size // 2 + 1], p), poly.multiply(factor, g[:size // 2 + 1], p)
    return f, g


def two_operands(cases, draws, p, size):
    """Each operation once on polynomials up to a size."""
    f, g = pair(draws, p, size)
    cases.add([[ADD, p] + packed(f) + packed(g)], shown(poly.add(f, g, p)))
    f, g = pair(draws, p, size)
    cases.add([[SUBTRACT, p] + packed(f) + packed(g)], shown(poly.subtract(f, g, p)))
    f, g = pair(draws, p, size)
    cases.add([[GCD, p] + packed(f) + packed(g)], shown(poly.gcd(f, g, p)))
    f, g = pair(draws, p, size)
    if not draws.once_in(3):
        g = list(f)
        if f and draws.once_in(2):
            place = draws.below(len(f))
            g = poly.canonical(f[:place] + [f[place] + 1] + f[place + 1:], p)
    cases.add([[EQUAL, p] + packed(f) + packed(g)], "equal" if f == g else "different")
    c, f = draws.below(p), up_to(draws, p, size)
    cases.add([[SCALE, p, c] + packed(f)], shown(poly.scale(c, f, p)))
    f = up_to(draws, p, size)
    cases.add([[MONIC, p] + packed(f)], shown(poly.monic(f, p)))


def products(cases, draws, p, size, other):
    """Product, remainder and exact quotient, of polynomials up to two sizes."""
    f, g = up_to(draws, p, size), up_to(draws, p, other)
    cases.add([[MULTIPLY, p] + packed(f) + packed(g)], shown(poly.multiply(f, g, p)))
    f, g = up_to(draws, p, size), exact(draws, p, draws.between(1, other))
    if draws.once_in(4):
        f = poly.multiply(g, f[:max(0, size - len(g) + 1)], p)
    cases.add([[REMAINDER, p] + packed(f) + packed(g)], shown(poly.remainder(f, g, p)))
    f, g = up_to(draws, p, size), exact(draws, p, draws.between(1, other))
    cases.add([[EXACT_QUOTIENT, p] + packed(poly.multiply(f, g, p)) + packed(g)], shown(f))


def largest(cases, draws, p):
    """A polynomial of 121 coefficients with one of 136: the product has 256."""
    f, g = exact(draws, p, 121), exact(draws, p, 136)
    h = poly.multiply(f, g, p)
    cases.add([[MULTIPLY, p] + packed(f) + packed(g)], shown(h))
    cases.add([[EXACT_QUOTIENT, p] + packed(h) + packed(f)], shown(g))
    cases.add([[EXACT_QUOTIENT, p] + packed(h) + packed(g)], shown(f))
    r = up_to(draws, p, 120)
    cases.add([[REMAINDER, p] + packed(poly.add(h, r, p)) + packed(f)], shown(r))
    cases.add([[GCD, p] + packed(h) + packed(f)], shown(poly.monic(f, p)))
    top = [p - 1] * 121
    cases.add([[MULTIPLY, p] + packed(top) + packed([p - 1] * 136)], shown(poly.multiply(top, [p - 1] * 136, p)))


def zeros(cases):
    """What each operation says of zero."""
    for p in (2, 65521):
        for code, line in [(ADD, "zero"), (SUBTRACT, "zero"), (MULTIPLY, "zero"), (GCD, "zero"), (EQUAL, "equal")]:
            cases.add([[code, p, 0, 0]], line)
        for code in (REMAINDER, EXACT_QUOTIENT):
            cases.add([[code, p, 0, 1, 1]], "zero")
        cases.add([[MONIC, p, 0]], "zero")
        cases.add([[SCALE, p, 1, 0]], "zero")
        cases.add([[SCALE, p, 0, 2, 1, 1]], "zero")


def make():
    """Make the set."""
    cases, draws = CaseSet("arithmetic", ARITHMETIC, 600), Draws(0x0A)
    primality(cases, draws)
    residues(cases, draws)
    zeros(cases)
    for p in PRIMES + [prime(draws) for _ in range(5)]:
        for size in (2, 16, 16, 121):
            two_operands(cases, draws, p, size)
            products(cases, draws, p, size, size)
        products(cases, draws, p, 121, 16)
    for p in (2, 257, 65521):
        largest(cases, draws, p)
    return cases
