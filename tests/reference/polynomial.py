"""Polynomials modulo a prime p.

A polynomial is the list of its coefficients, lowest power first, the last one not 0; zero is the empty list. This is the form
that document 01's kinds 2 and 3 write down. Every operation is the schoolbook one, but for long products.
"""

from itertools import zip_longest
from struct import pack, unpack

import residue

ZERO = []
ONE = [1]
X = [0, 1]


def canonical(coefficients, p):
    """The polynomial with these coefficients: each reduced modulo p, zeros at the end dropped."""
    f = [a % p for a in coefficients]
    while f and f[-1] == 0:
        f.pop()
    return f


def degree(f):
    """The degree; -1 for zero, so that it is always the number of coefficients less one."""
    return len(f) - 1


def add(f, g, p):
    """f + g."""
    return canonical([a + b for a, b in zip_longest(f, g, fillvalue=0)], p)


def subtract(f, g, p):
    """f - g."""
    return canonical([a - b for a, b in zip_longest(f, g, fillvalue=0)], p)


def scale(c, f, p):
    """The residue c times f."""
    return canonical([c * a for a in f], p)


def shift(f, k):
    """f times the k-th power of x."""
    return [0] * k + f if f else []


def multiply(f, g, p):
    """f * g. Of short factors by rows; of long ones as numbers, a coefficient in each 8 bytes, which no sum of products fills."""
    if not f or not g:
        return []
    if min(len(f), len(g)) < 6:
        product = [0] * (len(f) + len(g) - 1)
        for i, a in enumerate(f):
            if a:
                for j, b in enumerate(g, i):
                    product[j] += a * b
        return canonical(product, p)
    product = number(f) * number(g)
    return canonical(unpack(f"<{len(f) + len(g) - 1}Q", product.to_bytes(8 * (len(f) + len(g) - 1), "little")), p)


def number(f):
    """The value of f at 2 to the power 64."""
    return int.from_bytes(pack(f"<{len(f)}Q", *f), "little")


def divide(f, g, p):
    """Quotient and remainder of f by g, g not zero: f = quotient * g + remainder, the remainder of lower degree than g."""
    remainder, n = list(f), len(g)
    quotient = [0] * max(0, len(f) - n + 1)
    leading = residue.inverse(g[-1], p)
    for k in range(len(quotient) - 1, -1, -1):
        c = remainder[k + n - 1] * leading % p
        quotient[k] = c
        if c:
            remainder[k:k + n] = [a - c * b for a, b in zip(remainder[k:k + n], g)]
    return canonical(quotient, p), canonical(remainder[:n - 1], p)


def remainder(f, g, p):
    """The remainder of f by g, g not zero."""
    return divide(f, g, p)[1]


def divides(g, f, p):
    """Whether g divides f. Zero is divisible by everything, and divides only zero."""
    if not g:
        return not f
    return not remainder(f, g, p)


def exact_quotient(f, g, p):
    """f / g, where g is not zero and divides f."""
    quotient, rest = divide(f, g, p)
    if rest:
        raise ArithmeticError("the division leaves a remainder")
    return quotient


def is_monic(f):
    """Whether the leading coefficient is 1; zero has none and is not monic."""
    return bool(f) and f[-1] == 1


def monic(f, p):
    """f divided by its leading coefficient; zero stays zero."""
    return scale(residue.inverse(f[-1], p), f, p) if f else []


def gcd(f, g, p):
    """The monic greatest common divisor; that of f and zero is f made monic, that of zero and zero is zero."""
    while g:
        f, g = g, remainder(f, g, p)
    return monic(f, p)


def common_divisor(polynomials, p):
    """The monic greatest common divisor of all; zero where all are zero."""
    divisor = ZERO
    for f in polynomials:
        divisor = gcd(divisor, f, p)
    return divisor


def inverse(f, g, p):
    """The polynomial of lower degree than g that, times f, leaves 1 modulo g; g is not zero and has no factor in common with f."""
    rest, next_rest, factor, next_factor = g, remainder(f, g, p), ZERO, ONE
    while next_rest:
        quotient, left = divide(rest, next_rest, p)
        rest, next_rest = next_rest, left
        factor, next_factor = next_factor, subtract(factor, multiply(quotient, next_factor, p), p)
    return remainder(scale(residue.inverse(rest[-1], p), factor, p), g, p)


def lcm(f, g, p):
    """The monic least common multiple of two polynomials that are not zero."""
    return monic(multiply(f, exact_quotient(g, gcd(f, g, p), p), p), p)


def dot(fs, gs, p):
    """The sum of the products, entry by entry, of two lists of the same length."""
    total = []
    for f, g in zip(fs, gs, strict=True):
        total = add(total, multiply(f, g, p), p)
    return total
