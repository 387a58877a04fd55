"""Kind and least denominator once more, by a formula that shares nothing with `solve` but determinants.

Over polynomials, A·y = e·b has a polynomial solution exactly when A and (A | e·b) have the same rank r and the same greatest
common divisor of their minors of size r. Taken over r independent rows of A this gives d = g(A) / g(A | b), where g is that
divisor.
"""

from itertools import combinations

import polynomial as poly
from matrix import determinant, nonsingular_part, part


def least_denominator(system):
    """The least denominator, or None where the system has no rational solution."""
    p = system.p
    extended = [row + [b] for row, b in zip(system.matrix, system.right)]
    rows, _ = nonsingular_part(system.matrix, p)
    if len(nonsingular_part(extended, p)[0]) > len(rows):
        return None
    without = divisor_of_minors(system.matrix, rows, p)
    with_right = divisor_of_minors(extended, rows, p)
    return poly.monic(poly.exact_quotient(without, with_right, p), p)


def divisor_of_minors(matrix, rows, p):
    """The greatest common divisor of the determinants of all square parts in these rows."""
    divisor = poly.ZERO
    for columns in combinations(range(len(matrix[0])), len(rows)):
        divisor = poly.gcd(divisor, determinant(part(matrix, rows, columns), p), p)
    return divisor
