"""All certificates of a small system that keep the conditions of chosen.py, found by trying every value of a few coefficients.

Nothing is computed but sums of products: spans and kernels are all combinations with polynomials of so many coefficients.
"""

from itertools import product

import polynomial as poly
from chosen import extended
from popov import pivot
from words import Absence, Solution


def polynomials(p, size):
    """All polynomials with at most so many coefficients."""
    return [poly.canonical(f, p) for f in product(range(p), repeat=size)]


def vectors(p, length, size):
    """All vectors of these."""
    return [list(v) for v in product(polynomials(p, size), repeat=length)]


def image(matrix, vector, p):
    """A matrix times a vector."""
    return [poly.dot(row, vector, p) for row in matrix]


def least_lengths(matrix, size, p):
    """By pivot the least number of coefficients that a combination of the columns has there."""
    lengths = {}
    for v in vectors(p, len(matrix[0]), size):
        found = image(matrix, v, p)
        if any(found):
            i = pivot(found)
            lengths[i] = min(lengths.get(i, len(found[i])), len(found[i]))
    return lengths


def certificates(system, size):
    """All chosen certificates whose polynomials have at most so many coefficients."""
    p = system.p
    pivots, both = least_lengths(system.matrix, size, p), least_lengths(extended(system), size, p)
    if len(both) > len(pivots):
        return [Absence(q) for q in vectors(p, system.rows(), size) if is_row(system, q, pivots, both)]
    found = solutions(system, size)
    degree = min(len(d) for d, _ in found)
    found = [(d, N) for d, N in found if len(d) == degree and is_reduced(system, N, size)]
    fractions = [(w, Z) for w in polynomials(p, size) for Z in vectors(p, system.rows(), size) if poly.is_monic(w)]
    return [Solution(d, N, w, Z) for d, N in found for w, Z in fractions if certifies(system, d, w, Z, both)]


def solutions(system, size):
    """All rational solutions M/e, as pairs of e, which is monic, and M, whose polynomials have at most so many coefficients."""
    columns = vectors(system.p, system.columns(), size)
    return [(e, M) for e in polynomials(system.p, size) for M in columns if solves(system, e, M)]


def solves(system, d, N):
    """d is monic and A·N = d·b."""
    return poly.is_monic(d) and image(system.matrix, N, system.p) == [poly.multiply(d, b, system.p) for b in system.right]


def is_reduced(system, N, size):
    """No v with A·v = 0 has its last entry that is not zero at j and there as many coefficients as N_j, or fewer."""
    for v in vectors(system.p, system.columns(), size):
        if any(v) and not any(image(system.matrix, v, system.p)):
            j = max(k for k, f in enumerate(v) if f)
            if len(v[j]) <= len(N[j]):
                return False
    return True


def certifies(system, d, w, Z, lengths):
    """Z/w in lowest terms has short entries, no denominator on the columns of A, and 1/d up to a polynomial on b."""
    p = system.p
    if not poly.divides(d, w, p) or any(f and (i not in lengths or len(f) + lengths[i] > len(w)) for i, f in enumerate(Z)):
        return False
    rest = poly.subtract(poly.dot(Z, system.right, p), poly.exact_quotient(w, d, p), p)
    products = [poly.dot(Z, system.column(j), p) for j in range(system.columns())]
    return all(poly.divides(w, f, p) for f in products + [rest]) and not has_factor([w] + Z, p)


def is_row(system, q, pivots, both):
    """q kills A, stands on pivots alone, is monic at the one that b adds and has no common factor."""
    (h,) = set(both) - set(pivots)
    killed = not any(poly.dot(q, system.column(j), system.p) for j in range(system.columns()))
    return killed and poly.is_monic(q[h]) and all(i in both for i, f in enumerate(q) if f) and not has_factor(q, system.p)


def has_factor(entries, p):
    """Whether a polynomial that is no constant divides all."""
    longest = max(len(f) for f in entries)
    return any(len(g) > 1 and all(poly.divides(g, f, p) for f in entries) for g in polynomials(p, longest))
