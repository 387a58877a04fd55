"""The chosen certificate of a system: the only one that keeps these conditions, in which L is the span of the columns of A and of b.

Solution: d is the least denominator.
- N is reduced: N_j has fewer coefficients than v_j, for all v with A·v = 0, v_j not zero and v_k zero for k above j.
- z = Z/w has z·A without denominators and z·b equal to 1/d up to a polynomial. An entry z_i that is not zero belongs to a pivot i of L,
  and with the least degree of a vector of L that has its pivot there its degree adds up to less than 0. Lowest terms; w is monic.
Absence: q·A = 0. L has one pivot h that the span of the columns of A has not; q_h is monic, and the other entries that are not zero
belong to pivots of that span. Lowest terms: no factor is common to all entries.
"""

import polynomial as poly
import words as form
from matrix import cramer, determinant, nonsingular_part, part, transposed
from popov import popov_basis
from reading import read_system
from solve import lowest_terms, relation, solve, spread
from words import Absence, Refusal, Solution, System
from writing import write_certificate


def solve_words(system_words, lent, side=0):
    """The words of the right side's chosen certificate, or a refusal: the system is read, then come 40 and 11."""
    system = read_system(system_words).side(side)
    if lent < form.LONGEST_CERTIFICATE:
        raise Refusal(11, 0)
    return write_certificate(chosen(system), system)


def chosen(system):
    """The chosen certificate."""
    right = solve(system)
    if isinstance(right, Absence):
        return Absence(chosen_row(system))
    w, Z = chosen_fractions(system, right)
    return Solution(right.d, reduced(system, right.N), w, Z)


def extended(system):
    """The matrix with the right side as one more column."""
    return [row + [b] for row, b in zip(system.matrix, system.right)]


def reduced(system, N):
    """N less vectors v with A·v = 0, from the last entry to the first."""
    independent = nonsingular_part(system.matrix, system.p)[1]
    for j in reversed(range(system.columns())):
        if j not in independent:
            v = shortest_relation(system, j)
            factor = poly.divide(N[j], v[j], system.p)[0]
            N = [poly.subtract(f, poly.multiply(factor, g, system.p), system.p) for f, g in zip(N, v)]
    return N


def shortest_relation(system, j):
    """v with A·v = 0, v_j of least degree and zero behind it: column j over the least denominator from the columns before it."""
    behind = [poly.ZERO] * (system.columns() - j - 1)
    if j == 0:
        return [poly.ONE] + behind
    before = solve(System(system.p, [row[:j] for row in system.matrix], system.column(j)))
    return [poly.scale(-1, f, system.p) for f in before.N] + [before.d] + behind


def chosen_fractions(system, right):
    """w and Z: what z gives on the Popov basis of L is known up to polynomials from any right z; it is taken without them."""
    p = system.p
    basis = popov_basis(extended(system), p)
    pivots = sorted(basis)
    wanted = remainders(right, system.right, [basis[i] for i in pivots], p)
    square = transposed([[basis[i][k] for i in pivots] for k in pivots])
    common = poly.multiply(right.d, determinant(square, p), p)
    w, Z = lowest_terms(cramer(square, wanted, p), common, p)
    return w, spread(Z, pivots, system.rows())


def remainders(right, b, vectors, p):
    """For each vector of L the remainder f of lower degree than d with z·vector equal to f/d up to a polynomial, where z·b is 1/d."""
    def numerator(vector):
        return poly.exact_quotient(poly.multiply(right.d, poly.dot(right.Z, vector, p), p), right.w, p)
    scale = poly.inverse(numerator(b), right.d, p)
    return [poly.remainder(poly.multiply(scale, numerator(vector), p), right.d, p) for vector in vectors]


def chosen_row(system):
    """q."""
    p = system.p
    pivots = sorted(popov_basis(system.matrix, p))
    (h,) = set(popov_basis(extended(system), p)) - set(pivots)
    columns = nonsingular_part(system.matrix, p)[1]
    core = part(system.matrix, pivots, columns)
    q = relation(system, h, pivots, columns, core, determinant(core, p))
    leading = poly.scale(q[h][-1], poly.common_divisor(q, p), p)
    return [poly.exact_quotient(f, leading, p) for f in q]
