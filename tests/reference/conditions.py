"""The conditions of chosen.py on a certificate, each tried as it is stated there.

Where a condition asks for a vector of a span, one of the Popov basis is shown, and whether it is in the span is asked of the minors.
"""

import polynomial as poly
from chosen import extended
from minors import least_denominator
from popov import pivot, popov_basis
from words import Absence, System


def is_chosen(system, certificate):
    """Whether the certificate is the chosen one."""
    if isinstance(certificate, Absence):
        return is_chosen_row(system, certificate.q)
    d, N, w, Z = certificate
    return d == least_denominator(system) and solves(system, d, N) and is_reduced(system, N) and certifies(system, d, w, Z)


def solves(system, d, N):
    """A·N = d·b."""
    p = system.p
    return all(poly.dot(row, N, p) == poly.multiply(d, b, p) for row, b in zip(system.matrix, system.right))


def is_reduced(system, N):
    """Each N_j has fewer coefficients than what vectors v with A·v = 0, zero behind j, have at j."""
    return all(len(f) < len(g) for f, g in zip(N, least_entries(system)) if g is not None)


def least_entries(system):
    """For each j the v_j of least degree that is not zero, of v with A·v = 0 that are zero behind j; None where there is none."""
    yield poly.ONE if not any(system.column(0)) else None
    for j in range(1, system.columns()):
        yield least_denominator(System(system.p, [row[:j] for row in system.matrix], system.column(j)))


def certifies(system, d, w, Z):
    """z = Z/w in lowest terms has z·A without denominators, z·b equal to 1/d up to a polynomial, and short entries."""
    p = system.p
    if not (poly.is_monic(w) and poly.divides(d, w, p) and poly.common_divisor([w] + Z, p) == poly.ONE):
        return False
    rest = poly.subtract(poly.dot(Z, system.right, p), poly.exact_quotient(w, d, p), p)
    products = [poly.dot(Z, system.column(j), p) for j in range(system.columns())]
    if not all(poly.divides(w, f, p) for f in products + [rest]):
        return False
    lengths = pivot_lengths(extended(system), p)
    return all(not f or i in lengths and len(f) + lengths[i] <= len(w) for i, f in enumerate(Z))


def is_chosen_row(system, q):
    """q·A = 0, entries at pivots alone, the pivot that b adds among them; q monic there and without a common factor."""
    p = system.p
    pivots, both = (set(pivot_lengths(matrix, p)) for matrix in (system.matrix, extended(system)))
    return (
        len(both - pivots) == 1
        and all(poly.is_monic(q[h]) for h in both - pivots)
        and all(i in both for i, f in enumerate(q) if f)
        and not any(poly.dot(q, system.column(j), p) for j in range(system.columns()))
        and poly.common_divisor(q, p) == poly.ONE
    )


def pivot_lengths(matrix, p):
    """The number of coefficients that a vector of each pivot has, as many pivots as the rank: all that there are."""
    lengths = {}
    for i, vector in popov_basis(matrix, p).items():
        if pivot(vector) != i or least_denominator(System(p, matrix, vector)) != poly.ONE:
            raise SystemExit(f"no vector of the span with its pivot at {i}: {vector}")
        lengths[i] = len(vector[i])
    return lengths
