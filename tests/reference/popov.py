"""The Popov basis of all polynomial combinations of some columns: for each pivot the combination of least degree that has it.

The pivot of a vector is the first of its entries of greatest degree. A basis vector is monic at its pivot, and at the pivot of each
other one its degree is lower than that one's. So the basis is unique.

It is found by linear algebra over K alone (after Faugère, Gianni, Lazard and Mora): the vectors with a power of x in one entry and
zero in the others are taken in the order of their pivots, the least first. One that depends, up to combinations of the columns, on
those before it gives a basis vector, and its multiples are passed over. No basis vector has a higher degree than all columns.
"""

import polynomial as poly
from hermite import triangular_basis
from matrix import determinant, nonsingular_part, part
from residue import inverse
from solve import relation
from words import System


class Quotient:
    """Vectors of less than `size` coefficients, or as many, up to combinations of the columns."""

    def __init__(self, matrix, size, p):
        self.p = p
        self.size = size
        self.rows, columns = nonsingular_part(matrix, p)
        core = part(matrix, self.rows, columns)
        delta = determinant(core, p)
        self.basis = [column.entries for column in triangular_basis([matrix[i] for i in self.rows], delta, p, False)]
        others = [i for i in range(len(matrix)) if i not in self.rows]
        self.relations = [relation(System(p, matrix, []), i, self.rows, columns, core, delta) for i in others]

    def coordinates(self, vector):
        """Residues, so many for every vector; linear over K, and all 0 for the combinations of the columns alone."""
        rest = [vector[i] for i in self.rows]
        found = []
        for k, column in enumerate(self.basis):
            factor, left = poly.divide(rest[k], column[k], self.p)
            rest = [poly.subtract(f, poly.multiply(factor, g, self.p), self.p) for f, g in zip(rest, column)]
            found += padded(left, poly.degree(column[k]))
        for q in self.relations:
            found += padded(poly.dot(q, vector, self.p), self.size + max(len(f) for f in q))
        return found


def padded(f, size):
    """The coefficients of f, and zeros up to this number."""
    return f + [0] * (size - len(f))


class Independent:
    """Lists of residues of which none depends on the others, each with the combination of given lists that it is."""

    def __init__(self, p):
        self.p = p
        self.rows = []

    def reduced(self, row, size):
        """The row less multiples of those here, and the first of its first `size` places that is not 0, or None."""
        for place, other in self.rows:
            c = row[place]
            if c:
                row = [(a - c * b) % self.p for a, b in zip(row, other)]
        return row, next((place for place in range(size) if row[place]), None)

    def add(self, row, place):
        """One more row, which is not 0 at the place."""
        c = inverse(row[place], self.p)
        self.rows.append((place, [c * a % self.p for a in row]))


def popov_basis(matrix, p):
    """The basis vectors by their pivots."""
    n, size = len(matrix), max(len(f) for row in matrix for f in row)
    quotient, independent, basis = Quotient(matrix, size, p), Independent(p), {}
    for k in range(size):
        for i in reversed(range(n)):
            if i in basis:
                continue
            monomial = [poly.shift(poly.ONE, k) if j == i else poly.ZERO for j in range(n)]
            coordinates = quotient.coordinates(monomial)
            parts = [1 if place == n * k + i else 0 for place in range(n * size)]
            row, place = independent.reduced(coordinates + parts, len(coordinates))
            if place is None:
                parts = row[len(coordinates):]
                basis[i] = [poly.canonical(parts[j::n], p) for j in range(n)]
            else:
                independent.add(row, place)
    return basis


def pivot(vector):
    """The first entry of greatest degree, of a vector that is not zero."""
    sizes = [len(f) for f in vector]
    return sizes.index(max(sizes))
