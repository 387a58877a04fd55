"""A right certificate for every system, by elimination and a triangular basis; no lattice reduction is used.

1. r independent rows and columns of A are found; their determinant is called delta.
2. Each other row is, times delta, a combination of these rows. If b does not follow it, the relation is the absence's q.
3. Else the other rows say nothing new. Let H be the triangular basis of the r rows: e·b is reached by polynomials exactly when
   e times the inverse of H times b has only polynomials. So d is the common denominator of the entries of H⁻¹·b. The rows of
   H⁻¹ are vectors z with z·A free of denominators, and a combination of them has d as the denominator of z·b.
4. N: the unknowns outside the r columns are known up to multiples of delta, the others follow by Cramer's rule.
"""

import polynomial as poly
from check import denominator
from hermite import triangular_basis
from matrix import cramer, determinant, nonsingular_part, part, transposed
from words import Absence, Solution


def solve(system):
    """A right certificate or an absence."""
    rows, columns = nonsingular_part(system.matrix, system.p)
    core = part(system.matrix, rows, columns)
    delta = determinant(core, system.p)
    for i in range(system.rows()):
        if i not in rows:
            q = relation(system, i, rows, columns, core, delta)
            if poly.dot(q, system.right, system.p):
                return Absence(q)
    return solution(system, rows, columns, core, delta)


def relation(system, i, rows, columns, core, delta):
    """The vector q with q·A zero that has delta at row i and else is zero outside the independent rows."""
    others = cramer(transposed(core), [system.matrix[i][j] for j in columns], system.p)
    q = [poly.ZERO] * system.rows()
    q[i] = delta
    for k, f in zip(rows, others):
        q[k] = poly.scale(-1, f, system.p)
    return q


def solution(system, rows, columns, core, delta):
    """The certificate of a system that has a rational solution."""
    p = system.p
    upper = [system.matrix[i] for i in rows]
    right = [system.right[i] for i in rows]
    basis = triangular_basis(upper, delta, p)
    common, inverse = inverse_rows([column.entries for column in basis], p)
    coordinates = [poly.dot(row, right, p) for row in inverse]
    d, z = witness(inverse, coordinates, common, p)
    w, Z = lowest_terms(z, common, p)
    scaled = [poly.exact_quotient(poly.multiply(d, c, p), common, p) for c in coordinates]
    guess = [poly.dot([column.multipliers[j] for column in basis], scaled, p) for j in range(system.columns())]
    N = completed(upper, right, d, guess, columns, core, delta, p)
    return Solution(d, N, w, spread(Z, rows, system.rows()))


def inverse_rows(basis, p):
    """A common denominator and the numerators, row by row, of the inverse of a triangular basis given by its columns."""
    common = poly.ONE
    for i, column in enumerate(basis):
        common = poly.multiply(common, column[i], p)
    return common, [inverse_row(basis, i, common, p) for i in range(len(basis))]


def inverse_row(basis, i, common, p):
    """The row that gives `common` on column i of the basis and zero on the others, found from its last entry back."""
    row = [poly.ZERO] * len(basis)
    for k in range(len(basis) - 1, -1, -1):
        wanted = common if k == i else poly.ZERO
        row[k] = poly.exact_quotient(poly.subtract(wanted, poly.dot(row, basis[k], p), p), basis[k][k], p)
    return row


def witness(inverse, coordinates, common, p):
    """The common denominator d of the coordinates and a combination z of the rows for which z·b has it. All over `common`."""
    d = poly.ONE
    z = [poly.ZERO] * len(inverse)
    for row, c in zip(inverse, coordinates):
        e = denominator(c, common, p)
        first, second = coprime_parts(d, e, p)
        left = poly.exact_quotient(d, first, p)
        right = poly.exact_quotient(e, second, p)
        z = [poly.add(poly.multiply(left, f, p), poly.multiply(right, g, p), p) for f, g in zip(z, row)]
        d = poly.multiply(first, second, p)
    return d, z


def coprime_parts(f, g, p):
    """A divisor of f and one of g, both monic and without common factor, whose product is the lcm of f and g."""
    whole = poly.lcm(f, g, p)
    more_in_g = poly.exact_quotient(whole, f, p)
    first = f
    while True:
        shared = poly.gcd(first, more_in_g, p)
        if shared == poly.ONE:
            return first, poly.exact_quotient(whole, first, p)
        first = poly.exact_quotient(first, shared, p)


def lowest_terms(z, common, p):
    """w and Z, with Z/w equal to z/common up to polynomials, w monic and Z of lower degree than w."""
    divisor = common
    for f in z:
        divisor = poly.gcd(divisor, f, p)
    w = poly.monic(poly.exact_quotient(common, divisor, p), p)
    return w, [poly.remainder(poly.exact_quotient(f, divisor, p), w, p) for f in z]


def completed(upper, right, d, guess, columns, core, delta, p):
    """N: outside the independent columns the guess reduced by delta, inside them what the equations leave."""
    N = [poly.ZERO if j in columns else poly.remainder(f, delta, p) for j, f in enumerate(guess)]
    rest = [poly.subtract(poly.multiply(d, b, p), poly.dot(row, N, p), p) for row, b in zip(upper, right)]
    for j, f in zip(columns, cramer(core, rest, p)):
        N[j] = poly.exact_quotient(f, delta, p)
    return N


def spread(vector, places, size):
    """A vector of the given size with these entries at these places, zero elsewhere."""
    result = [poly.ZERO] * size
    for place, f in zip(places, vector):
        result[place] = f
    return result
