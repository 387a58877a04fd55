"""Elimination without fractions over polynomials (Bareiss): rank, a nonsingular part, determinants, Cramer's rule.

A matrix is a list of rows. Every number that the elimination meets is a minor of the matrix, so degrees stay bounded.
"""

import polynomial as poly


def nonsingular_part(matrix, p):
    """Rows and columns, as two lists of the same length r, of a nonsingular square part; r is the rank of the matrix."""
    work = [list(row) for row in matrix]
    rows, columns = list(range(len(matrix))), []
    previous = poly.ONE
    for j in range(len(matrix[0])):
        r = len(columns)
        pivot = next((i for i in range(r, len(work)) if work[i][j]), None)
        if pivot is None:
            continue
        work[r], work[pivot] = work[pivot], work[r]
        rows[r], rows[pivot] = rows[pivot], rows[r]
        for i in range(r + 1, len(work)):
            work[i] = cross(work[r], work[i], j, previous, p)
        previous = work[r][j]
        columns.append(j)
    return rows[:len(columns)], columns


def cross(upper, lower, j, previous, p):
    """One step of Bareiss: upper[j] * lower - lower[j] * upper, divided by the pivot before."""
    return [
        poly.exact_quotient(poly.subtract(poly.multiply(upper[j], b, p), poly.multiply(lower[j], a, p), p), previous, p)
        for a, b in zip(upper, lower)
    ]


def part(matrix, rows, columns):
    """The part of a matrix in these rows and columns, in this order."""
    return [[matrix[i][j] for j in columns] for i in rows]


def transposed(matrix):
    """Rows and columns exchanged."""
    return [list(column) for column in zip(*matrix)]


def determinant(square, p):
    """The determinant; 1 for the matrix without rows."""
    work = [list(row) for row in square]
    previous = poly.ONE
    sign = 1
    for k in range(len(work)):
        pivot = next((i for i in range(k, len(work)) if work[i][k]), None)
        if pivot is None:
            return poly.ZERO
        if pivot != k:
            work[k], work[pivot] = work[pivot], work[k]
            sign = -sign
        for i in range(k + 1, len(work)):
            work[i] = cross(work[k], work[i], k, previous, p)
        previous = work[k][k]
    return poly.scale(sign, previous, p)


def cramer(square, vector, p):
    """det(square) times the solution s of square·s = vector, by Cramer's rule: always polynomials."""
    result = []
    for k in range(len(square)):
        replaced = [row[:k] + [v] + row[k + 1:] for row, v in zip(square, vector)]
        result.append(determinant(replaced, p))
    return result
