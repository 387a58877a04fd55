"""A triangular basis of all polynomial combinations of the columns of a matrix (its column Hermite form, left unreduced).

The matrix has r independent rows, and `modulus` is one of its nonzero minors of size r. Then modulus times each unit vector is a
combination of the columns, so all entries may be kept reduced by it, and no degree grows beyond its degree.
"""

import polynomial as poly


class Column:
    """A combination of the matrix's columns: its entries, and its multipliers. See `triangular_basis` for what both mean."""

    def __init__(self, entries, multipliers):
        self.entries = entries
        self.multipliers = multipliers

    def subtract(self, factor, other, modulus, row, p):
        """Subtract factor times another column; all is reduced except the entry in the row at work."""
        self.entries = [
            minus_multiple(a, factor, b, None if i == row else modulus, p)
            for i, (a, b) in enumerate(zip(self.entries, other.entries))
        ]
        self.multipliers = [minus_multiple(a, factor, b, modulus, p) for a, b in zip(self.multipliers, other.multipliers)]

    def make_monic(self, row, p):
        """Divide by the leading coefficient of the entry in this row."""
        inverse = pow(self.entries[row][-1], -1, p)
        self.entries = [poly.scale(inverse, a, p) for a in self.entries]
        self.multipliers = [poly.scale(inverse, a, p) for a in self.multipliers]


def minus_multiple(a, factor, b, modulus, p):
    """a - factor * b, reduced by the modulus if there is one."""
    value = poly.subtract(a, poly.multiply(factor, b, p), p)
    return value if modulus is None else poly.remainder(value, modulus, p)


def triangular_basis(matrix, modulus, p, recorded=True):
    """r columns, column i zero above row i and monic there, with the same polynomial combinations as the matrix's columns.

    A basis column's entries equal the combination of the matrix's columns by its multipliers, up to multiples of the modulus. Where
    they are not recorded there are none.
    """
    size = len(matrix)
    if size == 0:
        return []
    kept = len(matrix[0]) if recorded else 0
    columns = [start_column(matrix, j, modulus, kept, p) for j in range(len(matrix[0]))]
    basis = []
    for row in range(size):
        entries = [poly.ZERO] * size
        entries[row] = modulus
        columns.append(Column(entries, [poly.ZERO] * kept))
        pivot = gather(columns, row, modulus, p)
        columns.remove(pivot)
        pivot.make_monic(row, p)
        basis.append(pivot)
    return basis


def start_column(matrix, j, modulus, kept, p):
    """Column j of the matrix, with the multipliers that single it out, so many as are kept."""
    entries = [poly.remainder(row[j], modulus, p) for row in matrix]
    multipliers = [poly.ONE if k == j else poly.ZERO for k in range(kept)]
    return Column(entries, multipliers)


def gather(columns, row, modulus, p):
    """Euclid's algorithm on the entries of one row, until a single column is not zero there; that column."""
    while True:
        live = [column for column in columns if column.entries[row]]
        pivot = min(live, key=lambda column: len(column.entries[row]))
        if len(live) == 1:
            return pivot
        for column in live:
            if column is not pivot:
                factor = poly.divide(column.entries[row], pivot.entries[row], p)[0]
                column.subtract(factor, pivot, modulus, row, p)
