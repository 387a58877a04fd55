"""The part of the stored set `verdicts` on number 33 alone: whether w divides Z·A, and which column is the first that it does not.

All right sides are zero, d = 1 and N = 0: so any w, Z and A come as far as 33, and what is accepted is what w divides in every column.
What a case is to say follows from how it is made; `check.py`, which adds up a column before it divides, must say the same.
"""

import polynomial as poly
import words as form
from draws import Draws
from popov import Independent, padded
from samples import exact, vector
from says import says_check
from variants import changed_at
from words import Solution, System
from writing import write_certificate, write_system

LONGEST = form.CERTIFICATE_LIMIT
SIZE = form.SYSTEM_LIMIT


def add(cases, p, columns, w, Z, place=None):
    """A case with these columns as A: accepted, or else 33 at this place."""
    system = System(p, [list(row) for row in zip(*columns, strict=True)], [poly.ZERO] * len(Z))
    certificate = Solution(poly.ONE, [poly.ZERO] * len(columns), w, Z)
    lists = [write_system(system), write_certificate(certificate, system), [0]]
    says = "accepted" if place is None else f"refused 33 at {place}"
    if says_check(*lists[:2]) != says:
        raise SystemExit(f"not {says}: {system} {certificate}")
    cases.add(lists, says)


def monic(draws, p, degree):
    """A monic polynomial of this degree, not divisible by x."""
    return [draws.between(1, p - 1) if k == 0 else draws.below(p) for k in range(degree)] + poly.ONE


def relations(p, w, Z):
    """Vectors v with Z·v divisible by w, whose combinations by constants are all that have at most 16 coefficients an entry."""
    n, degree, independent = len(Z), poly.degree(w), Independent(p)
    for i, f in enumerate(Z):
        for k in range(SIZE):
            parts = [1 if place == SIZE * i + k else 0 for place in range(SIZE * n)]
            row, place = independent.reduced(padded(poly.remainder(poly.shift(f, k), w, p), degree) + parts, degree)
            if place is None:
                yield [poly.canonical(row[degree + SIZE * h:degree + SIZE * h + SIZE], p) for h in range(n)]
            else:
                independent.add(row, place)


def divided(draws, p, w, Z, count):
    """So many columns that are drawn from all those whose product with Z is divisible by w."""
    found = list(relations(p, w, Z))
    factors = [vector(draws, p, len(found), 1) for _ in range(count)]
    return [[poly.dot(of_column, entries, p) for entries in zip(*found)] for of_column in factors]


def with_zero(column, i):
    """The column with zero as one more entry, which comes to stand in row i."""
    return column[:i] + [poly.ZERO] + column[i:]


def spoilt(columns, p, w, Z, j, i, k):
    """The columns with 1 added at power k of the entry in column j and row i, which makes this column wrong."""
    if poly.divides(w, poly.shift(Z[i], k), p):
        raise SystemExit("a column that is to be wrong is not")
    return changed_at(columns, j, changed_at(columns[j], i, poly.add(columns[j][i], poly.shift(poly.ONE, k), p)))


def lengthened(draws, p, w, Z, size):
    """Z plus multiples of w, so that each entry has this number of coefficients."""
    return [poly.add(f, poly.multiply(w, exact(draws, p, size - poly.degree(w)), p), p) for f in Z]


def not_reduced(cases, draws):
    """Z with as many coefficients as w, one more, or as many as may be: right columns, and a wrong one among them."""
    for p, n, degree, size in ((2, 3, 1, LONGEST), (3, 4, 7, 8), (65521, 2, 4, 6), (257, 5, 60, LONGEST)):
        w = monic(draws, p, degree)
        Z = [exact(draws, p, degree) for _ in range(n)]
        columns, longer = divided(draws, p, w, Z, 4), lengthened(draws, p, w, Z, size)
        add(cases, p, columns, w, longer)
        add(cases, p, spoilt(columns, p, w, longer, 2, n - 1, SIZE - 1), w, longer, 2)


def constant_divisor(cases, draws):
    """w = 1, whose remainders have no coefficients: all that is not zero is divided too."""
    for p, n, m in ((2, 1, 1), (65521, 3, 5)):
        columns = [[exact(draws, p, SIZE) for _ in range(n)] for _ in range(m)]
        add(cases, p, columns, poly.ONE, [exact(draws, p, LONGEST) for _ in range(n)])


def each_place(cases, draws):
    """Of 8 columns one alone is wrong, each in turn, by the lowest or the highest power of one row."""
    for j, p in enumerate((2, 3, 5, 65521, 257, 2, 7, 65521)):
        n = 8 - j
        w = monic(draws, p, 3 + j)
        Z = [exact(draws, p, draws.between(1, 20)) for _ in range(n - 1)] + [exact(draws, p, 3)]
        columns = divided(draws, p, w, Z, 8)
        add(cases, p, spoilt(columns, p, w, Z, j, n - 1, (SIZE - 1) * (j % 2)), w, Z, j)


def first_of_two(cases, draws):
    """Two wrong columns, the first of them by the last row alone, the other from the first row on."""
    for p, place, other in ((2, 1, 2), (65521, 2, 7)):
        w = monic(draws, p, 10)
        Z = [exact(draws, p, 10) for _ in range(5)]
        columns = [with_zero(column, 4) for column in divided(draws, p, w, Z[:4], 8)]
        columns = spoilt(columns, p, w, Z, other, 0, 3)
        add(cases, p, spoilt(columns, p, w, Z, place, 4, 2), w, Z, place)


def row_alone(cases, draws):
    """A column that is wrong by the last row alone, by the first alone, or by one in the middle: the others add up to multiples of w."""
    for p, n, i, j in ((2, 2, 1, 3), (65521, 2, 0, 4), (2, 3, 2, 5), (257, 8, 7, 6), (2, 8, 0, 4), (5, 7, 3, 3)):
        w = monic(draws, p, 8)
        Z = [exact(draws, p, 8) for _ in range(n)]
        columns = [with_zero(column, i) for column in divided(draws, p, w, Z[:i] + Z[i + 1:], 8)]
        add(cases, p, spoilt(columns, p, w, Z, j, i, 0), w, Z, j)


def row_changed(cases, draws):
    """Z with one coefficient changed, in its first row alone, in its last, or in one in the middle. The columns before a drawn one have
    zero there."""
    for p, n, i, j in ((2, 4, 0, 0), (65521, 4, 3, 1), (257, 8, 0, 7), (2, 8, 7, 4), (3, 8, 4, 6), (65521, 2, 1, 5)):
        w = monic(draws, p, 12)
        Z = [exact(draws, p, 12) for _ in range(n)]
        before = [with_zero(column, i) for column in divided(draws, p, w, Z[:i] + Z[i + 1:], j)]
        columns = before + divided(draws, p, w, Z, 8 - j)
        change = poly.shift(poly.ONE, draws.below(12))
        if poly.divides(w, poly.multiply(change, columns[j][i], p), p):
            raise SystemExit("a column that is to be wrong is not")
        add(cases, p, columns, w, changed_at(Z, i, poly.add(Z[i], change, p)), j)


def sums_in_between(cases, draws):
    """Sums that are multiples of w after some rows: again in the end, or not; and sums that are one in the end alone. The first column has
    multiples of w."""
    for p in (2, 65521):
        w = monic(draws, p, 6)
        f, g = exact(draws, p, 6), exact(draws, p, 5)
        minus_f, minus_g = poly.scale(-1, f, p), poly.scale(-1, g, p)
        both = poly.scale(-1, poly.add(f, g, p), p)
        h = exact(draws, p, 9)
        for Z, right in (
            ([f, minus_f, g, minus_g], True), ([f, g, g, minus_g, both], True), ([f, minus_f] * 3 + [f], False),
            ([f, g, both, g], False),
        ):
            columns = [[poly.multiply(w, exact(draws, p, 5), p) for _ in Z], [poly.ONE] * len(Z), [h] * len(Z)]
            add(cases, p, columns, w, Z, None if right else 1)


def zeros_beside(cases, draws):
    """Rows of A with 16 coefficients beside zeros, the first or the last in the row, and rows of zeros, the first, the last or one in the
    middle: accepted, and with x to the 15th in place of a zero."""
    for p, zero_row in ((2, 0), (257, 1), (65521, 3)):
        w = monic(draws, p, 9)
        Z = [exact(draws, p, 9) for _ in range(4)]
        others = [i for i in range(4) if i != zero_row]
        first, last = (with_zero(column, zero_row) for column in divided(draws, p, w, [Z[i] for i in others], 2))
        columns = [first, [poly.ZERO] * 4, [poly.ZERO] * 4, last]
        add(cases, p, columns, w, Z)
        add(cases, p, spoilt(columns, p, w, Z, 2, others[-1], SIZE - 1), w, Z, 2)
        add(cases, p, spoilt(columns, p, w, Z, 1, zero_row, SIZE - 1), w, Z, 1)


def longest(cases, draws):
    """w of degree 120, Z of 121 coefficients, A 8 x 8 of 16: accepted, with a wrong last column, and Z changed in its last row."""
    for p in (2, 257, 65521):
        w = monic(draws, p, LONGEST - 1)
        Z = [exact(draws, p, LONGEST) for _ in range(8)]
        columns = divided(draws, p, w, Z, 8)
        add(cases, p, columns, w, Z)
        add(cases, p, spoilt(columns, p, w, Z, 7, 7, SIZE - 1), w, Z, 7)
        Z = changed_at(Z, 7, poly.add(Z[7], poly.shift(poly.ONE, LONGEST - 2), p))
        add(cases, p, columns, w, Z, next(j for j in range(8) if columns[j][7]))


def multiples(cases, draws):
    """Rows of Z that are multiples of w and add nothing: all of them, or all but one."""
    for p, n, degree, i, j in ((2, 3, 1, 0, 1), (257, 8, 60, 7, 3), (65521, 4, LONGEST - 1, 2, 0)):
        w = monic(draws, p, degree)
        Z = lengthened(draws, p, w, [poly.ZERO] * n, LONGEST)
        columns = [[exact(draws, p, SIZE) for _ in range(n)] for _ in range(4)]
        add(cases, p, columns, w, Z)
        columns = [column if k > j else changed_at(column, i, poly.ZERO) for k, column in enumerate(columns)]
        Z = changed_at(Z, i, exact(draws, p, degree))
        add(cases, p, spoilt(columns, p, w, Z, j, i, 0), w, Z, j)


def multiple_last(cases, draws):
    """The last row of Z is a multiple of w, and the others add up to multiples: accepted, and with a wrong first column."""
    p = 65521
    w = monic(draws, p, 9)
    Z = [exact(draws, p, 9) for _ in range(3)] + lengthened(draws, p, w, [poly.ZERO], 25)
    columns = [column + [exact(draws, p, SIZE)] for column in divided(draws, p, w, Z[:3], 8)]
    add(cases, p, columns, w, Z)
    add(cases, p, spoilt(columns, p, w, Z, 0, 1, 8), w, Z, 0)


def largest_values(cases):
    """8 x 8 with all coefficients p - 1, as many as may be, and Z so that its remainders are p - 1 too, or what is taken off is. With 7 in
    the last row of Z the sums are zero."""
    for p in (2, 257, 65521):
        columns = [[[p - 1] * SIZE] * 8] * 8
        rows, last = [[p - 1] * (LONGEST - 1)] * 7, [7 % p] * (LONGEST - 1)
        around = [p - 1] + [0] * (LONGEST - 2) + poly.ONE
        add(cases, p, columns, around, rows + [last])
        if p > 2:
            add(cases, p, columns, around, rows + rows[:1], 0)
        rows, last = [[p - 1] * LONGEST] * 7, [7 % p] * LONGEST
        add(cases, p, columns, [p - 1] * (LONGEST - 1) + poly.ONE, rows + [last])


def one_coefficient(cases, draws):
    """The last column leaves a remainder of one coefficient: at power 0, in the middle, or at the highest there is, which is 119."""
    for p, power, of_entry in ((2, 0, 0), (65521, 60, 15), (2, 119, 15), (65521, 119, 0)):
        w = monic(draws, p, LONGEST - 1)
        f, g = exact(draws, p, 100), exact(draws, p, SIZE)
        Z = [f, poly.scale(-1, f, p), poly.shift([p - 1], power - of_entry)]
        add(cases, p, [[g, g, poly.ZERO]] * 7 + [[g, g, poly.shift(poly.ONE, of_entry)]], w, Z, 7)


def powers_of_x(cases):
    """w = x to the 120th and Z, A powers of x, of which w divides those from 120 on; and w = x."""
    w = poly.shift(poly.ONE, LONGEST - 1)
    for p, of_row, of_entry in ((2, 105, 15), (2, 104, 15), (65521, 120, 0), (65521, 119, 0)):
        columns = [[poly.shift(poly.ONE, of_entry)]]
        add(cases, p, columns, w, [poly.shift([p - 1], of_row)], None if of_row + of_entry >= 120 else 0)
    add(cases, 3, [[[0] + [2] * 15], [[0, 2]]], poly.X, [[2] * LONGEST])
    add(cases, 3, [[[0] + [2] * 15], [[2]]], poly.X, [[2] * LONGEST], 1)


def add_columns(cases):
    """Add them all."""
    draws = Draws(0x0E33)
    for part in (
        not_reduced, constant_divisor, each_place, first_of_two, row_alone, row_changed, sums_in_between, zeros_beside, longest,
        multiples, multiple_last, one_coefficient,
    ):
        part(cases, draws)
    largest_values(cases)
    powers_of_x(cases)
