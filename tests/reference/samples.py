"""Random polynomials and systems with a chosen structure, all within document 01's bounds."""

import polynomial as poly
from matrix import nonsingular_part, transposed
from residue import is_prime
from words import System, Systems

PRIMES = [2, 3, 5, 7, 13, 257, 65521]
LIMIT = 15  # highest degree in a system


def prime(draws):
    """Often one of the primes above, else any prime of 16 bits."""
    if not draws.once_in(4):
        return draws.choose(PRIMES)
    p = draws.between(2, 65521)
    while not is_prime(p):
        p = draws.between(2, 65521)
    return p


def shapes():
    """All pairs of rows and columns."""
    return [(n, m) for n in range(1, 9) for m in range(1, 9)]


def exact(draws, p, size):
    """A polynomial with exactly this number of coefficients."""
    return [draws.below(p) for _ in range(size - 1)] + [draws.between(1, p - 1)] if size else []


def up_to(draws, p, size):
    """A polynomial with at most this number of coefficients, zero included."""
    return exact(draws, p, draws.between(0, size))


def vector(draws, p, length, size):
    """A list of polynomials."""
    return [up_to(draws, p, size) for _ in range(length)]


def grid(draws, p, n, m, size):
    """A matrix of polynomials."""
    return [vector(draws, p, m, size) for _ in range(n)]


def product(left, right, p):
    """The product of two matrices."""
    columns = list(zip(*right))
    return [[poly.dot(row, list(column), p) for column in columns] for row in left]


def image(matrix, vector, p):
    """A matrix times a vector."""
    return [poly.dot(row, vector, p) for row in matrix]


def generic(draws, p, n, m, size):
    """Entries with nothing in common."""
    return System(p, grid(draws, p, n, m, size), vector(draws, p, n, size))


def low_rank(draws, p, n, m, size):
    """A product left·middle·right of rank r at most, b within the span of the columns of left; d comes from the middle."""
    r = draws.between(1, min(n, m))
    middle_size = draws.between(1, size)
    left_size = draws.between(1, size - middle_size + 1)
    right_size = size - middle_size - left_size + 2
    left = grid(draws, p, n, r, left_size)
    middle = triangular(draws, p, r, middle_size)
    matrix = product(left, product(middle, grid(draws, p, r, m, right_size), p), p)
    return System(p, matrix, image(left, vector(draws, p, r, size - left_size + 1), p))


def of_rank(draws, p, n, m, r, size, inside):
    """A product of two factors of rank r, drawn until it has that rank; b within the span of its columns, or drawn."""
    left_size = draws.between(1, size)
    while True:
        left = grid(draws, p, n, r, left_size)
        matrix = product(left, grid(draws, p, r, m, size - left_size + 1), p) if r else [[poly.ZERO] * m for _ in range(n)]
        if len(nonsingular_part(matrix, p)[0]) == r:
            break
    right = image(left, vector(draws, p, r, size - left_size + 1), p) if inside else vector(draws, p, n, size)
    return System(p, matrix, right)


def triangular(draws, p, r, size):
    """A triangular matrix whose diagonal entries are 1, a power of x, or a random factor."""
    def entry(i, j):
        if j > i:
            return poly.ZERO
        if j < i:
            return up_to(draws, p, size)
        return draws.choose([poly.ONE, poly.shift(poly.ONE, draws.below(size)), exact(draws, p, size), exact(draws, p, size)])
    return [[entry(i, j) for j in range(r)] for i in range(r)]


def outside(draws, p, n, m, size):
    """As low_rank, with one entry of the right side replaced: mostly no solution where the rank is below n."""
    system = low_rank(draws, p, n, m, size)
    system.right[draws.below(n)] = exact(draws, p, draws.between(1, size))
    return system


def with_zeros(draws, p, n, m, size):
    """A row and a column of zeros; the right side is zero in that row, or not."""
    system = generic(draws, p, n, m, size)
    i, j = draws.below(n), draws.below(m)
    system.matrix[i] = [poly.ZERO] * m
    for row in system.matrix:
        row[j] = poly.ZERO
    if not draws.once_in(3):
        system.right[i] = poly.ZERO
    return system


def common_factor(draws, p, n, m, size):
    """Each row, or else each column, times a factor of its own."""
    half = max(1, size // 2)
    matrix = grid(draws, p, n, m, size - half + 1)
    factors = [exact(draws, p, draws.between(1, half)) for _ in range(max(n, m))]
    by_row = draws.once_in(2)
    scaled = [[poly.multiply(factors[i if by_row else j], f, p) for j, f in enumerate(row)] for i, row in enumerate(matrix)]
    return System(p, scaled, vector(draws, p, n, size))


def powers_of_x(draws, p, n, m, size):
    """Entries that are zero or a constant times a power of x."""
    def monomial():
        return poly.shift([draws.between(1, p - 1)], draws.below(size)) if not draws.once_in(3) else poly.ZERO
    return System(p, [[monomial() for _ in range(m)] for _ in range(n)], [monomial() for _ in range(n)])


def zero_right(draws, p, n, m, size):
    """The right side is zero."""
    return System(p, grid(draws, p, n, m, size), [poly.ZERO] * n)


def reached(draws, p, n, m, size):
    """The right side is a polynomial combination of the columns, so the least denominator is 1."""
    half = max(1, size // 2)
    matrix = grid(draws, p, n, m, size - half + 1)
    return System(p, matrix, image(matrix, vector(draws, p, m, half), p))


def constants(draws, p, n, m, size):
    """All entries constant: linear algebra over K."""
    return generic(draws, p, n, m, 1)


def chain(p, n, degree):
    """Diagonal x to the degree: d is x to the n times degree."""
    return chain_of(p, [poly.shift(poly.ONE, degree)] * n)


def chain_of(p, diagonal):
    """This diagonal, ones beside it, the last unit vector on the right: d is the product of the diagonal, made monic."""
    n = len(diagonal)
    matrix = [[diagonal[i] if j == i else poly.ONE if j == i + 1 else poly.ZERO for j in range(n)] for i in range(n)]
    return System(p, matrix, [poly.ZERO] * (n - 1) + [poly.ONE])


def delayed_chain(draws, p, n, feedback, delay):
    """A chain whose d has so many factors x as the delay says and without them the degree that the feedback says; its diagonal has n
    polynomials of degrees as equal as can be."""
    is_x = [True] * delay + [False] * feedback
    parts = [is_x[i::n] for i in range(n)]
    return chain_of(p, [poly.shift(not_divisible(draws, p, part.count(False)), part.count(True)) for part in parts])


def not_divisible(draws, p, degree):
    """A polynomial of this degree that has no factor x."""
    return [draws.between(1, p - 1)] + exact(draws, p, degree)


def concealed(draws, system, n, m):
    """The system, square and nonsingular, in n rows and m columns, not fewer than it has, with the same least denominator. Its rows and
    columns are mixed; rows that are added are combinations by constants, columns that are added by polynomials."""
    p, size = system.p, max(len(f) for row in system.matrix for f in row)
    down = mixing_rows(draws, p, n, system.rows(), 1)
    across = transposed(mixing_rows(draws, p, m, system.columns(), LIMIT + 2 - size))
    return System(p, product(down, product(system.matrix, across, p), p), image(down, system.right, p))


def mixing_rows(draws, p, count, r, size):
    """So many rows of r entries, in any order: of r rows a triangle of constants with ones as its diagonal, and others of this size."""
    triangle = [vector(draws, p, i, 1) + [poly.ONE] + [poly.ZERO] * (r - 1 - i) for i in range(r)]
    rows = triangle + grid(draws, p, count - r, r, size)
    return [rows.pop(draws.below(len(rows))) for _ in range(count)]


def another_right(draws, system):
    """One more right side for a system's matrix; d is mostly 1 for columns, and more where a common factor is left out."""
    p, n, matrix = system.p, system.rows(), system.matrix
    size = max([1] + [len(f) for row in matrix for f in row])
    f, g = (system.column(draws.below(system.columns())) for _ in range(2))
    factor = poly.common_divisor(f, p)
    ways = [
        lambda: [poly.ZERO] * n,
        lambda: vector(draws, p, n, size),
        lambda: f,
        lambda: [poly.add(a, poly.scale(draws.below(p), b, p), p) for a, b in zip(f, g)],
        lambda: [poly.exact_quotient(a, factor, p) for a in f] if factor else f,
        lambda: [poly.scale(draws.below(p), b, p) for b in system.right],
        lambda: [exact(draws, p, draws.between(0, size)) if draws.once_in(n) else b for b in system.right],
    ]
    return draws.choose(ways)()


def longest(draws, p):
    """A file as long as any, its matrix a polynomial f times constants, of rank 1. The first right side is a multiple of its columns,
    the second one has the denominator f, and all but the last have solutions."""
    f, down, across = exact(draws, p, 16), *([draws.between(1, p - 1) for _ in range(8)] for _ in range(2))
    matrix = [[poly.scale(a * b, f, p) for b in across] for a in down]
    rights = [f, poly.add(f, poly.ONE, p)] + [exact(draws, p, 16) for _ in range(5)]
    sides = [[poly.scale(a, g, p) for a in down] for g in rights]
    return Systems(p, matrix, sides + [[exact(draws, p, 16) for _ in range(8)]])


def sharing(draws, system, count):
    """So many systems with the matrix of this one: its right side, at any place, and others."""
    sides = [another_right(draws, system) for _ in range(count)]
    sides[draws.below(count)] = system.right
    return Systems(system.p, system.matrix, sides)


STRUCTURES = [
    generic, low_rank, outside, with_zeros, common_factor, powers_of_x, zero_right, reached, constants,
]
