"""Certificates that are right in another way, or nearly right. Each variant is a pair: system, certificate."""

import polynomial as poly
from matrix import determinant, nonsingular_part, part, transposed
from samples import exact, up_to, vector
from solve import relation
from words import Absence, Solution, System


def monic_factor(draws, p):
    """A monic polynomial of degree 1 or 2."""
    return [draws.below(p) for _ in range(draws.between(1, 2))] + [1]


def nudged(draws, f, p):
    """f with one coefficient changed, or one added behind the last."""
    return poly.add(f, poly.shift([draws.between(1, p - 1)], draws.between(0, len(f))), p)


def changed_at(entries, place, f):
    """A list with one entry replaced."""
    return entries[:place] + [f] + entries[place + 1:]


def nudged_entry(draws, entries, p):
    """A list of polynomials with one of them nudged."""
    place = draws.below(len(entries))
    return changed_at(entries, place, nudged(draws, entries[place], p))


def scaled(f, entries, p):
    """A list of polynomials, each times f."""
    return [poly.multiply(f, g, p) for g in entries]


def column_relation(system, draws):
    """A vector with A times it zero: from a column that the independent ones span, else zero."""
    turned = System(system.p, transposed(system.matrix), [])
    return row_relation(turned, draws)


def row_relation(system, draws):
    """A vector with it times A zero: from a row that the independent ones span, else zero."""
    rows, columns = nonsingular_part(system.matrix, system.p)
    others = [i for i in range(system.rows()) if i not in rows]
    if not others:
        return [poly.ZERO] * system.rows()
    core = part(system.matrix, rows, columns)
    return relation(system, draws.choose(others), rows, columns, core, determinant(core, system.p))


def of_certificate(draws, system, c):
    """Variants of a solution that keep the system: first three right ones, then slips of all sorts."""
    p = system.p
    f = monic_factor(draws, p)
    unit = [draws.between(1, p - 1)]
    d, N, w, Z = c
    yield Solution(d, N, poly.multiply(w, f, p), scaled(f, Z, p))
    yield Solution(d, N, w, [poly.add(g, poly.multiply(w, up_to(draws, p, 2), p), p) for g in Z])
    yield Solution(d, [poly.add(g, h, p) for g, h in zip(N, column_relation(system, draws))], w, Z)
    yield Solution(poly.multiply(d, f, p), scaled(f, N, p), w, Z)
    yield Solution(poly.multiply(d, f, p), scaled(f, N, p), poly.multiply(w, f, p), Z)
    yield Solution(poly.multiply(d, unit, p), scaled(unit, N, p), w, Z)
    yield Solution(d, N, poly.multiply(w, unit, p), scaled(unit, Z, p))
    yield Solution(poly.ZERO, N, w, Z)
    yield Solution(d, N, poly.ZERO, Z)
    yield Solution(poly.ZERO, N, poly.ZERO, [poly.ZERO] * len(Z))
    yield Solution(d, nudged_entry(draws, N, p), w, Z)
    yield Solution(nudged(draws, d, p), N, w, Z)
    yield Solution(d, N, nudged(draws, w, p), Z)
    yield Solution(d, N, w, nudged_entry(draws, Z, p))
    yield Solution(d, N, poly.multiply(w, f, p), Z)
    yield Solution(d, N, w, scaled(f, Z, p))
    yield Solution(d, N, w, scaled(d, Z, p))
    yield Solution(d, N, poly.ONE, [poly.ZERO] * len(Z))
    yield Solution(d, N, d, Z)
    yield Solution(d, changed_at(N, draws.below(len(N)), poly.ZERO), w, Z)
    yield Solution(w, N, d, Z)
    yield Absence([poly.ZERO] * len(Z))
    yield Absence(row_relation(system, draws))
    yield Absence(Z)
    yield Absence(vector(draws, p, len(Z), 2))


def of_absence(draws, system, c):
    """Variants of an absence that keep the system: times a factor, plus another relation, then slips."""
    p, n, m = system.p, system.rows(), system.columns()
    yield Absence(scaled(monic_factor(draws, p), c.q, p))
    yield Absence([poly.add(f, g, p) for f, g in zip(c.q, row_relation(system, draws))])
    yield Absence(nudged_entry(draws, c.q, p))
    yield Absence(changed_at(c.q, draws.below(n), poly.ZERO))
    yield Absence([poly.ZERO] * n)
    yield Absence(c.q[1:] + c.q[:1])
    yield Absence(row_relation(system, draws))
    yield Solution(poly.ONE, [poly.ZERO] * m, poly.ONE, [poly.ZERO] * n)
    yield Solution(monic_factor(draws, p), vector(draws, p, m, 2), poly.ONE, c.q)
    yield Solution(poly.ZERO, [poly.ZERO] * m, poly.ONE, c.q)


def of_system(draws, system):
    """The system with one entry of A or b changed, or with another right side that polynomials reach."""
    p, n, m = system.p, system.rows(), system.columns()
    i, j = draws.below(n), draws.below(m)
    f = exact(draws, p, draws.between(1, 2))
    way = draws.below(3)
    if way == 0:
        return System(p, system.matrix, changed_at(system.right, i, poly.add(system.right[i], f, p)))
    if way == 1:
        row = changed_at(system.matrix[i], j, poly.add(system.matrix[i][j], f, p))
        return System(p, changed_at(system.matrix, i, row), system.right)
    return System(p, system.matrix, [row[j] for row in system.matrix])
