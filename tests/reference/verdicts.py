"""Cases of the stored set `verdicts`: how one is added, and what they are made of. Those of `panel` are made of the same."""

import polynomial as poly
from check import check_values
from samples import STRUCTURES, common_factor, exact, generic, low_rank, powers_of_x, up_to
from says import says_check
from solve import solve
from variants import of_absence, of_certificate, of_system
from words import Absence, Solution, System
from writing import write_certificate, write_system

FRUITFUL = STRUCTURES + [low_rank, common_factor, common_factor, powers_of_x, generic]


def add(cases, system, certificate, side=0):
    """A case on values."""
    add_words(cases, write_system(system), write_certificate(certificate, system), side)


def add_all(cases, pairs):
    """A case on each pair of system and certificate."""
    for system, certificate in pairs:
        add(cases, system, certificate)


def add_words(cases, system_words, certificate_words, side=0):
    """A case on words."""
    cases.add([system_words, certificate_words, [side]], says_check(system_words, certificate_words, side))


def solved(system):
    """A certificate that the check accepts."""
    certificate = solve(system)
    check_values(system, certificate)
    return certificate


def some(draws, options, count):
    """So many of the options, in order."""
    options = list(options)
    while len(options) > count:
        options.pop(draws.below(len(options)))
    return options


def around(draws, system, count):
    """The right certificate of a system, some variants of it, and the certificate for a changed system."""
    certificate = solved(system)
    variants = of_absence if isinstance(certificate, Absence) else of_certificate
    yield system, certificate
    for variant in some(draws, variants(draws, system, certificate), count):
        yield system, variant
    yield of_system(draws, system), certificate


def at_each_place(draws, n, m):
    """One row or column at fault, every place in turn; those behind it may be at fault too."""
    p = draws.choose([2, 3, 257, 65521])
    system = common_factor(draws, p, n, m, 2)
    certificate = Solution([1], [[]] * m, [1], [[]] * n)
    for i in range(n):
        right = [[]] * i + [[1]] + system.right[i + 1:]
        yield System(p, system.matrix, right), certificate
    w = exact(draws, p, draws.between(1, 2)) + [1]
    for j in range(m):
        yield undivided_from(draws, p, n, m, j, w), Solution([1], [[]] * m, w, [[1]] * n)
        i = draws.below(n)
        matrix = [row if k != i else [[]] * j + [[1]] + row[j + 1:] for k, row in enumerate(system.matrix)]
        yield System(p, matrix, system.right), Absence([[1] if k == i else [] for k in range(n)])


def undivided_from(draws, p, n, m, j, w):
    """A system with b zero whose entries are multiples of w before column j, while column j does not add up to one."""
    matrix = []
    for i in range(n):
        before = [poly.scale(draws.below(p), w, p) for _ in range(j)]
        matrix.append(before + [[1] if i == 0 else []] + [up_to(draws, p, 2) for _ in range(j + 1, m)])
    return System(p, matrix, [[]] * n)
