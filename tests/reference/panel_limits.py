"""The part of the stored set `panel` on the panel's limits: on both sides of each, with certificates that are right but for it. What a
case is to say follows from how it is made; `panel.py` must say the same."""

import polynomial as poly
import words as form
from check import check_values
from column_verdicts import lengthened, monic
from draws import Draws
from panel import CERTIFICATE_LIMIT, LONGEST_CERTIFICATE, MOST_ROWS_OR_COLUMNS, SYSTEM_LIMIT
from reading import ON_CERTIFICATE, ON_SYSTEM
from samples import STRUCTURES, another_right, chain, exact, grid, up_to, vector
from says import says_panel
from variants import changed_at, nudged_entry, scaled
from verdicts import solved
from words import Absence, Solution, System, Systems, bytes_of_words
from writing import pairs, written

ACCEPTED, SYSTEM_TOO_LARGE, CERTIFICATE_TOO_LARGE = "accepted", "refused 41 at 0", "refused 41 at 1"
SHAPES = ((2, 1, 1), (257, 2, 3), (65521, 4, 4))  # prime, rows, columns
ANY_SIZE = 1 << 28
LONGEST_SYSTEM = 182


def system_words(system):
    """The words of a system, also where the office would refuse it: polynomials may be too long, and right sides too many."""
    sizes = system.rows() << 16 | system.columns() << 20 | len(system.sides) - 1 << 24
    return written(form.word(form.SYSTEM_HEAD, system.p | sizes), system.p, pairs(system.polynomials()), ANY_SIZE, ON_SYSTEM)


def certificate_words(certificate, p):
    """The words of a certificate, also where its polynomials are too long for the office."""
    kind = form.ABSENCE if isinstance(certificate, Absence) else form.SOLUTION
    return written(form.word(form.CERTIFICATE_HEAD, kind), p, pairs(certificate.polynomials()), ANY_SIZE, ON_CERTIFICATE)


def add_bytes(cases, system, certificate, says=None):
    """A case on bytes, and what it is to say, where that is known."""
    found = says_panel(system, certificate)
    if says not in (None, found):
        raise SystemExit(f"not {says}, but {found}: {system.hex()} {certificate.hex()}")
    cases.add([system, certificate], found)


def add_words(cases, system, certificate, says=None):
    """A case on words."""
    add_bytes(cases, bytes_of_words(system), bytes_of_words(certificate), says)


def add(cases, system, certificate, says=None):
    """A case on values."""
    add_words(cases, system_words(system), certificate_words(certificate, system.p), says)


def nothing(n, m):
    """The certificate of y = 0, which is right where b is zero."""
    return Solution(poly.ONE, [poly.ZERO] * m, poly.ONE, [poly.ZERO] * n)


def drawn(draws, p, n, m, size, kind):
    """A system, drawn until its certificate is of this kind, and that certificate."""
    while True:
        system = draws.choose(STRUCTURES)(draws, p, n, m, size)
        certificate = solved(system)
        if isinstance(certificate, kind):
            return system, certificate


def shapes(cases, draws):
    """Up to 5 rows and columns, and 8: solutions and absences that the office accepts."""
    sizes = [(n, m) for n in range(1, 6) for m in range(1, 6)] + [(1, 8), (8, 1), (8, 8)]
    for n, m in sizes:
        for p in (2, 257, 65521):
            for kind in (Solution, Absence):
                system, certificate = drawn(draws, p, n, m, draws.between(1, 3), kind)
                add(cases, system, certificate, ACCEPTED if max(n, m) <= MOST_ROWS_OR_COLUMNS else SYSTEM_TOO_LARGE)


def with_sizes(draws, p, n, m, size):
    """For each polynomial of a system one in which it has this size and all others at most 2, with a certificate."""
    for i in range(n):
        for j in range(m):
            matrix = grid(draws, p, n, m, 2)
            matrix[i][j] = exact(draws, p, size)
            yield System(p, matrix, [poly.ZERO] * n), nothing(n, m)
    for i in range(n):
        f = exact(draws, p, size)
        unit, right = ([g if k == i else poly.ZERO for k in range(n)] for g in (poly.ONE, f))
        matrix = [[a] + vector(draws, p, m - 1, 2) for a in unit]
        yield System(p, matrix, right), nothing(n, m)._replace(N=[f] + [poly.ZERO] * (m - 1))


def system_sizes(cases, draws):
    """8 and 9, 16 and 17 coefficients in each polynomial of a system."""
    for p, n, m in SHAPES:
        for size in (SYSTEM_LIMIT, SYSTEM_LIMIT + 1, form.SYSTEM_LIMIT, form.SYSTEM_LIMIT + 1):
            for number, (system, certificate) in enumerate(with_sizes(draws, p, n, m, size)):
                if size <= form.SYSTEM_LIMIT:
                    add(cases, system, certificate, ACCEPTED if size <= SYSTEM_LIMIT else SYSTEM_TOO_LARGE)
                else:
                    add(cases, system, certificate, f"refused 6 at {start(system.polynomials(), number)}")


def start(polynomials, number):
    """The place at which this polynomial starts."""
    return 1 + sum(1 + len(f) for f in polynomials[:number])


def right_sides(cases, draws):
    """1 to 16 right sides, the first of them with a certificate; and one that is right for the second alone."""
    for p, n, m in SHAPES:
        for kind in (Solution, Absence):
            system, certificate = drawn(draws, p, n, m, 3, kind)
            for count in (1, 2, 3, 7, 8, 9, 16):
                sides = [system.right] + [another_right(draws, system) for _ in range(count - 1)]
                says = ACCEPTED if count == 1 else SYSTEM_TOO_LARGE if count <= form.MOST_SIDES else "refused 1 at 0"
                add(cases, Systems(p, system.matrix, sides), certificate, says)
            add(cases, Systems(p, system.matrix, [vector(draws, p, n, 2), system.right]), certificate, SYSTEM_TOO_LARGE)


def certificate_sizes(cases, draws):
    """29 and 30, 121 and 122 coefficients in each polynomial of a certificate. With A and b zero all are right but those with another d,
    which is 34; with A zero all absences are."""
    for p, n, m in SHAPES:
        zero = System(p, [[poly.ZERO] * m] * n, [poly.ZERO] * n)
        none = System(p, zero.matrix, [poly.ONE] * n)
        for size in (CERTIFICATE_LIMIT, CERTIFICATE_LIMIT + 1, form.CERTIFICATE_LIMIT, form.CERTIFICATE_LIMIT + 1):
            for number in range(n + m + 2):
                values = changed_at(nothing(n, m).polynomials(), number, monic(draws, p, size - 1))
                certificate = Solution(values[0], values[1:m + 1], values[m + 1], values[m + 2:])
                add(cases, zero, certificate, says_size(certificate, number, size, ACCEPTED if number > 0 else "refused 34 at 0"))
            for number in range(n):
                certificate = Absence(changed_at([poly.ZERO] * n, number, exact(draws, p, size)))
                add(cases, none, certificate, says_size(certificate, number, size, ACCEPTED))


def says_size(certificate, number, size, otherwise):
    """What is said of a certificate whose polynomial of this number alone may be too long."""
    if size > form.CERTIFICATE_LIMIT:
        return f"refused 26 at {start(certificate.polynomials(), number)}"
    return CERTIFICATE_TOO_LARGE if size > CERTIFICATE_LIMIT else otherwise


def multiplied(draws, certificate, p, size):
    """The certificate with w and Z, or q, times one monic polynomial, so that the longest of them has this size: right again."""
    grown = certificate.q if isinstance(certificate, Absence) else [certificate.w] + certificate.Z
    f = monic(draws, p, size - max(map(len, grown)))
    if isinstance(certificate, Absence):
        return Absence(scaled(f, certificate.q, p))
    return certificate._replace(w=poly.multiply(f, certificate.w, p), Z=scaled(f, certificate.Z, p))


def multiples(cases, draws):
    """Right certificates whose polynomials are multiplied up to the panel's limit and beyond, where the office still accepts them, and
    beyond the office's."""
    for p, n, m in SHAPES + ((3, 3, 2),):
        for kind in (Solution, Absence):
            system, certificate = drawn(draws, p, n, m, 3, kind)
            for size in (28, 29, 30, 31, 60, 120, 121):
                longer = multiplied(draws, certificate, p, size)
                check_values(system, longer)
                add(cases, system, longer, ACCEPTED if size <= CERTIFICATE_LIMIT else CERTIFICATE_TOO_LARGE)
            add(cases, system, multiplied(draws, certificate, p, 122))


def longest_pair(draws, p):
    """A system of 182 words and a right certificate of 302: all polynomials are as long as they may be. Modulo 2 those of the system may
    be shorter: if all leading coefficients were 1, d would be."""
    def entries():
        return [poly.canonical(exact(draws, p, SYSTEM_LIMIT - 1) + [draws.between(p > 2, p - 1)], p) for _ in range(4)]
    while True:
        system = System(p, [entries() for _ in range(4)], entries())
        certificate = solved(system)
        if isinstance(certificate, Solution) and all(len(f) == CERTIFICATE_LIMIT for f in [certificate.d] + certificate.N):
            return system, certificate._replace(Z=lengthened(draws, p, certificate.w, certificate.Z, CERTIFICATE_LIMIT))


def longest(cases, draws):
    """The longest system and certificate that the panel takes: as they are, nearly right, and longer by one coefficient or word."""
    for p in (2, 257, 65521):
        system, right = longest_pair(draws, p)
        given, words = system_words(system), certificate_words(right, p)
        if len(given) != LONGEST_SYSTEM and p > 2 or len(words) != LONGEST_CERTIFICATE:
            raise SystemExit(f"panel: {len(given)} and {len(words)} words modulo {p}")
        add_words(cases, given, words, ACCEPTED)
        add_words(cases, given + [0], words, f"refused 9 at {len(given)}")
        add_words(cases, given, words + [0], f"refused 29 at {len(words)}")
        add_words(cases, given[:-1], words, f"refused 4 at {len(given) - 1}")
        add_words(cases, given, words[:-1], f"refused 24 at {len(words) - 1}")
        for variant in (
            right._replace(N=nudged_entry(draws, right.N, p)), right._replace(Z=nudged_entry(draws, right.Z, p)),
            right._replace(w=right.d, Z=right.N), Absence(right.Z), Absence(right.N),
        ):
            add(cases, system, variant)
        larger = System(p, system.matrix, scaled(poly.shift(poly.ONE, SYSTEM_LIMIT), system.right, p))
        add(cases, system, multiplied(draws, right, p, CERTIFICATE_LIMIT + 1), CERTIFICATE_TOO_LARGE)
        add(cases, larger, right, SYSTEM_TOO_LARGE)
        add(cases, larger, solved(larger), SYSTEM_TOO_LARGE)


def chains(cases):
    """d of the highest degree that a system of the panel can have, which is 28; those that have more are too large themselves."""
    for p in (2, 65521):
        for n, degree in ((4, 7), (3, 7), (4, 8), (5, 7), (8, 15)):
            system = chain(p, n, degree)
            add(cases, system, solved(system), ACCEPTED if n <= 4 and degree <= 7 else SYSTEM_TOO_LARGE)


def longest_of_office(cases, draws):
    """The longest system of the office, and the longest certificates that it takes for that and for a system of the panel."""
    p = 65521
    matrix = [[exact(draws, p, 16) for _ in range(8)] for _ in range(8)]
    systems = Systems(p, matrix, [[row[k] for row in matrix] for k in range(8)])
    given = system_words(systems)
    right = certificate_words(nothing(8, 8)._replace(N=[poly.ONE] + [poly.ZERO] * 7), p)
    add_words(cases, given, right, SYSTEM_TOO_LARGE)
    add_words(cases, given + [0], right, f"refused 9 at {form.LONGEST_SYSTEM}")
    for n, says in ((8, SYSTEM_TOO_LARGE), (4, CERTIFICATE_TOO_LARGE)):
        zero = System(p, [[poly.ZERO] * n] * n, [poly.ZERO] * n)
        f = monic(draws, p, form.CERTIFICATE_LIMIT - 1)
        words = certificate_words(Solution(f, [f] * n, f, [f] * n), p)
        add_words(cases, system_words(zero), words, says)
        add_words(cases, system_words(zero), words + [0], f"refused 29 at {len(words)}")


def numerators(cases, draws):
    """Solutions of any length: N plus multiples of a vector that A takes to zero."""
    for p in (2, 257, 65521):
        for size in (28, 29, 30, 121):
            f, g = exact(draws, p, 2), up_to(draws, p, 3)
            system = System(p, [[f, f], [f, f]], [poly.multiply(f, g, p)] * 2)
            h = exact(draws, p, size)
            N = [poly.add(h, g, p), poly.scale(-1, h, p)]
            says = ACCEPTED if size <= CERTIFICATE_LIMIT else CERTIFICATE_TOO_LARGE
            add(cases, system, nothing(2, 2)._replace(N=N), says)


def add_limits(cases):
    """Add them all."""
    draws = Draws(0x1329)
    for part in (
        shapes, system_sizes, right_sides, certificate_sizes, multiples, longest, longest_of_office, numerators,
    ):
        part(cases, draws)
    chains(cases)
