"""Every example of document 01 against this implementation, and the laws that its arithmetic and its answers must keep.

Prints how many held; stops at the first that does not.
"""

from itertools import product

import examples
import polynomial as poly
import residue
import words as form
from check import check_values, check_words
from chosen import chosen, shortest_relation, solve_words
from conditions import is_chosen, solves
from damage import damaged
from draws import Draws
from lookup import IN_SYSTEM
from matrix import nonsingular_part
from minors import least_denominator
from panel_limits import certificate_words, multiplied, system_words
from reading import read_both, read_system
from report import feedback_and_delay, report, report_on
from samples import STRUCTURES, concealed, delayed_chain, exact, prime, sharing, up_to, vector
from says import answer, says_certificate, says_check, says_lookup, says_panel, says_system, says_written
from solve import solve
from trials import certificates, polynomials, solutions
from words import Absence, Solution, System, Systems, bytes_of_words
from writing import pairs, write_certificate, write_certificate_values, write_system, write_system_values

held = 0


def expect(found, wanted):
    """Count an example that holds; stop at one that does not."""
    global held
    if found != wanted:
        raise SystemExit(f"found {found!r}, expected {wanted!r}")
    held += 1


def cases():
    """Cases 1 to 10: the check on the printed certificate, kind and d from the solver where it is right; cases 1 to 8 are chosen."""
    for number, system, certificate, says in examples.CASES:
        expect(certificate == chosen(system), number not in examples.NOT_CHOSEN)
        system_words = write_system(system)
        expect(says_check(system_words, write_certificate(certificate, system)), says)
        if says == "accepted":
            found = solve(system)
            expect(type(found), type(certificate))
            expect(check_words(system_words, write_certificate(found, system)), None)
            wanted = certificate.d if isinstance(certificate, Solution) else None
            expect(found.d if isinstance(found, Solution) else None, wanted)
            expect(least_denominator(system), wanted)


def printed_words():
    """The words that document 01 prints for case 1, from the writers and back."""
    _, system, certificate, _ = examples.CASES[0]
    expect(write_system(system), examples.SYSTEM_1_WORDS)
    expect(write_certificate(certificate, system), examples.CERTIFICATE_1_WORDS)
    expect(says_certificate(examples.SYSTEM_1_WORDS, examples.CERTIFICATE_1_WORDS), "solution")


def shared_words():
    """Cases with one matrix as right sides of one file: its words, and on each right side the case's own certificate, chosen too."""
    expect(write_system(examples.SHARED[0][1]), examples.SHARED_WORDS)
    for numbers, systems in examples.SHARED:
        words = write_system(systems)
        for side, number in enumerate(numbers):
            _, system, certificate, _ = examples.CASES[number - 1]
            expect(systems.side(side), system)
            expect(says_check(words, write_certificate(certificate, system), side), "accepted")
            expect(solve_words(words, form.LONGEST_CERTIFICATE, side), write_certificate(certificate, system))


def bounds():
    """Case 11, and the lengths of the longest system and certificate."""
    for words, says in examples.bounds():
        expect(says_system(bytes_of_words(words)), says)
    system = form.Systems(2, [[[1] * 16] * 8] * 8, [[[1] * 16] * 8] * 8)
    expect(len(write_system(system)), form.LONGEST_SYSTEM)
    certificate = Solution([1] * 121, [[1] * 121] * 8, [1] * 121, [[1] * 121] * 8)
    expect(len(write_certificate(certificate, system)), form.LONGEST_CERTIFICATE)


def table():
    """The examples of the table of refusals."""
    for words, says in examples.TABLE_SYSTEMS:
        expect(says_system(bytes_of_words(words)), says)
    expect(says_system(bytes(5)), "refused 10 at 0")
    for words, says in examples.SIDE_SYSTEMS:
        expect(says_system(bytes_of_words(words)), says)
    expect(says_system(bytes(8712)), "refused 1 at 0")
    expect(says_system(bytes(8716)), "refused 10 at 0")
    expect(answer(solve_words, examples.SYSTEM_1_WORDS, 2197), "refused 11 at 0")
    expect(len(solve_words(examples.SYSTEM_1_WORDS, 2198)), 12)
    expect(answer(solve_words, examples.SYSTEM_1_WORDS, 0, 1), "refused 40 at 0")
    expect(answer(solve_words, examples.SYSTEM_1_WORDS[:-1], 0, 1), "refused 4 at 6")
    expect(says_check(examples.SYSTEM_1_WORDS, [], 1), "refused 40 at 0")
    expect(says_check(examples.SYSTEM_1_WORDS[:-1], [], 1), "refused 4 at 6")
    expect(says_lookup(examples.SYSTEM_1_WORDS, examples.CERTIFICATE_1_WORDS, IN_SYSTEM, 2), "refused 12 at 0")
    expect(says_lookup(examples.SYSTEM_1_WORDS, examples.CERTIFICATE_1_WORDS, IN_SYSTEM, 1), "4 to 6: 20000001 30000001")
    for words, says in examples.TABLE_CERTIFICATES:
        expect(says_certificate(examples.SYSTEM_1_WORDS, words), says)
    for system, certificate, says in examples.TABLE_VERDICTS:
        expect(says_check(write_system(system), write_certificate(certificate, system)), says)


def writers():
    """The writers' order of refusals: 1, 2, 3, the first value at fault, and only then 11."""
    one = pairs([[0, 1], [1]])
    expect(says_written(write_system_values, 4, 9, 1, 0, [], 0), "refused 1 at 0")
    expect(says_written(write_system_values, 4, 9, 1, 9, [], 0), "refused 1 at 0")
    expect(says_written(write_system_values, 2, 1, 1, 2, pairs([[1], [1], [0, 2]]), 0), "refused 7 at 7")
    expect(says_written(write_system_values, 4, 9, 1, 1, [], 0), "refused 2 at 0")
    expect(says_written(write_system_values, 2, 9, 1, 1, [], 0), "refused 3 at 0")
    expect(says_written(write_system_values, 2, 1, 1, 1, [(17, []), (1, [1])], 0), "refused 6 at 1")
    expect(says_written(write_system_values, 2, 1, 1, 1, pairs([[1], [0, 2]]), 0), "refused 7 at 5")
    expect(says_written(write_system_values, 2, 1, 1, 1, pairs([[1], [1, 0]]), 0), "refused 8 at 5")
    expect(says_written(write_system_values, 2, 1, 1, 1, one, 2177), "refused 11 at 0")
    expect(says_written(write_system_values, 2, 1, 1, 1, one, 2178)[:7], "wrote 7")
    expect(says_written(write_certificate_values, form.ABSENCE, 2, 1, 1, [(122, [])], 0), "refused 26 at 1")
    expect(says_written(write_certificate_values, form.ABSENCE, 2, 1, 1, [(1, [1])], 2197), "refused 11 at 0")
    expect(says_written(write_certificate_values, form.ABSENCE, 2, 1, 1, [(1, [1])], 2198)[:7], "wrote 4")


def reports():
    """The reports on cases 1 to 8; those on A = (d), b = 1 with d of every kind, and the third line where d is too long for that."""
    expect(report(bytes_of_words(examples.SYSTEM_1_WORDS)), examples.REPORTS[0])
    for (_, system, _, _), lines in zip(examples.CASES, examples.REPORTS):
        expect(report(bytes_of_words(write_system(system))), lines)
    for p, d, line in examples.THIRD_LINES:
        denominator = "denominator " + " ".join(map(str, d))
        expect(report_on(Solution(d, [poly.ONE], d, [poly.ONE]), p), ["answer solution", denominator, line])
        if len(d) <= form.SYSTEM_LIMIT:
            expect(report(bytes_of_words(write_system(System(p, [[d]], [poly.ONE])))), ["answer solution", denominator, line])


def delays():
    """Feedback and delay of random polynomials: their sum is the degree, both add up in products, and x to the delay is what a
    polynomial has in common with a higher power of x."""
    draws = Draws(0xDE1A)
    for _ in range(200):
        p = prime(draws)
        f, g = (poly.shift(exact(draws, p, draws.between(1, 20)), draws.below(20)) for _ in range(2))
        feedback, delay = feedback_and_delay(f, p)
        expect(feedback + delay, poly.degree(f))
        expect(poly.gcd(f, poly.shift(poly.ONE, len(f)), p), poly.shift(poly.ONE, delay))
        more, later = feedback_and_delay(g, p)
        expect(feedback_and_delay(poly.multiply(f, g, p), p), (feedback + more, delay + later))


def primes():
    """The primes of 16 bits, by a sieve."""
    marked = [False, False] + [True] * 65534
    for a in range(2, 256):
        for b in range(2 * a, 65536, a):
            marked[b] = False
    expect([residue.is_prime(a) for a in range(65536)], marked)


def packed(f):
    """A polynomial as one large integer: its value at 2 to the 64th."""
    return sum(a << 64 * i for i, a in enumerate(f))


def unpacked(value, p):
    """The polynomial whose coefficients are the 64-bit digits of an integer, modulo p."""
    digits = []
    while value:
        digits.append(value % (1 << 64))
        value >>= 64
    return poly.canonical(digits, p)


def arithmetic():
    """Sums and products agree with those of large integers; quotient, remainder and gcd keep their laws."""
    draws = Draws(0x5E1F)
    for _ in range(200):
        p = prime(draws)
        f, g = up_to(draws, p, 40), exact(draws, p, draws.between(1, 30))
        expect(poly.add(f, g, p), unpacked(packed(f) + packed(g), p))
        expect(poly.multiply(f, g, p), unpacked(packed(f) * packed(g), p))
        expect(poly.add(poly.subtract(f, g, p), g, p), f)
        quotient, rest = poly.divide(f, g, p)
        expect((poly.add(poly.multiply(quotient, g, p), rest, p), len(rest) < len(g)), (f, True))
        h = poly.gcd(f, g, p)
        parts = poly.exact_quotient(f, h, p), poly.exact_quotient(g, h, p)
        expect((poly.is_monic(h), poly.gcd(*parts, p)), (True, poly.ONE))


def solver():
    """Random systems: the certificate passes the check, survives writing and reading, and d agrees with the formula by minors."""
    draws = Draws(0x501E)
    for _ in range(300):
        structure = draws.choose(STRUCTURES)
        system = structure(draws, prime(draws), draws.between(1, 5), draws.between(1, 5), draws.between(1, 6))
        certificate = solve(system)
        expect(check_values(system, certificate), None)
        alone = Systems(system.p, system.matrix, [system.right])
        expect(read_both(write_system(system), write_certificate(certificate, system)), (alone, certificate))
        expect(certificate.d if isinstance(certificate, Solution) else None, least_denominator(system))


def sides():
    """Random systems that share a matrix: they survive writing and reading, and the certificate of a right side is that of its system
    alone, at another place among the right sides too, and where all the others are changed; the check accepts it there."""
    draws = Draws(0x51DE)
    for k in range(60):
        system = draws.choose(STRUCTURES)(draws, prime(draws), draws.between(1, 4), draws.between(1, 4), draws.between(1, 4))
        systems = sharing(draws, system, 1 + k % 8)
        words, count = write_system(systems), len(systems.sides)
        expect(read_system(words), systems)
        expect(len(words), 2 + sum(1 + len(f) for f in systems.polynomials()))
        expect(answer(solve_words, words, 0, count), "refused 40 at 0")
        expect(says_check(words, [], count), "refused 40 at 0")
        side, place = draws.below(count), draws.below(count)
        found = solve_words(words, form.LONGEST_CERTIFICATE, side)
        expect(found, solve_words(write_system(systems.side(side)), form.LONGEST_CERTIFICATE))
        expect(found, write_certificate(chosen(systems.side(side)), systems))
        others = sharing(draws, system, count).sides
        for changed in (systems.sides[side - place:] + systems.sides[:side - place], others):
            changed[place] = systems.sides[side]
            words = write_system(Systems(system.p, system.matrix, changed))
            expect(solve_words(words, form.LONGEST_CERTIFICATE, place), found)
            expect(says_check(words, found, place), "accepted")


def panel_examples():
    """Document 02, item 4, by hand: the order of 10, the words, 41 and 31 to 36, and each limit."""
    system, certificate = bytes_of_words(examples.SYSTEM_1_WORDS), bytes_of_words(examples.CERTIFICATE_1_WORDS)
    shared, different = bytes_of_words(examples.SHARED_WORDS), bytes_of_words(certificate_words(examples.CASES[8][2], 2))
    for first, second, says in (
        (system, certificate, "accepted"), (system, different, "refused 34 at 0"), (shared, different, "refused 25 at 13"),
        (b"", b"", "refused 4 at 0"), (system, b"", "refused 24 at 0"), (shared, b"", "refused 24 at 0"),
        (system + bytes(100000), certificate, "refused 9 at 7"), (system, certificate + bytes(100000), "refused 29 at 12"),
        (system + bytes(3), certificate, "refused 10 at 0"), (bytes(4), certificate + bytes(1), "refused 10 at 0"),
        (bytes(8716), b"", "refused 1 at 0"), (bytes(8717), b"", "refused 10 at 0"),
    ):
        expect(says_panel(first, second), says)
    for n, m, sides, size, longest, says in (
        (4, 4, 1, 8, 29, "accepted"), (5, 4, 1, 8, 29, "refused 41 at 0"), (4, 5, 1, 8, 29, "refused 41 at 0"),
        (4, 4, 2, 8, 29, "refused 41 at 0"), (4, 4, 8, 8, 29, "refused 41 at 0"), (4, 4, 9, 8, 29, "refused 1 at 0"),
        (4, 4, 1, 9, 29, "refused 41 at 0"), (4, 4, 1, 16, 29, "refused 41 at 0"), (4, 4, 1, 17, 29, "refused 6 at 1"),
        (4, 4, 1, 8, 30, "refused 41 at 1"), (4, 4, 1, 8, 121, "refused 41 at 1"), (4, 4, 1, 8, 122, "refused 26 at 7"),
        (4, 4, 1, 9, 30, "refused 41 at 0"), (4, 4, 1, 9, 122, "refused 26 at 7"), (4, 4, 1, 17, 122, "refused 6 at 1"),
    ):
        words = system_words(Systems(2, [[[1] * size] * m] * n, [[[]] * n] * sides))
        right = certificate_words(Solution([1], [[]] * m, [1] * longest, [[]] * n), 2)
        expect(says_panel(bytes_of_words(words), bytes_of_words(right)), says)


def longest_polynomial(words):
    """The largest number of coefficients that a start word says."""
    return max([form.payload_of(w) for w in words if form.kind_of(w) == form.START], default=0)


def panel_laws():
    """Random systems and certificates, whole or damaged: the panel says what the office says for right side 0, but for 41 where both are
    read; what that depends on stands in the head of the system and in the start words. 302 words never decide alone."""
    draws = Draws(0x9A4E)
    for k in range(400):
        p, size = prime(draws), draws.choose([2, 3, 7, 8, 9])
        system = draws.choose(STRUCTURES)(draws, p, *(draws.between(1, 5 if size < 4 else 2) for _ in range(2)), size)
        certificate = solve(system)
        if k % 2:
            certificate = multiplied(draws, certificate, p, draws.between(28, 31) if size < 4 else 40)
        given = write_system(sharing(draws, system, 2) if draws.once_in(8) else system)
        words = write_certificate(certificate, system)
        if k % 3 == 0:
            given, words = (damaged(draws, given, p, 16), words) if draws.once_in(3) else (given, damaged(draws, words, p, 121))
        found, office = says_panel(bytes_of_words(given), bytes_of_words(words)), says_check(given, words)
        small = given and all(given[0] >> bit & 15 <= most for bit, most in ((16, 4), (20, 4), (24, 0))) and longest_polynomial(given) <= 8
        short = longest_polynomial(words) <= 29
        read = not says_certificate(given, words).startswith("refused")
        expect(found, office if not read or small and short else f"refused 41 at {1 if small else 0}")
        expect(found == "accepted", bool(office == "accepted" and small and short))
        expect(bool(read and small and short and len(words) > 302), False)


def shuffled(draws, system):
    """The system with its columns in another order."""
    order = list(range(system.columns()))
    order = [order.pop(draws.below(len(order))) for _ in system.matrix[0]]
    return System(system.p, [[row[j] for j in order] for row in system.matrix], system.right)


def without_numerators(certificate):
    """What of a certificate does not depend on the order of the columns."""
    return certificate if isinstance(certificate, Absence) else certificate._replace(N=None)


def conditions():
    """Random systems: the chosen certificate is right and keeps the conditions, and all but N is the same for every order of columns."""
    draws = Draws(0xC405)
    for k in range(240):
        p = 2 if k % 3 == 0 else prime(draws)
        system = draws.choose(STRUCTURES)(draws, p, draws.between(1, 4), draws.between(1, 6), draws.between(1, 6))
        certificate = chosen(system)
        expect(check_values(system, certificate), None)
        expect(is_chosen(system, certificate), True)
        expect(without_numerators(chosen(shuffled(draws, system))), without_numerators(certificate))


def small_systems(draws):
    """Systems with the number of coefficients up to which certificates are tried: all of some shapes, and drawn ones."""
    for n, m, size, room in ((1, 1, 3, 4), (1, 2, 2, 3), (2, 1, 2, 3)):
        for entries in product(polynomials(2, size), repeat=n * m + n):
            yield System(2, [list(entries[m * i:m * i + m]) for i in range(n)], list(entries[n * m:])), room
    for p, n, m, size, room, count in ((2, 2, 2, 2, 3, 200), (3, 1, 2, 2, 2, 40), (2, 1, 3, 2, 2, 40), (2, 3, 1, 2, 2, 40)):
        for _ in range(count):
            yield System(p, [vector(draws, p, m, size) for _ in range(n)], vector(draws, p, n, size)), room


def uniqueness():
    """Small systems: of all certificates that can be written down, one alone keeps the conditions, and it is the chosen one."""
    for system, room in small_systems(Draws(0xC406)):
        expect(certificates(system, room), [chosen(system)])


def delayed(draws):
    """A system, mostly with more columns than its rank, that is made to have a drawn feedback and a drawn delay; and these two."""
    p, r = prime(draws), draws.between(1, 3)
    feedback, delay = draws.between(0, 3 * r), draws.between(0, 3 * r)
    system = concealed(draws, delayed_chain(draws, p, r, feedback, delay), draws.between(r, 4), draws.between(r, 5))
    return system, feedback, delay


def other_solutions(draws, system, certificate):
    """Rational solutions M/e, as pairs of e and M: N/d plus fractions of vectors v with A·v = 0, and those without one of the columns."""
    p, m = system.p, system.columns()
    independent = nonsingular_part(system.matrix, p)[1]
    kernel = [shortest_relation(system, j) for j in range(m) if j not in independent]
    for _ in range(4):
        h = poly.shift(exact(draws, p, draws.between(1, 3)), draws.below(3))
        M = [poly.multiply(h, f, p) for f in certificate.N]
        for v in kernel:
            g = up_to(draws, p, 4)
            M = [poly.add(f, poly.multiply(g, a, p), p) for f, a in zip(M, v)]
        yield poly.multiply(h, certificate.d, p), M
    for j in range(m if m > 1 else 0):
        found = solve(System(p, [row[:j] + row[j + 1:] for row in system.matrix], system.right))
        if isinstance(found, Solution):
            yield found.d, found.N[:j] + [poly.ZERO] + found.N[j:]


def has_less(e, M, feedback, delay, p):
    """Whether the denominator of M/e has less feedback than this, or less delay."""
    denominator = poly.exact_quotient(e, poly.common_divisor([e] + M, p), p)
    found = feedback_and_delay(denominator, p)
    return found[0] < feedback or found[1] < delay


def least_of_both():
    """No rational solution has less feedback or less delay than d: others of random systems that are made to have both, and all of small
    systems that can be written down."""
    draws = Draws(0xDE1B)
    for _ in range(120):
        system, feedback, delay = delayed(draws)
        certificate = solve(system)
        expect(feedback_and_delay(certificate.d, system.p), (feedback, delay))
        for e, M in other_solutions(draws, system, certificate):
            expect(solves(system, e, M), True)
            expect(has_less(e, M, feedback, delay, system.p), False)
    for system, room in small_systems(Draws(0xC406)):
        certificate = solve(system)
        if isinstance(certificate, Solution):
            feedback, delay = feedback_and_delay(certificate.d, system.p)
            expect([(e, M) for e, M in solutions(system, room) if has_less(e, M, feedback, delay, system.p)], [])


def main():
    """Run all tests."""
    for test in (
        cases, printed_words, shared_words, bounds, table, writers, reports, primes, arithmetic, delays, solver, sides, conditions,
        uniqueness, least_of_both, panel_examples, panel_laws,
    ):
        test()
    print(f"{held} examples and laws hold")


if __name__ == "__main__":
    main()
