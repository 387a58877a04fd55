"""The stored set `panel`: a case is two lists, the bytes of a system and of a certificate; the answer is that of the panel's check."""

import examples
import polynomial as poly
import words as form
from cases import PANEL_CHECK, CaseSet
from damage import damaged, noise, replaced
from draws import Draws
from panel_limits import (
    ACCEPTED, CERTIFICATE_TOO_LARGE, SYSTEM_TOO_LARGE, add, add_bytes, add_limits, add_words, certificate_words, multiplied, nothing,
    system_words,
)
from samples import chain_of, prime, sharing
from searched import with_denominator
from variants import scaled
from verdicts import FRUITFUL, around, at_each_place, solved
from words import Absence, Solution, System, Systems, bytes_of_words

ROOM = 65536  # bytes of a list for which the program that runs the stored cases has room
FIRST_SYSTEM, FIRST_CERTIFICATE = bytes_of_words(examples.SYSTEM_1_WORDS), bytes_of_words(examples.CERTIFICATE_1_WORDS)


def from_document(cases):
    """Document 01's cases and the examples of its table; several right sides; case 11."""
    for _, system, certificate, says in examples.CASES:
        add(cases, system, certificate, says)
    for system, certificate, says in examples.TABLE_VERDICTS:
        add(cases, system, certificate, says)
    for words, says in examples.TABLE_CERTIFICATES:
        add_words(cases, examples.SYSTEM_1_WORDS, words, says)
    for words, says in examples.TABLE_SYSTEMS + examples.SIDE_SYSTEMS[1:]:
        add_words(cases, words, examples.CERTIFICATE_1_WORDS, says)
    for numbers, systems in examples.SHARED:
        for number in sorted(set(numbers)):
            add(cases, systems, examples.CASES[number - 1][2], SYSTEM_TOO_LARGE)
    for words, says in examples.bounds():
        read = says.startswith("read")
        n, m = map(int, says.split()[2:4]) if read else (1, 1)
        add_words(cases, words, certificate_words(nothing(n, m), 2), None if read else says)


def verdicts(cases, draws):
    """All shapes of the panel: right certificates and nearly right ones; one row or column at fault, every place in turn."""
    for n in range(1, 5):
        for m in range(1, 5):
            any_system = draws.choose(FRUITFUL)(draws, prime(draws), n, m, draws.between(1, 4))
            for system in (any_system, with_denominator(draws, n, m, draws.between(2, 5))):
                for pair in around(draws, system, 7):
                    add(cases, *pair)
    for n, m in ((4, 4), (4, 1), (1, 4)):
        for pair in at_each_place(draws, n, m):
            add(cases, *pair)


def too_large(system):
    """Systems like this one that have more rows, columns, coefficients of A or b, or right sides than the panel takes."""
    p, matrix, right = system
    zeros = [poly.ZERO] * 3
    yield System(p, matrix + [[poly.ZERO] * system.columns()] * 3, right + zeros)
    yield System(p, [row + zeros for row in matrix], right)
    yield System(p, [scaled([0] * 7 + poly.ONE, row, p) for row in matrix], right)
    yield System(p, matrix, scaled([1] * 9, right, p))
    yield Systems(p, matrix, [right, right])


def nearly_right(certificate, p):
    """Variants of a solution with a denominator, each with the number that refuses it."""
    d, N, w, Z = certificate
    yield 31, certificate._replace(d=poly.ZERO)
    yield 31, certificate._replace(w=poly.scale(2, w, p))
    yield 32, certificate._replace(N=[poly.ZERO] * len(N))
    yield 33, certificate._replace(w=poly.shift(w, 9), Z=[poly.ONE] * len(Z))
    yield 34, Solution(poly.shift(d, 1), scaled(poly.X, N, p), w, Z)
    yield 34, certificate._replace(w=poly.ONE, Z=[poly.ZERO] * len(Z))
    yield 35, Absence([poly.ONE] * len(Z))
    yield 36, Absence([poly.ZERO] * len(Z))


def unreadable(words, p):
    """The words of a solution at fault in each way, and what is said of them."""
    last, end = 1 + form.payload_of(words[1]), len(words) - 1
    yield [], "refused 24 at 0"
    yield replaced(words, 0, form.word(form.CERTIFICATE_HEAD, 3)), "refused 21 at 0"
    yield words[:-1], f"refused 24 at {end}"
    yield replaced(words, 1, form.word(form.COEFFICIENT, 1)), "refused 25 at 1"
    yield replaced(words, 1, form.word(form.START, 122)), "refused 26 at 1"
    yield replaced(words, 2, form.word(form.COEFFICIENT, p)), "refused 27 at 2"
    yield replaced(words, last, form.word(form.COEFFICIENT, 0)), f"refused 28 at {last}"
    yield replaced(words, end, form.word(form.END, end)), f"refused 29 at {end}"
    yield words + [0], f"refused 29 at {end + 1}"


def of_fitting(cases, draws):
    """A system that the panel takes: the certificate's words come before 41, and 41 before 31 to 36."""
    p, system = 3, chain_of(3, [[0, 1], [1, 1]])
    right = solved(system)
    longer = multiplied(draws, right, p, 30)
    add(cases, system, right, ACCEPTED)
    for number, variant in nearly_right(right, p):
        add(cases, system, variant)
        if not cases.lines[-1].startswith(f"refused {number} "):
            raise SystemExit(f"panel: {cases.lines[-1]} instead of {number}")
        if number != 36:
            add(cases, system, multiplied(draws, variant, p, 30), CERTIFICATE_TOO_LARGE)
    for certificate in (right, longer):
        for words, says in unreadable(certificate_words(certificate, p), p):
            add_words(cases, system_words(system), words, says)


def of_too_large(cases, draws):
    """A system that is too large: the certificate's words come before 41, but neither its size nor 31 to 36."""
    for system in too_large(chain_of(3, [[0, 1], [1, 1]])):
        p, right = system.p, solved(System(system.p, system.matrix, system.sides[0]))
        for certificate in [right] + [variant for _, variant in nearly_right(right, p)]:
            add(cases, system, certificate, SYSTEM_TOO_LARGE)
        for size in (29, 30, 121):
            add(cases, system, multiplied(draws, right, p, size), SYSTEM_TOO_LARGE)
        for words, says in unreadable(certificate_words(right, p), p):
            add_words(cases, system_words(system), words, says)


def of_unreadable(cases, draws):
    """A system at fault comes before all that is wrong with the certificate but its byte count."""
    longer = certificate_words(multiplied(draws, examples.CASES[0][2], 2, 30), 2)
    others = [longer, [], [0x50000003], longer[:-1], certificate_words(examples.CASES[8][2], 2)]
    for words, says in examples.TABLE_SYSTEMS + [(examples.SYSTEM_1_WORDS + [0], "refused 9 at 7")]:
        for certificate in others:
            add_words(cases, words, certificate, says)
        add_bytes(cases, bytes_of_words(words), FIRST_CERTIFICATE[:-1], "refused 10 at 0")


def byte_counts(cases):
    """Byte counts that are no multiples of four: of one buffer or of both, cut and lengthened, whatever the other one holds."""
    for first in range(4):
        for second in range(4):
            says = "refused 10 at 0" if first or second else ACCEPTED
            add_bytes(cases, FIRST_SYSTEM + bytes(first), FIRST_CERTIFICATE + bytes(second), says)
            add_bytes(cases, FIRST_SYSTEM[:len(FIRST_SYSTEM) - first], FIRST_CERTIFICATE[:len(FIRST_CERTIFICATE) - second], says)
            add_bytes(cases, bytes(first), bytes(second), says if first or second else "refused 4 at 0")
    shared = bytes_of_words(examples.SHARED_WORDS)
    for other in (b"", bytes(4), shared, FIRST_SYSTEM[:-4], FIRST_CERTIFICATE[:-4], FIRST_CERTIFICATE):
        for count in (1, 2, 3):
            add_bytes(cases, other, FIRST_CERTIFICATE + bytes(count), "refused 10 at 0")
            add_bytes(cases, FIRST_SYSTEM + bytes(count), other, "refused 10 at 0")


def filled(data, count):
    """So many bytes: the data, and zeros behind."""
    return data + bytes(count - len(data))


def long_buffers(cases):
    """Buffers longer than any file of a system may be, and than any certificate is: no 10, but 9 and 29 at the first word behind."""
    behind_system, behind_certificate = "refused 9 at 7", "refused 29 at 12"
    for count in (8712, 8716, 8796, 20000):
        system, certificate = filled(FIRST_SYSTEM, count), filled(FIRST_CERTIFICATE, count)
        add_bytes(cases, system, FIRST_CERTIFICATE, behind_system)
        add_bytes(cases, system, b"", behind_system)
        add_bytes(cases, FIRST_SYSTEM, certificate, behind_certificate)
        add_bytes(cases, system, certificate, behind_system)
        add_bytes(cases, bytes(count), FIRST_CERTIFICATE, "refused 1 at 0")
        add_bytes(cases, FIRST_SYSTEM, bytes(count), "refused 21 at 0")
    for count in (8713, 8718, 20003):
        add_bytes(cases, filled(FIRST_SYSTEM, count), FIRST_CERTIFICATE, "refused 10 at 0")
        add_bytes(cases, FIRST_SYSTEM, filled(FIRST_CERTIFICATE, count), "refused 10 at 0")
    add_bytes(cases, filled(FIRST_SYSTEM, ROOM - 4), FIRST_CERTIFICATE, behind_system)


def empty(cases):
    """No bytes at all: 4 at 0 of the system, whatever the certificate is, and 24 at 0 of the certificate."""
    for certificate in (b"", FIRST_CERTIFICATE, bytes(4)):
        add_bytes(cases, b"", certificate, "refused 4 at 0")
    for system in (FIRST_SYSTEM, bytes_of_words(examples.SHARED_WORDS)):
        add_bytes(cases, system, b"", "refused 24 at 0")


def damaged_words(cases, draws):
    """Right certificates, most of the panel's size, with damage to their words, to the system's, or to both; words never right."""
    for k in range(160):
        p = prime(draws)
        system = draws.choose(FRUITFUL)(draws, p, draws.between(1, 4), draws.between(1, 4), draws.between(1, 4))
        certificate = solved(system)
        if k % 8 > 5:
            certificate = multiplied(draws, certificate, p, draws.between(29, 31))
        given, words = system_words(sharing(draws, system, 2) if k % 8 == 5 else system), certificate_words(certificate, p)
        if k % 4 != 0:
            words = damaged(draws, words, p, form.CERTIFICATE_LIMIT)
        if k % 4 < 2:
            given = damaged(draws, given, p, form.SYSTEM_LIMIT)
        add_words(cases, given, words)
    for _ in range(20):
        add_words(cases, noise(draws), noise(draws))
        add_words(cases, examples.SYSTEM_1_WORDS, noise(draws))


def make():
    """Make the set."""
    cases, draws = CaseSet("panel", PANEL_CHECK, 1000), Draws(0x13)
    from_document(cases)
    verdicts(cases, draws)
    of_fitting(cases, draws)
    of_too_large(cases, draws)
    of_unreadable(cases, draws)
    byte_counts(cases)
    long_buffers(cases)
    empty(cases)
    damaged_words(cases, draws)
    add_limits(cases)
    cases.require(range(1, 10), 8)
    cases.require([10, 41], 80)
    cases.require([21] + list(range(24, 30)), 12)
    cases.require(range(31, 37), 12)
    cases.require_places(41, (0, 1), 60)
    for number in (32, 33, 35):
        cases.require_places(number, range(4), 2)
    return cases
