"""The stored set `certificates`: a case is two lists, the words of a system and of a certificate; both are only read.

Systems are at most 8,712 bytes long here and byte counts are multiples of four, so number 10 never comes into question.
"""

import examples
import words as form
from cases import CERTIFICATE, CaseSet
from damage import damaged, noise
from draws import Draws
from samples import STRUCTURES, exact, prime, shapes, sharing, up_to, vector
from says import says_certificate
from words import Absence, Solution, System
from writing import write_certificate, write_system


def add(cases, system_words, certificate_words):
    """A case."""
    cases.add([system_words, certificate_words], says_certificate(system_words, certificate_words))


def random_certificate(draws, system, size):
    """Values that read as a certificate for the system's shape; they need not be right."""
    p, n, m = system.p, system.rows(), system.columns()
    if draws.once_in(3):
        return Absence(vector(draws, p, n, size))
    return Solution(up_to(draws, p, size), vector(draws, p, m, size), up_to(draws, p, size), vector(draws, p, n, size))


def from_document(cases):
    """Every example of the table, and the certificates of the cases."""
    for words, says in examples.TABLE_CERTIFICATES:
        cases.add([examples.SYSTEM_1_WORDS, words], says)
    for words, says in examples.TABLE_SYSTEMS + list(examples.bounds()):
        add(cases, words, examples.CERTIFICATE_1_WORDS)
    for _, system, certificate, _ in examples.CASES:
        add(cases, write_system(system), write_certificate(certificate, system))
    for system, certificate, _ in examples.TABLE_VERDICTS:
        add(cases, write_system(system), write_certificate(certificate, system))


def heads(cases):
    """Heads of every kind, with payloads around 1 and 2."""
    rest = examples.CERTIFICATE_1_WORDS[1:]
    for kind in range(16):
        for payload in (0, 1, 2, 3, 257, 0x1000001, 0x8000002, 0xFFFFFFF):
            add(cases, examples.SYSTEM_1_WORDS, [kind << 28 | payload] + rest)


def lengths(cases, draws):
    """Polynomials of 120 to 123 coefficients in every position, and the longest certificate."""
    for p in (2, 65521):
        system = System(p, [[[1]]], [[]])
        for size in (120, 121, 122, 123):
            for position in range(4):
                values = [[], [], [], []]
                values[position] = exact(draws, p, size)
                add(cases, write_system(system), written(form.SOLUTION, values))
            add(cases, write_system(system), written(form.ABSENCE, [exact(draws, p, size)]))
    system = System(65521, [[[1]] * 8 for _ in range(8)], [[1]] * 8)
    longest = written(form.SOLUTION, [exact(draws, 65521, 121) for _ in range(18)])
    for words in (longest, longest[:-1], longest + [0], longest[:-1] + [longest[-1] + 1], longest[:1000]):
        add(cases, write_system(system), words)


def written(kind, polynomials):
    """Words of a certificate without any check, so that polynomials may be too long."""
    words = [form.word(form.CERTIFICATE_HEAD, kind)]
    for f in polynomials:
        words += [form.word(form.START, len(f))] + [form.word(form.COEFFICIENT, a) for a in f]
    return words + [form.word(form.END, len(words) + 1)]


def whole_and_damaged(cases, draws):
    """All shapes: certificates as they are and damaged, and systems damaged before certificates that may be so too."""
    for n, m in shapes():
        for k in range(13):
            p = prime(draws)
            system = draws.choose(STRUCTURES)(draws, p, n, m, draws.between(1, 2))
            certificate_words = write_certificate(random_certificate(draws, system, draws.between(1, 5)), system)
            system_words = write_system(system)
            if k > 1:
                certificate_words = damaged(draws, certificate_words, p, form.CERTIFICATE_LIMIT)
            if k > 10:
                system_words = damaged(draws, system_words, p, form.SYSTEM_LIMIT)
            add(cases, system_words, certificate_words)


def small_and_long(cases, draws):
    """Long polynomials in certificates of small systems, damaged."""
    for k in range(120):
        p = prime(draws)
        system = draws.choose(STRUCTURES)(draws, p, draws.between(1, 2), draws.between(1, 2), 3)
        words = write_certificate(random_certificate(draws, system, 121 if k % 4 == 0 else 12), system)
        add(cases, write_system(system), damaged(draws, words, p, form.CERTIFICATE_LIMIT) if k > 20 else words)


def other_system(cases, draws):
    """Certificates read for a system of another shape or with a smaller prime."""
    for _ in range(100):
        p = prime(draws)
        first = STRUCTURES[0](draws, p, draws.between(1, 4), draws.between(1, 4), 2)
        second = STRUCTURES[0](draws, draws.choose([p, 2, 3]), draws.between(1, 4), draws.between(1, 4), 2)
        add(cases, write_system(second), write_certificate(random_certificate(draws, first, 3), first))


def right_sides(cases, draws):
    """Systems with several right sides: a certificate is for one of them, and has no more entries for more right sides."""
    for k in range(96):
        p, n, count = prime(draws), draws.between(1, 3), 1 + k % 8
        systems = sharing(draws, draws.choose(STRUCTURES)(draws, p, n, draws.between(1, 3), 2), count)
        system_words, certificate = write_system(systems), random_certificate(draws, systems, draws.between(1, 5))
        certificate_words = write_certificate(certificate, systems)
        if k % 4 == 1:
            kind = form.ABSENCE if isinstance(certificate, Absence) else form.SOLUTION
            certificate_words = written(kind, certificate.polynomials() + vector(draws, p, n * (count - 1), 2))
        elif k % 4 > 1:
            certificate_words = damaged(draws, certificate_words, p, form.CERTIFICATE_LIMIT)
        if k % 8 == 7:
            system_words = damaged(draws, system_words, p, form.SYSTEM_LIMIT)
        add(cases, system_words, certificate_words)


def make():
    """Make the set."""
    cases, draws = CaseSet("certificates", CERTIFICATE, 1200), Draws(0x0C)
    from_document(cases)
    heads(cases)
    lengths(cases, draws)
    whole_and_damaged(cases, draws)
    small_and_long(cases, draws)
    other_system(cases, draws)
    for _ in range(40):
        add(cases, examples.SYSTEM_1_WORDS, noise(draws))
    for length in range(len(examples.CERTIFICATE_1_WORDS)):
        add(cases, examples.SYSTEM_1_WORDS, examples.CERTIFICATE_1_WORDS[:length])
    right_sides(cases, Draws(0x0C01))
    cases.require([21] + list(range(24, 30)), 20)
    cases.require(range(1, 10), 3)
    return cases
