"""The stored set `table`: the example inputs of document 01's table "Turned back" and the edges of its case 11, with the lines that
the document gives, and what document 02 changes in it with several right sides. A system is read as words within the limits of the
office or of the panel, or as a file; a certificate is one for system 1."""

import examples
from cases import CERTIFICATE, CHECK, LOOKUP, OFFICE_SYSTEM, PANEL_SYSTEM, SOLVE, SYSTEM_SHAPE, CaseSet
from examples import CERTIFICATE_1_WORDS, SHARED_WORDS, SYSTEM_1_WORDS
from words import bytes_of_words, hexadecimal


def shape(p, n, m, sides=1):
    """The line for a system that is read."""
    return f"system modulo {p}, rows {n}, columns {m}, right sides {sides}"


def systems(cases):
    """Rows 1 to 9, and case 1: cut short, with a word behind its end, and whole."""
    *rows, nothing = examples.TABLE_SYSTEMS
    for words, says in [nothing] + rows:
        cases.add([words], says)
    cases.add([SYSTEM_1_WORDS + [0]], "refused 9 at 7")
    cases.add([SYSTEM_1_WORDS], shape(2, 1, 1))


def files(cases):
    """Row 10, and case 1 as a file. What was too long for one right side is read now."""
    data = bytes_of_words(SYSTEM_1_WORDS)
    cases.add([data[:5]], "refused 10 at 0", SYSTEM_SHAPE)
    cases.add([data], shape(2, 1, 1), SYSTEM_SHAPE)
    for count, says in [(4908, "refused 1 at 0"), (8712, "refused 1 at 0"), (8716, "refused 10 at 0")]:
        cases.add([bytes(count)], says, SYSTEM_SHAPE)


def certificates(cases):
    """Rows 21 to 29, and case 1: whole and cut short; an absence."""
    for words, says in [
        ([], "refused 24 at 0"),
        ([0x50000003], "refused 21 at 0"),
        ([0x50000001], "refused 24 at 1"),
        ([0x50000001, 0x2000007A], "refused 26 at 1"),
        (CERTIFICATE_1_WORDS, "solution"),
        (CERTIFICATE_1_WORDS[:-1], "refused 24 at 11"),
        ([0x50000002, 0x20000001, 0x30000001, 0x40000004], "absence"),
    ]:
        cases.add([SYSTEM_1_WORDS, words], says, CERTIFICATE)


def heads(cases):
    """Case 11: p, then n, which the panel bounds too."""
    cases.add([[0x1011FFF1, 0x20000000, 0x20000000, 0x40000004]], shape(65521, 1, 1))
    for p in (0xFFFF, 1, 0):
        cases.add([[0x10110000 | p]], "refused 2 at 0")
    eight = [0x10180002] + [0x20000000] * 16 + [0x40000012]
    cases.add([eight], shape(2, 8, 1))
    cases.add([eight], "refused 3 at 0", PANEL_SYSTEM)
    cases.add([[0x10190002]], "refused 3 at 0")


def coefficients(cases):
    """Case 11: the number of coefficients, and the largest of them."""
    for count, first, says in [(16, 0, shape(3, 1, 1)), (17, 0, "refused 6 at 1"), (16, 3, "refused 7 at 2")]:
        words = [0x10110003, 0x20000000 | count, 0x30000000 | first] + [0x30000000] * 14
        cases.add([words + [0x30000002, 0x20000000, 0x40000014]], says)


def right_sides(cases):
    """Bits 24 to 27 of the head: row 1, and how they stand to rows 2 to 9. The panel has one right side."""
    (words, _), *refused = examples.SIDE_SYSTEMS
    cases.add([words], shape(3, 1, 2, 2))
    for words, says in refused:
        cases.add([words], says)
    cases.add([SYSTEM_1_WORDS], shape(2, 1, 1), PANEL_SYSTEM)
    cases.add([SHARED_WORDS], "refused 1 at 0", PANEL_SYSTEM)


def calls(cases):
    """Rows 11 and 12, and row 40: before 11, and before anything of the certificate."""
    for side, lent, says in [
        (0, 8788, "refused 11 at 0"), (0, 8792, hexadecimal(CERTIFICATE_1_WORDS)), (1, 0, "refused 40 at 0"),
        (1, 8792, "refused 40 at 0"),
    ]:
        cases.add([SYSTEM_1_WORDS, [side, lent]], says, SOLVE)
    for number, says in [(1, "4 to 6: 20000001 30000001"), (2, "refused 12 at 0")]:
        cases.add([SYSTEM_1_WORDS, CERTIFICATE_1_WORDS, [0, number]], says, LOOKUP)
    for words, side, says in [
        (CERTIFICATE_1_WORDS, 0, "accepted"), (CERTIFICATE_1_WORDS, 1, "refused 40 at 0"), ([], 0, "refused 24 at 0"),
        ([], 1, "refused 40 at 0"),
    ]:
        cases.add([SYSTEM_1_WORDS, words, [side]], says, CHECK)


def make():
    """Make the set."""
    cases = CaseSet("table", OFFICE_SYSTEM, 50)
    systems(cases)
    files(cases)
    certificates(cases)
    heads(cases)
    coefficients(cases)
    right_sides(cases)
    calls(cases)
    return cases
