"""The eleven systems to try of document 01, as values, and the words that it prints for the first."""

from words import Absence, Solution, System, Systems

SYSTEM_1_WORDS = [0x10110002, 0x20000002, 0x30000000, 0x30000001, 0x20000001, 0x30000001, 0x40000007]
CERTIFICATE_1_WORDS = [
    0x50000001, 0x20000002, 0x30000000, 0x30000001, 0x20000001, 0x30000001,
    0x20000002, 0x30000000, 0x30000001, 0x20000001, 0x30000001, 0x4000000C,
]

SYSTEM_1 = System(2, [[[0, 1]]], [[1]])
SYSTEM_3 = System(2, [[[0, 1]], [[0, 1]]], [[1], []])
WIDE = [[[0, 0, 1], [0, 1, 1]]]

# Number of the case, system, certificate, and what the check says.
CASES = [
    (1, SYSTEM_1, Solution([0, 1], [[1]], [0, 1], [[1]]), "accepted"),
    (2, System(2, [[[0, 1], [1, 1]]], [[1]]), Solution([1], [[1], [1]], [1], [[]]), "accepted"),
    (3, SYSTEM_3, Absence([[1], [1]]), "accepted"),
    (4, System(2, [[[]]], [[]]), Solution([1], [[]], [1], [[]]), "accepted"),
    (5, System(2, [[[]]], [[1]]), Absence([[1]]), "accepted"),
    (6, System(3, WIDE, [[0, 1]]), Solution([1], [[2], [1]], [1], [[]]), "accepted"),
    (7, System(3, WIDE, [[1]]), Solution([0, 1], [[2], [1]], [0, 1], [[1]]), "accepted"),
    (8, System(2, [[[0, 1], [1]], [[], [0, 1]]], [[], [1]]),
     Solution([0, 0, 1], [[1], [0, 1]], [0, 0, 1], [[0, 1], [1]]), "accepted"),
    (9, SYSTEM_1, Solution([0, 0, 1], [[0, 1]], [0, 1], [[1]]), "refused 34 at 0"),
    (10, SYSTEM_1, Solution([0, 1], [[1]], [0, 0, 1], [[0, 1]]), "accepted"),
]

# Cases with one matrix as right sides of one file: their numbers, and the systems.
SHARED = [
    ((6, 7), Systems(3, WIDE, [[[0, 1]], [[1]]])),
    ((7, 6), Systems(3, WIDE, [[[1]], [[0, 1]]])),
    ((4, 5), Systems(2, [[[]]], [[[]], [[1]]])),
    ((5, 4, 5), Systems(2, [[[]]], [[[1]], [[]], [[1]]])),
]

# The words of the first of these.
SHARED_WORDS = [
    0x11210003, 0x20000003, 0x30000000, 0x30000000, 0x30000001, 0x20000003, 0x30000000, 0x30000001, 0x30000001,
    0x20000002, 0x30000000, 0x30000001, 0x20000001, 0x30000001, 0x4000000F,
]

# The cases whose certificate is not the one that the solver chooses.
NOT_CHOSEN = [9, 10]

# The reports on cases 1 to 8, whole.
REPORTS = [
    ["answer solution", "denominator 0 1", "feedback 0 delay 1"],
    ["answer solution", "denominator 1", "feedback 0 delay 0"],
    ["answer none"],
    ["answer solution", "denominator 1", "feedback 0 delay 0"],
    ["answer none"],
    ["answer solution", "denominator 1", "feedback 0 delay 0"],
    ["answer solution", "denominator 0 1", "feedback 0 delay 1"],
    ["answer solution", "denominator 0 0 1", "feedback 0 delay 2"],
]

# Least denominators, each after its prime, and the third line of the report on them: document 02, item 2, by hand.
THIRD_LINES = [
    (2, [1], "feedback 0 delay 0"),
    (2, [1, 1], "feedback 1 delay 0"),
    (2, [0, 1, 1], "feedback 1 delay 1"),  # x·(x + 1)
    (2, [0, 0, 1, 1], "feedback 1 delay 2"),  # x²·(x + 1)
    (2, [0, 1, 0, 1], "feedback 2 delay 1"),  # x·(x² + 1)
    (3, [2, 0, 0, 1], "feedback 3 delay 0"),  # x³ - 1: its zeros are no factors x
    (3, [0, 0, 2, 0, 0, 1], "feedback 3 delay 2"),
    (257, [256, 1], "feedback 1 delay 0"),  # x - 1
    (65521, [0, 65000, 10, 65520, 1], "feedback 3 delay 1"),
    (65521, [0] * 15 + [1], "feedback 0 delay 15"),
    (2, [0] * 120 + [1], "feedback 0 delay 120"),
    (2, [1] * 121, "feedback 120 delay 0"),
    (257, [0] * 119 + [256, 1], "feedback 1 delay 119"),
    (257, [0, 256] + [0] * 118 + [1], "feedback 119 delay 1"),
    (65521, [0] * 60 + [1] * 61, "feedback 60 delay 60"),
]

# The table's examples on certificates: system, certificate, and what the check says.
TABLE_VERDICTS = [
    (SYSTEM_1, Solution([], [[1]], [0, 1], [[1]]), "refused 31 at 0"),
    (SYSTEM_1, Solution([0, 1], [[]], [0, 1], [[1]]), "refused 32 at 0"),
    (SYSTEM_1, Solution([0, 1], [[1]], [0, 0, 1], [[1]]), "refused 33 at 0"),
    (SYSTEM_3, Absence([[1], []]), "refused 35 at 0"),
    (SYSTEM_3, Absence([[], []]), "refused 36 at 0"),
]

# The table's examples on the reading of systems: words, and what the reader says.
TABLE_SYSTEMS = [
    ([0x00110002], "refused 1 at 0"),
    ([0x10110004], "refused 2 at 0"),
    ([0x10010002], "refused 3 at 0"),
    ([0x10110002], "refused 4 at 1"),
    ([0x10110002, 0x30000001], "refused 5 at 1"),
    ([0x10110002, 0x20000011], "refused 6 at 1"),
    ([0x10110002, 0x20000001, 0x30000002], "refused 7 at 2"),
    ([0x10110002, 0x20000001, 0x30000000], "refused 8 at 2"),
    (SYSTEM_1_WORDS[:-1] + [0x40000008], "refused 9 at 6"),
    ([], "refused 4 at 0"),
]

# Words whose head says more than one right side, and what the reader says.
SIDE_SYSTEMS = [
    (SHARED_WORDS, "read 3 1 2 2"),
    ([0x18110002], "refused 1 at 0"),
    ([0x1F110002], "refused 1 at 0"),
    ([0x18110004], "refused 1 at 0"),
    ([0x18010002], "refused 1 at 0"),
    ([0x17110004], "refused 2 at 0"),
    ([0x17010002], "refused 3 at 0"),
    ([0x17110002], "refused 4 at 1"),
    ([0x11110002] + SYSTEM_1_WORDS[1:], "refused 5 at 6"),
    ([0x10210003] + SHARED_WORDS[1:], "refused 5 at 12"),
    (SHARED_WORDS[:-1] + [0x4000000D], "refused 9 at 14"),
    (SHARED_WORDS + [0], "refused 9 at 15"),
]

# The table's examples on the reading of certificates for system 1: words, and what the reader says.
TABLE_CERTIFICATES = [
    ([0x50000003], "refused 21 at 0"),
    ([0x50000001], "refused 24 at 1"),
    ([], "refused 24 at 0"),
]


def bounds():
    """Case 11: words of systems at and just beyond each bound, and what the reader says."""
    for p, says in [(65521, "read 65521 1 1 1"), (65535, "refused 2 at 0"), (1, "refused 2 at 0"), (0, "refused 2 at 0")]:
        yield [0x10110000 | p, 0x20000000, 0x20000000, 0x40000004], says
    yield [0x10180002] + [0x20000000] * 16 + [0x40000012], "read 2 8 1 1"
    yield [0x10190002] + [0x20000000] * 18 + [0x40000014], "refused 3 at 0"
    yield [0x10810002] + [0x20000000] * 9 + [0x4000000B], "read 2 1 8 1"
    yield [0x10910002] + [0x20000000] * 10 + [0x4000000C], "refused 3 at 0"
    for count, says in [(16, "read 2 1 1 1"), (17, "refused 6 at 1")]:
        yield [0x10110002, 0x20000000 | count] + [0x30000001] * count + [0x20000000, 0x40000004 + count], says
    for p in (2, 3, 257, 65521):
        for a, says in [(p - 1, f"read {p} 1 1 1"), (p, "refused 7 at 2")]:
            yield [0x10110000 | p, 0x20000001, 0x30000000 | a, 0x20000000, 0x40000005], says
