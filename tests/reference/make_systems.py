"""The stored set `systems`: a case is one list, the bytes of a system's file; the answer is `read P N M` and the number of right sides,
or a refusal."""

import examples
import words as form
from cases import SYSTEM_FILE, CaseSet
from damage import at_fault, damaged, noise, replaced
from draws import Draws
from reading import walk_system
from samples import STRUCTURES, exact, generic, prime, shapes, sharing
from says import says_system
from words import Systems, bytes_of_words
from writing import write_system


def add(cases, data):
    """A case on bytes."""
    cases.add([data], says_system(data))


def add_words(cases, words):
    """A case on words."""
    add(cases, bytes_of_words(words))


def from_document(cases):
    """Every example of the table and of case 11, and the systems of the other cases."""
    for words, says in examples.TABLE_SYSTEMS + list(examples.bounds()):
        cases.add([words], says)
    cases.add([bytes(5)], "refused 10 at 0")
    for _, system, _, _ in examples.CASES:
        add_words(cases, write_system(system))


def heads(cases, draws):
    """Heads with every field at its bounds, alone and before words; faults in several fields at once."""
    rest = examples.SYSTEM_1_WORDS[1:]
    for kind in (0, 1, 2, 3, 4, 5, 9, 15):
        for top in (0, 1, 8):
            for p in (2, 4, 65521, 65535):
                word = kind << 28 | top << 24 | draws.choose([0, 1, 8, 9, 15]) << 20 | draws.choose([0, 1, 8, 9, 15]) << 16 | p
                add_words(cases, [word] + (rest if draws.once_in(2) else []))
    for n in range(16):
        for m in (0, 1, 8, 9, 15):
            add_words(cases, [0x10000002 | n << 16 | m << 20])
    for p in (0, 1, 2, 3, 9, 15, 16, 25, 255, 256, 257, 561, 1105, 32768, 63001, 65519, 65520, 65521, 65522, 65534, 65535):
        add_words(cases, [0x10110000 | p] + rest)


def full(draws, p, n, m, count=1):
    """Systems with 16 coefficients in every polynomial."""
    matrix = [[exact(draws, p, 16) for _ in range(m)] for _ in range(n)]
    return Systems(p, matrix, [[exact(draws, p, 16) for _ in range(n)] for _ in range(count)])


def byte_counts(cases, draws):
    """Byte counts that are no multiple of four, and counts around the longest file."""
    for count in (0, 1, 2, 3, 4, 5, 6, 7, 4900, 4901, 4903, 4904, 4905, 4908, 5000, 8792):
        add(cases, bytes(count))
    for words in (examples.SYSTEM_1_WORDS, [0x10110002], [0x00110002]):
        data = bytes_of_words(words)
        for extra in (1, 2, 3):
            add(cases, data + bytes(extra))
            add(cases, data[:-extra])
    longest = write_system(full(draws, 65521, 8, 8))
    add_words(cases, longest)
    add_words(cases, longest[:-1])
    add_words(cases, longest + longest[-1:])
    add(cases, bytes_of_words(longest)[:-1])
    add(cases, bytes_of_words(longest) + b"\0")
    add_words(cases, write_system(full(draws, 2, 8, 8)))
    add_words(cases, examples.SYSTEM_1_WORDS + [0] * 1219)
    add_words(cases, examples.SYSTEM_1_WORDS + [0] * 1220)


def whole_and_damaged(cases, draws):
    """Systems of all shapes: as they are, and damaged."""
    for n, m in shapes():
        for k in range(11):
            p = prime(draws)
            words = write_system(draws.choose(STRUCTURES)(draws, p, n, m, draws.between(1, 3)))
            add_words(cases, damaged(draws, words, p, form.SYSTEM_LIMIT) if k > 1 else words)


def small_and_long(cases, draws):
    """Systems of few but long polynomials, damaged."""
    for _ in range(150):
        p = prime(draws)
        words = write_system(draws.choose(STRUCTURES)(draws, p, draws.between(1, 2), draws.between(1, 2), 16))
        add_words(cases, damaged(draws, words, p, form.SYSTEM_LIMIT))


def told(words, bits):
    """The words with other bits 24 to 27 in their head."""
    return [words[0] & ~(0xF << 24) | bits << 24] + words[1:]


def side_bits(cases):
    """Heads with every value of bits 24 to 27: alone, with other faults, before one right side and before as many as they say."""
    matrix, right = examples.SYSTEM_1_WORDS[1:4], examples.SYSTEM_1_WORDS[4:6]
    for bits in range(16):
        for head in (0x10110002, 0x10110004, 0x10010002, 0x10100002, 0x1099FFFF, 0x00110002, 0x20110002):
            add_words(cases, told([head], bits))
        add_words(cases, told(examples.SYSTEM_1_WORDS, bits))
        words = told([0x10110002], bits) + matrix + right * (bits + 1)
        add_words(cases, words + [form.word(form.END, len(words) + 1)])


def side_counts(cases, draws):
    """Each number of right sides with each number in the head: right sides are missing, or there are too many, or just as many; and
    the last one is missing with the end."""
    for count in range(1, 9):
        words = write_system(sharing(draws, generic(draws, prime(draws), 2, 1, 2), count))
        for bits in range(8):
            add_words(cases, told(words, bits))
            if bits == count:
                add_words(cases, told(words[:-1], bits))


def side_faults(cases, draws):
    """Each polynomial of each right side at fault in each way; then two right sides, of which the first decides."""
    for n, m, count in ((1, 1, 8), (2, 1, 3), (3, 2, 2), (1, 2, 5)):
        p = prime(draws)
        words = write_system(without_zeros(draws, p, n, m, count))
        parts = walk_system(words)[1].parts[n * m:]
        for part in parts:
            for faulty in at_fault(words, part, p, form.SYSTEM_LIMIT):
                add_words(cases, faulty)
        for _ in range(8):
            first, second = draws.choose(parts), draws.choose(parts)
            once = replaced(words, first[0], form.word(form.START, form.SYSTEM_LIMIT + 1))
            add_words(cases, replaced(once, second[0], form.word(form.END, len(words))))


def without_zeros(draws, p, n, m, count):
    """Systems with polynomials of one to three coefficients."""
    def some(length):
        return [exact(draws, p, draws.between(1, 3)) for _ in range(length)]
    return Systems(p, [some(m) for _ in range(n)], [some(n) for _ in range(count)])


def side_ends(cases, draws):
    """End words behind several right sides: as for one, off by one, with words behind, between right sides; files cut anywhere."""
    for count in range(2, 9):
        p = prime(draws)
        systems = without_zeros(draws, p, 1, 1, count)
        words, single = write_system(systems), write_system(systems.side(0))
        for payload in (0, len(single), len(words) - 1, len(words) + 1, form.LONGEST_SYSTEM, len(words) | 1 << 27):
            add_words(cases, words[:-1] + [form.word(form.END, payload)])
        for extra in ([0], words[-1:], words[:1], single[-3:]):
            add_words(cases, words + extra)
        add_words(cases, told(single, 0) + words[len(single) - 1:])
        add_words(cases, told(single, count - 1) + words[len(single) - 1:])
    words = write_system(without_zeros(draws, 257, 2, 1, 3))
    for length in range(len(words)):
        add_words(cases, words[:length])


def damaged_sides(cases, draws):
    """Each number of rows with each number of right sides: as they are, and damaged."""
    for n in range(1, 9):
        for count in range(1, 9):
            p = prime(draws)
            systems = sharing(draws, draws.choose(STRUCTURES)(draws, p, n, draws.between(1, 4), draws.between(1, 2)), count)
            words = write_system(systems)
            add_words(cases, words)
            for _ in range(3):
                add_words(cases, damaged(draws, words, p, form.SYSTEM_LIMIT))


def longest_sides(cases, draws):
    """The longest file, whole and with a fault at its very end; byte counts around its own."""
    for count in (8708, 8711, 8712, 8713, 8716, 8796):
        add(cases, bytes(count))
    for extra in (2171, 2172):
        add_words(cases, examples.SYSTEM_1_WORDS + [0] * extra)
    words = write_system(full(draws, 65521, 8, 8, 8))
    for changed in (
        words, words[:-1], words + words[-1:], told(words, 6), told(words, 8), replaced(words, 2177, form.word(form.END, 2177)),
        replaced(words, 2176, form.word(form.COEFFICIENT, 0)), replaced(words, 2160, form.word(form.START, 17)),
    ):
        add_words(cases, changed)
    add(cases, bytes_of_words(words)[:-1])
    add(cases, bytes_of_words(words) + b"\0")
    add_words(cases, write_system(full(draws, 2, 8, 8, 8)))


def make():
    """Make the set."""
    cases, draws = CaseSet("systems", SYSTEM_FILE, 1000), Draws(0x0B)
    from_document(cases)
    heads(cases, draws)
    byte_counts(cases, draws)
    whole_and_damaged(cases, draws)
    small_and_long(cases, draws)
    for _ in range(60):
        add_words(cases, noise(draws))
    words = write_system(full(draws, 257, 1, 2))
    for length in range(len(words)):
        add_words(cases, words[:length])
    for words, says in examples.SIDE_SYSTEMS:
        cases.add([words], says)
    side_bits(cases)
    draws = Draws(0x0B01)
    side_counts(cases, draws)
    side_faults(cases, draws)
    side_ends(cases, draws)
    damaged_sides(cases, draws)
    longest_sides(cases, draws)
    cases.require(range(1, 11), 12)
    return cases
