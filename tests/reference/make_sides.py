"""The stored set `sides`: a case is two lists, the bytes of a system's file, and two words: the number of the right side, and how many
bytes are lent to the solver. The answer is the words of the chosen certificate, confirmed as in `solutions`, or a refusal.
"""

import examples
import words as form
from cases import SOLVE, CaseSet
from damage import at_fault, damaged
from draws import Draws
from make_solutions import confirmed
from reading import walk_system
from samples import STRUCTURES, exact, longest, prime, shapes, sharing
from says import says_side
from searched import with_denominator
from side_verdicts import HUGE_SIDES
from words import Systems, bytes_of_words
from writing import write_system

ENOUGH = 4 * form.LONGEST_CERTIFICATE  # bytes


def add(cases, systems, side):
    """A case on a right side that is there, with just enough bytes lent."""
    words = write_system(systems)
    cases.add([words, [side, ENOUGH]], form.hexadecimal(confirmed(words, side)[1]))


def add_bytes(cases, data, side, lent):
    """A case on bytes, mostly one that is refused."""
    cases.add([data, [side, lent]], says_side(data, side, lent))


def from_document(cases):
    """Document 01's cases as right sides of one file: the certificates are theirs."""
    for numbers, systems in examples.SHARED:
        for side in range(len(numbers)):
            add(cases, systems, side)


def every_side(cases, draws):
    """Each right side of small systems, from one to eight."""
    for k in range(32):
        n, m, size = draws.between(1, 3), draws.between(1, 4), draws.between(2, 4)
        system = with_denominator(draws, n, m, size) if k % 2 else draws.choose(STRUCTURES)(draws, prime(draws), n, m, size)
        systems = sharing(draws, system, 1 + k % 8)
        for side in range(len(systems.sides)):
            add(cases, systems, side)


def every_place(cases, draws):
    """One right side at every place among others, behind other neighbours each time, and alone."""
    for _ in range(3):
        system = with_denominator(draws, draws.between(1, 3), draws.between(1, 3), 3)
        for count in (1, 3, 8):
            for side in range(count):
                sides = sharing(draws, system, count).sides
                sides[side] = system.right
                add(cases, Systems(system.p, system.matrix, sides), side)


def all_shapes(cases, draws):
    """Every shape: one right side of several, not the first."""
    for n, m in shapes():
        count = draws.between(2, 8)
        system = draws.choose(STRUCTURES)(draws, prime(draws), n, m, draws.between(1, 3))
        add(cases, sharing(draws, system, count), draws.between(1, count - 1))


def largest(cases, draws):
    """The longest files: of rank 1, and with nothing in common; of the latter the first right side is a column."""
    systems = longest(draws, 65521)
    for side in (0, 1, 6, 7):
        add(cases, systems, side)
    matrix = [[exact(draws, 2, 16) for _ in range(8)] for _ in range(8)]
    sides = [[row[k] for row in matrix] for k in range(7)] + [[exact(draws, 2, 16) for _ in range(8)]]
    systems = Systems(2, matrix, sides)
    add(cases, systems, 7)
    data = bytes_of_words(write_system(systems))
    for side, lent in ((8, ENOUGH), (8, 0), (7, ENOUGH - 1)):
        add_bytes(cases, data, side, lent)
    add_bytes(cases, data[:-4], 8, 0)
    add_bytes(cases, data + data[-4:], 8, 0)


def lent_bytes(cases):
    """Bytes lent around the number that is enough: 11, but behind 40."""
    first = bytes_of_words(examples.SYSTEM_1_WORDS)
    for data, count in ((first, 1), (bytes_of_words(examples.SHARED_WORDS), 2)):
        for side in range(count + 2):
            for lent in (0, 1, 4, 48, ENOUGH - 5, ENOUGH - 4, ENOUGH - 1, ENOUGH):
                add_bytes(cases, data, side, lent)


def no_such_side(cases, draws):
    """40 on systems with each number of right sides, whatever is lent."""
    for count in range(1, 9):
        data = bytes_of_words(write_system(Systems(2, [[[0, 1]]], [[[1]]] * count)))
        for side in [count, count + 1] + HUGE_SIDES:
            add_bytes(cases, data, side, draws.choose([0, 48, ENOUGH - 1, ENOUGH]))


def refused(cases, draws):
    """A file at fault comes before 40 and 11, wherever the fault is."""
    for words, _ in examples.TABLE_SYSTEMS + examples.SIDE_SYSTEMS:
        add_bytes(cases, bytes_of_words(words), draws.choose([0, 9]), draws.choose([0, ENOUGH]))
    for part in walk_system(examples.SHARED_WORDS)[1].parts:
        for words in at_fault(examples.SHARED_WORDS, part, 3, form.SYSTEM_LIMIT):
            add_bytes(cases, bytes_of_words(words), draws.choose([0, 2]), draws.choose([0, ENOUGH]))
    for count in (1, 2, 3, 5, 8708, 8711, 8712, 8713, 8716):
        add_bytes(cases, bytes(count), draws.choose([0, 9]), draws.choose([0, ENOUGH]))
    for k in range(60):
        p, count = prime(draws), 1 + k % 8
        systems = sharing(draws, draws.choose(STRUCTURES)(draws, p, draws.between(1, 2), draws.between(1, 2), 2), count)
        words = damaged(draws, write_system(systems), p, form.SYSTEM_LIMIT)
        add_bytes(cases, bytes_of_words(words), draws.between(0, count), draws.choose([0, ENOUGH, ENOUGH]))


def make():
    """Make the set."""
    cases, draws = CaseSet("sides", SOLVE, 500), Draws(0x12)
    from_document(cases)
    every_side(cases, draws)
    every_place(cases, draws)
    all_shapes(cases, draws)
    largest(cases, draws)
    lent_bytes(cases)
    no_such_side(cases, draws)
    refused(cases, draws)
    cases.require([40], 100)
    cases.require([11], 20)
    cases.require(range(1, 11), 2)
    return cases
