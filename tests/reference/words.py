"""The form of words, the limits, and the values that words stand for: document 01, "Bounds" and "Words", and document 02, item 1."""

from typing import NamedTuple

SYSTEM_HEAD, START, COEFFICIENT, END, CERTIFICATE_HEAD = 1, 2, 3, 4, 5
SOLUTION, ABSENCE = 1, 2

LARGEST_PRIME = 65521
MOST_ROWS_OR_COLUMNS = 8
MOST_SIDES = 8  # right sides of a system's file
SYSTEM_LIMIT = 16  # coefficients of a polynomial of a system
CERTIFICATE_LIMIT = 121  # coefficients of a polynomial of a certificate
LONGEST_SYSTEM = 2178
LONGEST_CERTIFICATE = 2198


class System(NamedTuple):
    """A system A·y = b modulo p. The matrix is A as a list of rows, the right side is b."""

    p: int
    matrix: list
    right: list

    def rows(self):
        """Document 01's n."""
        return len(self.matrix)

    def columns(self):
        """Document 01's m."""
        return len(self.matrix[0])

    def column(self, j):
        """Column j of A."""
        return [row[j] for row in self.matrix]

    @property
    def sides(self):
        """The right side, as the only one of a file."""
        return [self.right]

    def polynomials(self):
        """All polynomials in written order: A row by row, then b."""
        return [f for row in self.matrix for f in row] + self.right


class Systems(NamedTuple):
    """The systems of one file: they share p and A, and each has a right side of its own."""

    p: int
    matrix: list
    sides: list

    def rows(self):
        """Document 01's n."""
        return len(self.matrix)

    def columns(self):
        """Document 01's m."""
        return len(self.matrix[0])

    def polynomials(self):
        """All polynomials in written order: A row by row, then the right sides one after another."""
        return [f for row in self.matrix for f in row] + [f for right in self.sides for f in right]

    def side(self, number):
        """The system of one right side, counted from 0; 40 where there is none."""
        if number >= len(self.sides):
            raise Refusal(40, 0)
        return System(self.p, self.matrix, self.sides[number])


class Solution(NamedTuple):
    """A certificate that y = N/d solves the system and, by z = Z/w, that no smaller denominator does."""

    d: list
    N: list
    w: list
    Z: list

    def polynomials(self):
        """All polynomials in written order."""
        return [self.d] + self.N + [self.w] + self.Z


class Absence(NamedTuple):
    """A certificate that the system has no rational solution: q·A is zero, q·b is not."""

    q: list

    def polynomials(self):
        """All polynomials in written order."""
        return self.q


class Refusal(Exception):
    """A refusal: its number in document 01's table or in document 02, and its place."""

    def __init__(self, number, place):
        super().__init__(number, place)
        self.number = number
        self.place = place

    def __str__(self):
        return f"refused {self.number} at {self.place}"


def word(kind, payload):
    """The word of this kind and payload."""
    return kind << 28 | payload


def kind_of(w):
    """The top four bits of a word."""
    return w >> 28


def payload_of(w):
    """The lower 28 bits of a word."""
    return w & 0x0FFFFFFF


def words_of_bytes(data):
    """The words of a byte string whose length is a multiple of four; lowest byte first."""
    return [int.from_bytes(data[i:i + 4], "little") for i in range(0, len(data), 4)]


def bytes_of_words(words):
    """Each word as four bytes, lowest first."""
    return b"".join(w.to_bytes(4, "little") for w in words)


def words_of_file(data):
    """The words of a system's file, or refusal 10, which comes before all others."""
    if len(data) % 4 != 0 or len(data) > 4 * LONGEST_SYSTEM:
        raise Refusal(10, 0)
    return words_of_bytes(data)


def hexadecimal(words):
    """Words as document 01 prints them: eight hexadecimal digits each, one space between."""
    return " ".join(f"{w:08X}" for w in words)
