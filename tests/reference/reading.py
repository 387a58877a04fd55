"""Readers: words to values, or the refusal of the first word at fault. Document 01, "Words" and "Turned back"."""

import words as form
from residue import is_prime
from words import Absence, Refusal, Solution, Systems

ON_SYSTEM, ON_CERTIFICATE = 0, 20  # numbers 24 to 29 are 4 to 9 on the certificate


class Walk:
    """A walk over the words from the first on. It remembers where each polynomial stood."""

    def __init__(self, words, base, limit):
        self.words = words
        self.base = base
        self.limit = limit
        self.place = 0
        self.parts = []

    def refuse(self, number, place):
        """Refuse with one of the numbers 4 to 9, raised by 20 on a certificate."""
        raise Refusal(self.base + number, place)

    def any_word(self):
        """The next word of whatever kind; 4 where none is left."""
        if self.place == len(self.words):
            self.refuse(4, len(self.words))
        self.place += 1
        return self.words[self.place - 1]

    def payload(self, kind):
        """The payload of the next word, which must be of this kind; else 5."""
        w = self.any_word()
        if form.kind_of(w) != kind:
            self.refuse(5, self.place - 1)
        return form.payload_of(w)

    def polynomial(self, p):
        """The next polynomial; 6, 7 and 8 are refused here."""
        first = self.place
        count = self.payload(form.START)
        if count > self.limit:
            self.refuse(6, first)
        f = []
        for i in range(count):
            a = self.payload(form.COEFFICIENT)
            if a >= p:
                self.refuse(7, self.place - 1)
            if i == count - 1 and a == 0:
                self.refuse(8, self.place - 1)
            f.append(a)
        self.parts.append((first, self.place))
        return f

    def end(self):
        """The end word, and no word behind it; else 9."""
        count = self.payload(form.END)
        if count != self.place:
            self.refuse(9, self.place - 1)
        if self.place < len(self.words):
            self.refuse(9, self.place)


def system_head(w):
    """p, n, m and the number of right sides of a system's head word, or refusal 1, 2 or 3."""
    p, n, m, sides = w & 0xFFFF, w >> 16 & 0xF, w >> 20 & 0xF, (w >> 24 & 0xF) + 1
    if form.kind_of(w) != form.SYSTEM_HEAD or sides > form.MOST_SIDES:
        raise Refusal(1, 0)
    if not is_prime(p):
        raise Refusal(2, 0)
    if not (1 <= n <= form.MOST_ROWS_OR_COLUMNS and 1 <= m <= form.MOST_ROWS_OR_COLUMNS):
        raise Refusal(3, 0)
    return p, n, m, sides


def walk_system(words):
    """The systems that the words of a file write down, and the walk over them."""
    walk = Walk(words, ON_SYSTEM, form.SYSTEM_LIMIT)
    p, n, m, count = system_head(walk.any_word())
    matrix = [[walk.polynomial(p) for _ in range(m)] for _ in range(n)]
    sides = [[walk.polynomial(p) for _ in range(n)] for _ in range(count)]
    walk.end()
    return Systems(p, matrix, sides), walk


def walk_certificate(words, system):
    """The certificate for this system that the words write down, and the walk over them."""
    walk = Walk(words, ON_CERTIFICATE, form.CERTIFICATE_LIMIT)
    head = walk.any_word()
    if form.kind_of(head) != form.CERTIFICATE_HEAD or form.payload_of(head) not in (form.SOLUTION, form.ABSENCE):
        raise Refusal(21, 0)
    if form.payload_of(head) == form.SOLUTION:
        d = walk.polynomial(system.p)
        N = [walk.polynomial(system.p) for _ in range(system.columns())]
        w = walk.polynomial(system.p)
        Z = [walk.polynomial(system.p) for _ in range(system.rows())]
        certificate = Solution(d, N, w, Z)
    else:
        certificate = Absence([walk.polynomial(system.p) for _ in range(system.rows())])
    walk.end()
    return certificate, walk


def read_system(words):
    """The systems that the words of a file write down, or a refusal."""
    return walk_system(words)[0]


def read_certificate(words, system):
    """The certificate that the words write down, or a refusal."""
    return walk_certificate(words, system)[0]


def read_both(system_words, certificate_words):
    """The systems of a file, and a certificate for any of them; the system's words are read first, whole."""
    systems = read_system(system_words)
    return systems, read_certificate(certificate_words, systems)
