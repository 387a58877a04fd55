"""The form of the stored set: one file of cases, and one of the lines expected.

Input: cases one after another. A case is the number of the call that it tries, as four bytes lowest first, and one or more lists; a
list is its number of bytes, as four bytes lowest first, and then these bytes. Output: one line of text a case.
"""

from collections import Counter
from pathlib import Path

from words import bytes_of_words

STORED = Path(__file__).resolve().parents[2] / "crates" / "stored_cases"

ARITHMETIC, WRITER, OFFICE_SYSTEM, PANEL_SYSTEM = range(1, 5)  # one list of words
HEADING, SYSTEM_SHAPE, SYSTEM_FILE, REPORT = range(5, 9)  # one list of bytes
CERTIFICATE, CHECK, LOOKUP = range(9, 12)  # the words of a system and of a certificate, and what else the call is told
SOLVE = 12  # bytes, and what else the call is told
PANEL_CHECK = 13  # the bytes of a system and of a certificate


def number_of(n):
    """A number as four bytes, lowest first."""
    return n.to_bytes(4, "little")


def listed(data):
    """A list: its number of bytes, and these bytes."""
    return number_of(len(data)) + data


def lists_of(call):
    """How many lists a case has that tries this call."""
    return 1 if call <= REPORT else 2 if call in (CERTIFICATE, SOLVE, PANEL_CHECK) else 3


class CaseSet:
    """The cases on one subject. Where a case names no call, it tries that of the set."""

    def __init__(self, name, call, least):
        self.name = name
        self.call = call
        self.least = least
        self.input = []
        self.lines = []

    def add(self, lists, line, call=None):
        """Add a case: its lists, each a byte string or a list of words, and the line expected."""
        self.input.append(number_of(call or self.call))
        for values in lists:
            self.input.append(listed(values if isinstance(values, bytes) else bytes_of_words(values)))
        self.lines.append(line)

    def kinds(self):
        """How often each kind of answer is expected: the refusal's number, or the first word of the line."""
        return Counter(" ".join(line.split()[:2]) if line.startswith("refused") else line.split()[0] for line in self.lines)

    def require(self, numbers, least):
        """Stop unless each of these refusals is expected at least so many times."""
        kinds = self.kinds()
        for number in numbers:
            if kinds[f"refused {number}"] < least:
                raise SystemExit(f"{self.name}: refusal {number} only {kinds[f'refused {number}']} times")

    def require_places(self, number, places, least):
        """Stop unless this refusal is expected at each of these places at least so many times."""
        for place in places:
            count = self.lines.count(f"refused {number} at {place}")
            if count < least:
                raise SystemExit(f"{self.name}: refusal {number} at {place} only {count} times")


def store(sets):
    """Write the sets into one pair of files, the cases of each behind its name as a heading, and say what is in them."""
    stored = CaseSet("stored", HEADING, 0)
    for cases in sets:
        if len(cases.lines) < cases.least:
            raise SystemExit(f"{cases.name}: only {len(cases.lines)} cases")
        stored.add([cases.name.encode()], cases.name)
        stored.input += cases.input
        stored.lines += cases.lines
        print(f"{cases.name}: {len(cases.lines)} cases")
    data = b"".join(stored.input)
    (STORED / "stdin").write_bytes(data)
    (STORED / "stdout").write_text("".join(line + "\n" for line in stored.lines))
    print(f"stored: {len(stored.lines)} lines, {len(data)} bytes")


def stored():
    """The stored cases by their headings: of each case its lists, as bytes, and the line expected."""
    sets = {}
    with open(STORED / "stdin", "rb") as data:
        def number():
            return int.from_bytes(data.read(4), "little")

        for line in (STORED / "stdout").read_text().splitlines():
            call = number()
            lists = [data.read(number()) for _ in range(lists_of(call))]
            if call == HEADING:
                sets[line] = []
            else:
                sets[list(sets)[-1]].append((lists, line))
    return sets
