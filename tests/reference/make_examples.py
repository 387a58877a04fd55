"""The starred systems of document 01 with their certificates, and the chosen certificates of the other systems, as files in examples/."""

from pathlib import Path

import words as form
from chosen import chosen, solve_words
from examples import CASES
from words import LONGEST_CERTIFICATE, System, bytes_of_words, words_of_file
from writing import write_certificate, write_system

FOLDER = Path(__file__).resolve().parents[2] / "examples"

# Two right sides on one matrix: the least denominator of the first is x + 2, that of the second is 1.
LINES_MODULUS = 257
LINES_MATRIX = [[[1], [0, 1]], [[1], [2, 2]]]
LINES_SIDES = [[[1], []], [[1], [3, 1]]]


def lines_words():
    """The words of the system with these right sides: their number less one is in bits 24 to 27 of the head (document 02, item 1)."""
    n, m = len(LINES_MATRIX), len(LINES_MATRIX[0])
    words = [form.word(form.SYSTEM_HEAD, LINES_MODULUS | n << 16 | m << 20 | (len(LINES_SIDES) - 1) << 24)]
    for vector in LINES_MATRIX + LINES_SIDES:
        for f in vector:
            words += [form.word(form.START, len(f))] + [form.word(form.COEFFICIENT, a) for a in f]
    return words + [form.word(form.END, len(words) + 1)]


def make_lines():
    """The system with several right sides, and for each of them the chosen certificate of its single system."""
    (FOLDER / "lines.sheet").write_bytes(bytes_of_words(lines_words()))
    for number, right in enumerate(LINES_SIDES):
        single = System(LINES_MODULUS, LINES_MATRIX, right)
        (FOLDER / f"lines.{number}.card").write_bytes(bytes_of_words(write_certificate(chosen(single), single)))


def main():
    FOLDER.mkdir(exist_ok=True)
    for number, system, certificate, _ in CASES:
        (FOLDER / f"case{number}.sheet").write_bytes(bytes_of_words(write_system(system)))
        (FOLDER / f"case{number}.card").write_bytes(bytes_of_words(write_certificate(certificate, system)))
    make_lines()
    others = [sheet for sheet in sorted(FOLDER.glob("*.sheet")) if not sheet.name.startswith(("case", "lines"))]
    for sheet in others:
        words = solve_words(words_of_file(sheet.read_bytes()), LONGEST_CERTIFICATE)
        sheet.with_suffix(".card").write_bytes(bytes_of_words(words))
    print(f"examples: {len(CASES) + 1 + len(others)} systems with certificates")


if __name__ == "__main__":
    main()
