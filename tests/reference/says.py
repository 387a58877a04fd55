"""One line of text for what each call gives: the form of the expected lines of all stored sets."""

from check import check_words
from chosen import solve_words
from lookup import look_up
from panel import check_panel
from reading import read_both, read_system
from report import report
from words import LONGEST_CERTIFICATE, Refusal, Solution, hexadecimal, words_of_file


def answer(call, *values):
    """The text that the call gives, or its refusal."""
    try:
        return call(*values)
    except Refusal as refusal:
        return str(refusal)


def says_system(data):
    """The reader on a system's bytes: `read P N M` and the number of right sides."""
    def call():
        systems = read_system(words_of_file(data))
        return f"read {systems.p} {systems.rows()} {systems.columns()} {len(systems.sides)}"
    return answer(call)


def says_certificate(system_words, certificate_words):
    """The readers on a system and a certificate: `solution` or `absence`."""
    def call():
        certificate = read_both(system_words, certificate_words)[1]
        return "solution" if isinstance(certificate, Solution) else "absence"
    return answer(call)


def says_lookup(system_words, certificate_words, of, number):
    """The lookup: `FROM to TO: ` and the words shown."""
    def call():
        first, behind, words = look_up(system_words, certificate_words, of, number)
        return f"{first} to {behind}: {hexadecimal(words)}"
    return answer(call)


def says_written(write, *values):
    """A writer: `wrote COUNT` and the words."""
    def call():
        words = write(*values)
        return f"wrote {len(words)} {hexadecimal(words)}"
    return answer(call)


def says_check(system_words, certificate_words, side=0):
    """The check for a right side: `accepted`."""
    def call():
        check_words(system_words, certificate_words, side)
        return "accepted"
    return answer(call)


def says_panel(system_bytes, certificate_bytes):
    """The panel's check: `accepted`."""
    def call():
        check_panel(system_bytes, certificate_bytes)
        return "accepted"
    return answer(call)


def says_side(data, side, lent):
    """The solver on a system's bytes, told the right side and lent so many bytes: the words of the certificate."""
    def call():
        return hexadecimal(solve_words(words_of_file(data), lent // 4, side))
    return answer(call)


def says_solved(data):
    """The report on a system's bytes and, where nothing is refused, the words of the certificate, its lines joined."""
    def call():
        return hexadecimal(solve_words(words_of_file(data), LONGEST_CERTIFICATE))
    lines = report(data)
    return "; ".join(lines if lines[0].startswith("refused") else lines + [answer(call)])
