"""The panel's check: document 02, item 4. Both buffers are read as in the office; what reads there must keep the panel's limits too."""

from check import check_values
from reading import read_both
from words import Refusal, words_of_bytes

MOST_ROWS_OR_COLUMNS = 4
MOST_SIDES = 1
SYSTEM_LIMIT = 8  # coefficients of a polynomial of a system
CERTIFICATE_LIMIT = 29  # coefficients of a polynomial of a certificate
LONGEST_CERTIFICATE = 302  # words


def check_panel(system_bytes, certificate_bytes):
    """Nothing where the panel accepts the certificate, else a refusal: 10 of either buffer, system, certificate, 41, 31 to 36."""
    if len(system_bytes) % 4 != 0 or len(certificate_bytes) % 4 != 0:
        raise Refusal(10, 0)
    certificate_words = words_of_bytes(certificate_bytes)
    systems, certificate = read_both(words_of_bytes(system_bytes), certificate_words)
    if not system_fits(systems):
        raise Refusal(41, 0)
    if not certificate_fits(certificate, len(certificate_words)):
        raise Refusal(41, 1)
    check_values(systems.side(0), certificate)


def system_fits(systems):
    """Whether systems of one file keep the panel's limits."""
    shape = max(systems.rows(), systems.columns())
    return shape <= MOST_ROWS_OR_COLUMNS and len(systems.sides) <= MOST_SIDES and all_up_to(SYSTEM_LIMIT, systems.polynomials())


def certificate_fits(certificate, count):
    """Whether a certificate of so many words keeps the panel's limits."""
    return count <= LONGEST_CERTIFICATE and all_up_to(CERTIFICATE_LIMIT, certificate.polynomials())


def all_up_to(limit, polynomials):
    """Whether no polynomial has more coefficients."""
    return all(len(f) <= limit for f in polynomials)
