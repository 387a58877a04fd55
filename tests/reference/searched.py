"""Systems that are drawn until they have a least denominator other than 1: where most slips would show."""

import polynomial as poly
from samples import common_factor, generic, low_rank, powers_of_x, prime
from solve import solve
from words import Absence


def with_denominator(draws, n, m, size):
    """A system of this shape whose least denominator is not 1; size is at least 2."""
    while True:
        structure = draws.choose([low_rank, low_rank, common_factor, powers_of_x, generic])
        system = structure(draws, prime(draws), n, m, size)
        certificate = solve(system)
        if not isinstance(certificate, Absence) and certificate.d != poly.ONE:
            return system
