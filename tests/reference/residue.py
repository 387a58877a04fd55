"""Whole numbers modulo a prime p: the field K of document 01, "The system". Residues are the numbers 0 to p - 1."""


def is_prime(p):
    """Whether p is a prime, by trial division: the plainest way to say it."""
    if p < 2:
        return False
    divisor = 2
    while divisor * divisor <= p:
        if p % divisor == 0:
            return False
        divisor += 1
    return True


def add(a, b, p):
    """a + b modulo p."""
    return (a + b) % p


def subtract(a, b, p):
    """a - b modulo p."""
    return (a - b) % p


def multiply(a, b, p):
    """a * b modulo p."""
    return (a * b) % p


def negate(a, p):
    """-a modulo p."""
    return -a % p


def inverse(a, p):
    """The residue that gives 1 when multiplied by a; a is not 0."""
    return pow(a, -1, p)
