"""Random draws that are the same on every machine and with every version of Python: splitmix64 from a named start."""

MASK = (1 << 64) - 1


class Draws:
    """A stream of draws; each test set starts its own, so that changing one leaves the others as they are."""

    def __init__(self, start):
        self.state = start & MASK

    def bits(self):
        """The next 64 bits."""
        self.state = (self.state + 0x9E3779B97F4A7C15) & MASK
        z = self.state
        z = (z ^ z >> 30) * 0xBF58476D1CE4E5B9 & MASK
        z = (z ^ z >> 27) * 0x94D049BB133111EB & MASK
        return z ^ z >> 31

    def below(self, bound):
        """A number from 0 to bound - 1."""
        return self.bits() % bound

    def between(self, low, high):
        """A number from low to high, both included."""
        return low + self.below(high - low + 1)

    def choose(self, options):
        """One of a list."""
        return options[self.below(len(options))]

    def once_in(self, n):
        """True in one of n cases."""
        return self.below(n) == 0
