"""Fixed sequences of numbers, of which cases are drawn."""

from model.words import ONES


class Numbers:
    """A fixed sequence of numbers (SplitMix64)."""

    def __init__(self, seed):
        self.state = seed

    def below(self, n):
        self.state = self.state + 0x9E3779B97F4A7C15 & ONES
        z = self.state
        z = (z ^ z >> 30) * 0xBF58476D1CE4E5B9 & ONES
        z = (z ^ z >> 27) * 0x94D049BB133111EB & ONES
        return (z ^ z >> 31) % n

    def choice(self, items):
        return items[self.below(len(items))]


class Drawn:
    """Another fixed sequence of numbers (xorshift64*)."""

    def __init__(self, state):
        self.state = state

    def next(self):
        self.state ^= self.state << 13 & ONES
        self.state ^= self.state >> 7
        self.state ^= self.state << 17 & ONES
        return self.state * 0x9E3779B97F4A7C15 & ONES

    def any_length(self):
        """A number of any length."""
        number = self.next()
        return number >> self.next() % 64
