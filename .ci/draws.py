"""Numbers drawn by a linear congruential generator: the same ones of a seed, wherever and whenever they are drawn."""


class Draws:
    def __init__(self, seed):
        self.state = seed
        self.number()

    def number(self):
        """A number of 64 bits: the state, mixed, since its low bits are too regular."""
        self.state = (self.state * 6364136223846793005 + 1442695040888963407) % 2**64
        mixed = (self.state ^ self.state >> 31) * 0xBF58476D1CE4E5B9 % 2**64
        return mixed ^ mixed >> 29

    def below(self, bound):
        """A number from 0 to bound - 1."""
        return self.number() * bound >> 64

    def between(self, low, high):
        """A number from low to high."""
        return low + self.below(high - low + 1)

    def chance(self, percent):
        """Whether a thing happens that happens so many times of a hundred."""
        return self.below(100) < percent

    def one_of(self, items):
        """One of a list."""
        return items[self.below(len(items))]

    def shuffled(self, items):
        """The items in another order."""
        items = list(items)
        for last in range(len(items) - 1, 0, -1):
            other = self.below(last + 1)
            items[last], items[other] = items[other], items[last]
        return items

    def seed(self):
        """A seed of layouts, as the program reads it."""
        return "".join(f"{self.number():016x}" for _ in range(4))
