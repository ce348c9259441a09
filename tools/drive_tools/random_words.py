"""The words of SplitMix64, from which every choice by chance is made, so that a seed gives the same on any machine."""

MASK = 2 ** 64 - 1


class RandomWords:
    """The words that a seed starts."""

    def __init__(self, seed):
        self.state = seed & MASK

    def word(self):
        """The next word of 64 bits."""
        self.state = (self.state + 0x9E3779B97F4A7C15) & MASK
        z = self.state
        z = (z ^ z >> 30) * 0xBF58476D1CE4E5B9 & MASK
        z = (z ^ z >> 27) * 0x94D049BB133111EB & MASK
        return z ^ z >> 31

    def below(self, count):
        """A number below `count`. That lower numbers come a little more often is of no matter here."""
        return self.word() * count >> 64

    def share(self):
        """A number from 0 to just below 1."""
        return (self.word() >> 11) / 2 ** 53

    def shuffle(self, items):
        """Puts a list into another order, in place."""
        for last in range(len(items) - 1, 0, -1):
            other = self.below(last + 1)
            items[last], items[other] = items[other], items[last]
