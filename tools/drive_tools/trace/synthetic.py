"""Workloads made by chance from a seed: which page comes next, and what is done to it."""
from array import array
from bisect import bisect_right
from itertools import accumulate
from math import gcd

from ..random_words import RandomWords

PATTERNS = ("uniform", "zipf", "sequential")
# A step over the pages that is prime to most counts, so that neighbours in popularity are no neighbours on the drive.
STRIDE = 2_654_435_761


class Uniform:
    """Each page as often as any other."""

    def __init__(self, pages, words, _exponent):
        self.pages, self.words = pages, words

    def next_page(self):
        """The next page."""
        return self.words.below(self.pages)


class Sequential:
    """One page after the other, and from the first again after the last."""

    def __init__(self, pages, words, _exponent):
        self.pages, self.next = pages, words.below(pages)

    def next_page(self):
        """The next page."""
        page = self.next
        self.next = (page + 1) % self.pages
        return page


class Zipf:
    """The page of rank r with a weight of 1 / r^exponent; ranks are spread over the drive."""

    def __init__(self, pages, words, exponent):
        self.pages, self.words = pages, words
        self.sums = array("d", accumulate((rank + 1) ** -exponent for rank in range(pages)))
        self.stride = next(step for step in range(STRIDE, STRIDE + 2 * pages) if gcd(step, pages) == 1)
        self.first = words.below(pages)

    def next_page(self):
        """The next page."""
        rank = bisect_right(self.sums, self.words.share() * self.sums[-1])
        return (self.first + min(rank, self.pages - 1) * self.stride) % self.pages


class Mixed:
    """Each call by one of several patterns, by their shares."""

    def __init__(self, parts, words):
        self.parts, self.words = [pattern for pattern, _ in parts], words
        self.sums = list(accumulate(share for _, share in parts))

    def next_page(self):
        """The next page."""
        return self.parts[bisect_right(self.sums, self.words.below(self.sums[-1]))].next_page()


MAKERS = {"uniform": Uniform, "zipf": Zipf, "sequential": Sequential}


def pattern_of(shares, pages, words, exponent):
    """The pattern that mixes these by their shares, given as names and whole numbers."""
    parts = [(MAKERS[name](pages, words, exponent), share) for name, share in shares]
    return parts[0][0] if len(parts) == 1 else Mixed(parts, words)


def write_workload(writer, calls, shares, verbs, exponent, seed, fill):
    """Writes so many calls, actors in turn. With `fill` each page is written once before them."""
    words, pages = RandomWords(seed), writer.head.host_pages
    made = 0
    for page in range(pages if fill else 0):
        writer.add(made % writer.actors, "write", page)
        made += 1
    pattern = pattern_of(shares, pages, words, exponent)
    names, sums = list(verbs), list(accumulate(verbs.values()))
    for _ in range(calls):
        verb = names[bisect_right(sums, words.below(sums[-1]))]
        writer.add(made % writer.actors, verb, pattern.next_page())
        made += 1
