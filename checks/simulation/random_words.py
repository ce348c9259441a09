"""The words of SplitMix64."""
import itertools
import struct

MASK = 2 ** 64 - 1


def words_of(seed):
    """The words of the generator that is made from the eight bytes of a number, low first."""
    while True:
        seed = (seed + 0x9e3779b97f4a7c15) & MASK
        v = ((seed ^ seed >> 30) * 0xbf58476d1ce4e5b9) & MASK
        v = ((v ^ v >> 27) * 0x94d049bb133111eb) & MASK
        yield v ^ v >> 31


def bytes_of(seed, count):
    """The first bytes of the words, each word low byte first."""
    words = itertools.islice(words_of(seed), -(-count // 8))
    return b"".join(struct.pack("<Q", word) for word in words)[:count]
