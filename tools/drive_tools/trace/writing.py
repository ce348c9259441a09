"""Writes a trace within its limits, with ageings at intervals, and counts what it has and what was left out."""
from collections import Counter

MOST_ACTORS = 32
MOST_CALLS = 2 ** 20
MOST_BYTES = 2 ** 26
MOST_READ_BYTES = 2 ** 30


class Ageing:
    """An ageing of the next block after every so many calls, in the order of superblock, die and channel."""

    def __init__(self, head, every, amount):
        self.head, self.every, self.amount, self.made = head, every, amount, 0

    def next_words(self):
        """The words of the next ageing."""
        turn, channel = divmod(self.made, self.head.channels)
        turn, die = divmod(turn, self.head.dies)
        self.made += 1
        return f"age {channel} {die} {turn % self.head.superblocks} {self.amount}"


class TraceWriter:
    """A trace that is written call by call to a file of bytes."""

    def __init__(self, file, head, actors, ageing=None, without_collection=False):
        self.file, self.head, self.ageing = file, head, ageing
        self.verbs, self.left_out, self.notes = Counter(), Counter(), Counter()
        self.actors, self.calls, self.data, self.bytes, self.since = actors, 0, 0, 0, 0
        self.room = None
        if without_collection:
            # The last free superblock isn't the host's, so a blank channel takes the slots of all but one.
            self.room = [(head.superblocks - 1 - len(head.bad_of(channel))) * head.slots for channel in range(head.channels)]
        self._line(f"trace 1 {actors}")

    def _line(self, text):
        data = text.encode() + b"\n"
        self.file.write(data)
        self.bytes += len(data)

    def _fits(self, verb, words):
        """Whether a trace has room for one more call, and the drive for a write where that is asked."""
        if self.calls >= MOST_CALLS:
            self.left_out[f"calls past the {MOST_CALLS} that a trace can have"] += 1
        elif self.bytes + len(words) + 4 > MOST_BYTES:
            self.left_out[f"calls past the {MOST_BYTES} bytes that a trace can have"] += 1
        elif verb == "read" and (self.verbs["read"] + 1) * self.head.data_bytes > MOST_READ_BYTES:
            self.left_out[f"reads past the {MOST_READ_BYTES} bytes that a trace can read"] += 1
        else:
            return True
        return False

    def _call(self, actor, verb, words):
        if not self._fits(verb, words):
            return False
        self._line(f"{actor} {words}")
        self.calls += 1
        self.verbs[verb] += 1
        return True

    def add(self, actor, verb, page):
        """Adds a read, write or trim of a page, and an ageing where one is due."""
        words = f"{verb} {page}"
        if verb == "write":
            channel = page % self.head.channels
            if self.room is not None and self.room[channel] == 0:
                self.left_out["writes that a blank drive takes only by collecting"] += 1
                return
            words += f" g{self.data}"
        if not self._call(actor, verb, words):
            return
        if verb == "write":
            self.data += 1
            if self.room is not None:
                self.room[channel] -= 1
        self.since += 1
        if self.ageing and self.since == self.ageing.every:
            self.since = 0
            self._call(actor, "age", self.ageing.next_words())

    def told(self, name):
        """Lines that say what the trace has, and what was left out."""
        verbs = ", ".join(f"{count} {verb}{'s' if count != 1 else ''}" for verb, count in self.verbs.items())
        yield f"{name}: {self.calls} calls by {self.actors} actor(s): {verbs or 'none'}"
        for what, count in sorted(self.left_out.items()):
            yield f"{name}: left out: {count} {what}"
        for what, count in sorted(self.notes.items()):
            yield f"{name}: note: {count} {what}"
