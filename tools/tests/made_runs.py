"""Texts of runs in the printed form, with collections and moves, made without any program.

They show what the tools read; that they are lawful is nobody's claim.
"""
import random
from collections import Counter


class MadeChannel:
    """The history of one channel, with a greedy collector."""

    def __init__(self, number, rng, superblocks, pages, dies):
        self.number, self.rng, self.dies = number, rng, dies
        self.slots = pages * (dies - 1)
        self.free = list(range(superblocks))
        self.rows, self.lines, self.kinds = {}, [], Counter()
        self.live = [set() for _ in range(superblocks)]
        self.frontier, self.used, self.sealed = None, 0, set()

    def add(self, tag, text):
        self.lines.append(f"{len(self.lines)} {tag} {text}")
        self.kinds[text.split(" ", 1)[0]] += 1
        return len(self.lines) - 1

    def place(self, sb, index):
        """The place of a slot, as die.sb.page."""
        stripe, n = divmod(index, self.dies - 1)
        parity = (sb + stripe) % self.dies
        return f"{n if n < parity else n + 1}.{sb}.{stripe}"

    def next_slot(self):
        if self.frontier is None:
            self.frontier, self.used = self.free.pop(0), 0
        slot = self.frontier, self.used
        self.used += 1
        if self.used == self.slots:
            self.sealed.add(self.frontier)
            self.frontier = None
        return slot

    def put(self, row, slot):
        self.forget(row)
        self.rows[row] = slot
        self.live[slot[0]].add(row)

    def forget(self, row):
        if row in self.rows:
            self.live[self.rows.pop(row)[0]].discard(row)

    def look(self, tag, row):
        sb, index = self.rows[row]
        return self.add(tag, f"look {row} page {sb}.{index} {row} closed")

    def write(self, tag, row):
        while len(self.free) < 2:
            self.collect(tag)
        slot = self.next_slot()
        self.add(tag, f"write {row} {slot[0]}.{slot[1]}")
        self.put(row, slot)
        return "ok"

    def collect(self, tag):
        victim = min(self.sealed, key=lambda sb: (len(self.live[sb]), sb))
        self.add(tag, f"pick {victim}")
        for row in sorted(self.live[victim]):
            at = self.look(tag, row)
            self.add(tag, f"sense {at} {self.place(*self.rows[row])} 0")
            slot = self.next_slot()
            self.add(tag, f"move {at} {slot[0]}.{slot[1]}")
            self.put(row, slot)
            self.add(tag, f"leave {at}")
        self.add(tag, f"erase {victim}")
        self.sealed.discard(victim)
        self.free.append(victim)

    def read(self, tag, row):
        if row not in self.rows:
            self.add(tag, f"look {row} empty")
            return "empty"
        at, rung = self.look(tag, row), min(int(self.rng.expovariate(1.2)), 4)
        for level in range(rung + 1):
            self.add(tag, f"sense {at} {self.place(*self.rows[row])} {-8 * level}")
        self.add(tag, f"leave {at}")
        return f"data {rung} {self.rng.getrandbits(64):016x}" if self.rng.random() > 0.001 else "uncorrectable"

    def trim(self, tag, row):
        self.add(tag, f"trim {row}")
        self.forget(row)
        return "ok"


def summary_of(channels, replies):
    """The summary of a made run."""
    kinds = sum((channel.kinds for channel in channels), Counter())
    words = Counter(text.split(" ", 1)[0] for actor in replies for text in actor)
    rungs = Counter(text.split(" ", 2)[1] for actor in replies for text in actor if text.startswith("data"))
    rungs = [rungs[str(rung)] for rung in range(5)]
    return ["summary", f"write {words['ok'] - kinds['trim']} 0 0 0",
            f"read {words['data']} {words['empty']} {words['uncorrectable']} 0", f"trim {kinds['trim']}",
            f"move {kinds['move']} condemn 0 changed 0 stay 0", f"pick {kinds['pick']} erase {kinds['erase']} bad 0 fault 0",
            f"sense {kinds['sense']}", "rung " + " ".join(map(str, rungs)), f"hint {sum(rungs[1:])} 0 0", "end"]


def made_run(entries, seed=1, channels=2, superblocks=16, pages=16, dies=4, actors=3):
    """The text of a run with at least so many entries in all."""
    rng = random.Random(seed)
    made = [MadeChannel(n, rng, superblocks, pages, dies) for n in range(channels)]
    rows = int((superblocks - 2) * pages * (dies - 1) * 0.8)
    replies = [[] for _ in range(actors)]
    while sum([len(channel.lines) for channel in made]) < entries:
        actor, channel = rng.randrange(actors), rng.choice(made)
        tag, row = f"{actor}.{len(replies[actor])}", rng.randrange(rows)
        call = rng.choices([channel.write, channel.read, channel.trim], [50, 45, 5])[0]
        replies[actor].append(call(tag, row))
    lines = []
    for channel in made:
        lines += [f"channel {channel.number} {len(channel.lines)}", *channel.lines]
    for actor, texts in enumerate(replies):
        lines += [f"actor {actor} {len(texts)}", *[f"{n} {text}" for n, text in enumerate(texts)]]
    return "\n".join([*lines, *summary_of(made, replies)]) + "\n"
