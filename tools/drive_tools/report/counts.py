"""Counts over a run: programs, erases, senses, rungs and replies, for each channel and each actor."""
from collections import Counter

# Replies after which a call did not do what it asks for.
NOT_OK = frozenset(("full", "readonly", "uncorrectable", "noroom", "failed", "diefault", "retired"))


class ChannelCounts:
    """What the history of a channel counts up to."""

    def __init__(self, number):
        self.number = number
        self.kinds, self.bad, self.faults, self.looks, self.refused = Counter(), Counter(), Counter(), Counter(), Counter()
        self.parities = 0

    @property
    def entries(self):
        """The entries that were read: of a text that is cut off fewer than it says."""
        return self.kinds.total()

    def plain(self, with_parity):
        """The counts as plain values."""
        kinds = self.kinds
        values = {
            "channel": self.number, "entries": self.entries, "writes": kinds["write"], "moves": kinds["move"],
            "picks": kinds["pick"], "erases": kinds["erase"], "senses": kinds["sense"], "looks": dict(self.looks),
            "trims": kinds["trim"], "ages": kinds["age"], "condemns": kinds["condemn"], "changed": kinds["changed"],
            "stays": kinds["stay"], "bad": dict(self.bad), "faults": dict(self.faults), "refused": dict(self.refused),
            "write_amplification": ratio(kinds["write"] + kinds["move"], kinds["write"])}
        if with_parity:
            programs = kinds["write"] + kinds["move"] + self.parities
            values["parity_pages"] = self.parities
            values["write_amplification_with_parity"] = ratio(programs, kinds["write"])
        return values


class ActorCounts:
    """What the replies of an actor count up to."""

    def __init__(self, number):
        self.number, self.calls = number, 0
        self.replies, self.rungs = Counter(), Counter()

    def plain(self):
        """The counts as plain values."""
        return {"actor": self.number, "calls": self.calls, "replies": dict(self.replies),
                "rungs": {str(rung): self.rungs[rung] for rung in sorted(self.rungs)},
                "not_ok": sum(self.replies[word] for word in NOT_OK)}


def ratio(part, whole):
    """A share, or None of nothing."""
    return round(part / whole, 6) if whole else None


class RunCounts:
    """A listener to the lines of a run that counts them. With a head it knows which slots end a stripe."""

    def __init__(self, head=None, most_named=20):
        self.head, self.most_named = head, most_named
        self.channels, self.actors, self.named, self.summary_lines = [], [], [], {}
        self.width = head.dies - 1 if head else None
        self.now = None

    def channel(self, number, _count):
        """A channel begins."""
        self.now = ChannelCounts(number)
        self.channels.append(self.now)

    def entry(self, words, _text):
        """An entry of the last channel."""
        counts, kind = self.now, words[2]
        counts.kinds[kind] += 1
        if kind == "look":
            counts.looks[words[4]] += 1
        elif kind in ("write", "move"):
            index = int(words[4].partition(".")[2])
            if self.width and (index + 1) % self.width == 0:
                counts.parities += 1
        elif kind == "bad":
            counts.bad[f"{words[3]} {words[-1]}"] += 1
        elif kind == "fault":
            counts.faults[words[3]] += 1
        elif kind == "refused":
            counts.refused[words[4]] += 1

    def actor(self, number, _count):
        """An actor begins."""
        self.actors.append(ActorCounts(number))

    def reply(self, actor, call, words, text):
        """A reply of the last actor."""
        counts = self.actors[-1]
        counts.calls += 1
        word = words[1].partition(".")[0]
        counts.replies[word] += 1
        if word == "data":
            counts.rungs[int(words[2])] += 1
        elif word in NOT_OK:
            self.name(actor, call, words[1])
        elif word == "drained":
            self.drained(counts, actor, call, text.split(" ")[3:])

    def drained(self, counts, actor, call, refreshed):
        """The refreshes of a drain."""
        for item in refreshed:
            page, _, reply = item.partition("=")
            word = reply.partition(".")[0]
            counts.replies["drained " + word] += 1
            if word in NOT_OK:
                self.name(actor, call, f"{reply} of page {page}")

    def name(self, actor, call, reply):
        """Keeps a reply that isn't ok, one of the first."""
        if len(self.named) < self.most_named:
            self.named.append({"actor": actor, "call": call, "reply": reply})

    def summary(self, name, numbers):
        """A line of the summary."""
        self.summary_lines[name] = numbers

    def rungs(self):
        """How many reads were answered at each rung."""
        if "rung" in self.summary_lines:
            return self.summary_lines["rung"]
        total = sum((counts.rungs for counts in self.actors), Counter())
        return [total[rung] for rung in range(max(total, default=-1) + 1)]

    def totals(self):
        """The counts of the whole run; where there are no histories those of the summary."""
        kinds = sum((counts.kinds for counts in self.channels), Counter())
        if not self.channels and self.summary_lines:
            lines = self.summary_lines
            kinds = Counter({"write": lines.get("write", {}).get("ok", 0), "sense": lines.get("sense", {}).get("senses", 0),
                             **{name: lines.get("move", {}).get(name, 0) for name in ("move", "condemn")},
                             **{name: lines.get("pick", {}).get(name, 0) for name in ("pick", "erase", "bad", "fault")}})
        totals = {"writes": kinds["write"], "moves": kinds["move"], "picks": kinds["pick"], "erases": kinds["erase"],
                  "senses": kinds["sense"], "bad": kinds["bad"], "faults": kinds["fault"], "condemns": kinds["condemn"],
                  "write_amplification": ratio(kinds["write"] + kinds["move"], kinds["write"])}
        if self.width and self.channels:
            parities = sum(counts.parities for counts in self.channels)
            totals["parity_pages"] = parities
            totals["write_amplification_with_parity"] = ratio(kinds["write"] + kinds["move"] + parities, kinds["write"])
        return totals

    def not_ok(self):
        """How many replies aren't ok, by word; where there are no replies by the summary."""
        found = Counter()
        for counts in self.actors:
            for word, count in counts.replies.items():
                if word.removeprefix("drained ") in NOT_OK:
                    found[word] += count
        if not self.actors:
            for line, words in (("write", ("full", "readonly", "diefault")), ("read", ("uncorrectable", "diefault"))):
                for word in words:
                    found[word] += self.summary_lines.get(line, {}).get(word, 0)
        return {word: count for word, count in found.items() if count}

    def plain(self, name, whole):
        """All counts as plain values."""
        return {
            "file": name, "whole": whole, "totals": self.totals(), "rungs": self.rungs(),
            "not_ok": {"count": sum(self.not_ok().values()), "by_reply": self.not_ok(), "first": self.named},
            "channels": [counts.plain(self.width is not None) for counts in self.channels],
            "actors": [counts.plain() for counts in self.actors], "summary": self.summary_lines or None}
