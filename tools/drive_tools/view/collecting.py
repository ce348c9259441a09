"""Keeps what a page shows of a run: the lines of histories and shortened replies, packed for a page."""
import base64
import zlib

from ..image.contents import STATES

# A reply is shown up to here; the hexadecimal digits of data can be thousands.
LONGEST_REPLY = 40


def packed(lines):
    """Lines as text that a page unpacks."""
    if not lines:
        return ""
    return base64.b64encode(zlib.compress("\n".join(lines).encode(), 6)).decode()


def shortened(text):
    """The first letters of a reply."""
    return text if len(text) <= LONGEST_REPLY else text[:LONGEST_REPLY] + ".."


class Collected:
    """A listener to the lines of a run that keeps up to `most` entries of each channel."""

    def __init__(self, most):
        self.most = most
        self.channels, self.actors, self.summary_lines = [], [], {}
        self.superblocks, self.slots, self.most_rung, self.written, self.moved, self.left_out = 0, 1, 0, 0, 0, 0

    def channel(self, number, count):
        """A channel begins."""
        self.channels.append({"number": number, "total": count, "lines": []})

    def entry(self, words, text):
        """An entry of the last channel."""
        kind, lines = words[2], self.channels[-1]["lines"]
        slot = words[4] if kind in ("write", "move") else words[5] if kind == "bad" and words[3] != "erase" else None
        if slot is not None:
            sb, _, index = slot.partition(".")
            self.superblocks, self.slots = max(self.superblocks, int(sb) + 1), max(self.slots, int(index) + 1)
            self.written += kind == "write"
            self.moved += kind == "move"
        elif kind in ("pick", "erase"):
            self.superblocks = max(self.superblocks, int(words[3]) + 1)
        if len(lines) < self.most:
            lines.append(text[len(words[0]) + 1:])
        else:
            self.left_out += 1

    def actor(self, number, count):
        """An actor begins."""
        self.actors.append({"number": number, "calls": count, "lines": []})

    def reply(self, _actor, _call, words, text):
        """A reply of the last actor."""
        if words[1] == "data":
            self.most_rung = max(self.most_rung, int(words[2]))
        self.actors[-1]["lines"].append(shortened(text[len(words[0]) + 1:]))

    def summary(self, name, numbers):
        """A line of the summary."""
        self.summary_lines[name] = numbers


def start_of(channel):
    """What an image tells of a channel before the run, for the page."""
    if channel is None:
        return {"state": [], "used": [], "rows": []}
    return {"state": [STATES.index(block.state) for block in channel.superblocks],
            "used": [block.used for block in channel.superblocks],
            "rows": [[row, slot[0]] for row, slot in enumerate(channel.rows) if slot is not None]}


def told_of(found, whole):
    """What the head of the page says."""
    entries, calls = (sum(part[name] for part in parts)
                      for parts, name in ((found.channels, "total"), (found.actors, "calls")))
    told = [f"{len(found.channels)} channels, {entries} entries, {calls} answered calls of {len(found.actors)} actors"]
    if found.written:
        told.append(f"write amplification {(found.written + found.moved) / found.written:.3f}")
    if found.left_out:
        told.append(f"{found.left_out} entries after the first {found.most} of a channel aren't shown")
    if not whole:
        told.append("the text is cut off")
    return told


def page_values(found, whole, name, head=None, channels=()):
    """All that the page is given, as values that JSON can hold."""
    starts = dict(enumerate(channels))
    rungs = found.summary_lines.get("rung", range(found.most_rung + 1))
    return {
        "name": name, "told": told_of(found, whole), "rungs": len(rungs), "whole_rungs": "rung" in found.summary_lines,
        "superblocks": head.superblocks if head else max(found.superblocks, 1),
        "slots": head.slots if head else found.slots,
        "channels": [{"number": channel["number"], "total": channel["total"], "text": packed(channel["lines"]),
                      "start": start_of(starts.get(channel["number"]))} for channel in found.channels],
        "actors": [{"number": actor["number"], "text": packed(actor["lines"])} for actor in found.actors]}
