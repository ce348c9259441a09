"""Reads the printed text of a run line by line: histories, replies and summary. It keeps nothing."""
import io

from ..faults import InputFault

MARK = "\ufffd"

KINDS = frozenset((
    "look", "sense", "leave", "write", "trim", "move", "changed", "condemn", "stay", "pick", "erase", "bad", "fault", "age",
    "refused", "note"))
# The lines of a summary, each with what its numbers count. The line on rungs has one number for each rung.
SUMMARY = {
    "write": ("ok", "full", "readonly", "diefault"),
    "read": ("data", "empty", "uncorrectable", "diefault"),
    "trim": ("trims",),
    "move": ("moves", "condemn", "condemns", "changed", "changes", "stay", "stays"),
    "pick": ("picks", "erase", "erases", "bad", "bads", "fault", "faults"),
    "sense": ("senses",),
    "rung": None,
    "hint": ("pushed", "dropped", "taken"),
}


class RunReader:
    """Tells a listener what the lines of a run say.

    The listener has the methods channel(c, count), entry(words, text), actor(a, count), reply(a, call, words, text) and
    summary(name, numbers). An entry's words are its position, its actor and call, its kind and what follows.
    """

    def __init__(self, source, name, listener):
        # Bytes that aren't ASCII come as a mark that no line of a run has.
        self.source = io.TextIOWrapper(source, encoding="ascii", errors="replace", newline="\n")
        self.name, self.listener, self.line = name, listener, 0

    def fault(self, text):
        """A fault of the line that was read last."""
        return InputFault(text, file=self.name, line=max(self.line, 1))

    def next_line(self):
        """The next line without its end, or None after the last one or where the last one was cut off."""
        text = self.source.readline()
        if not text.endswith("\n"):
            return None
        self.line += 1
        if MARK in text:
            raise self.fault("isn't text that a run prints")
        return text[:-1]

    def number(self, text, what):
        """A number of a line."""
        if not text.isdigit() or len(text) > 20:
            raise self.fault(f"{text[:40]!r} is no number: {what}")
        return int(text)

    def read(self):
        """Reads the whole text, and says whether it has its end."""
        text = self.next_line()
        if text is None:
            raise self.fault("isn't what a run prints: it has no whole line")
        while text is not None:
            words = text.split(" ")
            if words[0] == "summary" and len(words) == 1:
                return self.read_summary()
            if len(words) != 3 or words[0] not in ("channel", "actor"):
                raise self.fault(f"{text[:60]!r} isn't a line 'channel C N', 'actor A N' or 'summary' of a run")
            number, count = self.number(words[1], "which " + words[0]), self.number(words[2], "how many lines follow")
            read = self.read_entries if words[0] == "channel" else self.read_replies
            if not read(number, count):
                return False
            text = self.next_line()
        return False

    def read_entries(self, channel, count):
        """Reads the entries of a channel, and says whether they are all there."""
        self.listener.channel(channel, count)
        entry, next_line, kinds = self.listener.entry, self.next_line, KINDS
        for position in range(count):
            text = next_line()
            if text is None:
                return False
            words = text.split(" ")
            if len(words) < 3 or words[0] != str(position) or words[2] not in kinds:
                raise self.fault(f"{text[:60]!r} isn't entry {position} of channel {channel}")
            actor, _, call = words[1].partition(".")
            if not (actor.isdigit() and call.isdigit()):
                raise self.fault(f"{words[1]!r} isn't an actor and its call")
            try:
                entry(words, text)
            except (ValueError, IndexError):
                raise self.fault(f"{text[:60]!r} isn't an entry of a history") from None
        return True

    def read_replies(self, actor, count):
        """Reads the replies of an actor, and says whether they are all there."""
        self.listener.actor(actor, count)
        for call in range(count):
            text = self.next_line()
            if text is None:
                return False
            words = text.split(" ", 3)
            if len(words) < 2 or words[0] != str(call):
                raise self.fault(f"{text[:60]!r} isn't the reply to call {call} of actor {actor}")
            try:
                self.listener.reply(actor, call, words, text)
            except (ValueError, IndexError):
                raise self.fault(f"{text[:60]!r} isn't a reply") from None
        return True

    def read_summary(self):
        """Reads the summary, and says whether it has its end."""
        while (text := self.next_line()) is not None:
            words = text.split(" ")
            if words == ["end"]:
                if self.source.readline():
                    self.line += 1
                    raise self.fault("stands after the end of the run")
                return True
            due = SUMMARY.get(words[0], ())
            if words[0] not in SUMMARY or due is not None and len(words) != len(due) + 1:
                raise self.fault(f"{text[:60]!r} isn't a line of a summary")
            self.listener.summary(words[0], self.summary_numbers(words, due))
        return False

    def summary_numbers(self, words, due):
        """The numbers of a line of the summary: a list for rungs, else by what they count."""
        if due is None:
            return [self.number(word, "a rung") for word in words[1:]]
        # The lines of moves and picks name what they count between the numbers.
        named = len(due) > 4
        if named:
            pairs = zip([words[0], *words[2::2]], words[1::2])
        else:
            pairs = zip(due, words[1:])
        return {name: self.number(word, name) for name, word in pairs}
