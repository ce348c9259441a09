"""What the commands of `ssd` give for an input: status, output and text on standard error."""
from collections import Counter, deque

from .code import Code, Pages
from .contents import fill, head_again, read_contents, saved
from .drive import Channel, HistoryLimit
from .inputs import Head, Stop, read_trace
from .policies import POLICIES

HISTORY_LIMIT = 2 ** 22
HINTS = 256


class Run:
    """The calls of a trace, served in the order of its lines."""

    def __init__(self, head, actors, contents, events, policy, limit):
        self.head, self.events = head, events
        pages = Pages(Code(head.lifting, head.base_rows), head.words)
        numbers = range(head.channels)
        self.channels = [Channel(head, pages, n, POLICIES[policy](), limit, events) for n in numbers]
        for channel, told in zip(self.channels, contents):
            fill(channel, told)
        self.replies = [[] for _ in range(actors)]
        self.writes, self.reads, self.rungs, self.trims = Counter(), Counter(), Counter(), 0
        self.hints, self.pushed, self.dropped, self.taken = deque(), 0, 0, 0

    def serve(self, call):
        number = len(self.replies[call.actor])
        tag, head = f"{call.actor}.{number}", self.head
        if call.verb == b"age":
            reply = self.channels[call.channel].age(tag, call.die, call.superblock, call.amount)
        elif call.verb == b"collect":
            reply = self.channels[call.channel].collect(tag)
        elif call.verb == b"drain":
            reply = self.drain(tag, call.count)
        elif call.verb == b"refresh":
            reply = self.refresh(tag, call.page)
        else:
            channel, row = self.place_of(call.page)
            if call.verb == b"write":
                serial = head.session * 2 ** 40 + call.actor * 2 ** 32 + number
                reply = channel.write(tag, row, serial, call.data)
                self.writes[reply] += 1
            elif call.verb == b"trim":
                reply = channel.trim(tag, row)
                self.trims += 1
            else:
                reply = channel.read(tag, row)
                self.count_read(call.page, reply)
        self.replies[call.actor].append(reply)

    def place_of(self, page):
        """The channel and the row of a page."""
        return self.channels[page % self.head.channels], page // self.head.channels

    def count_read(self, page, reply):
        words = reply.split()
        self.reads[words[0]] += 1
        if words[0] == "data":
            self.rungs[int(words[1])] += 1
            if words[1] != "0":
                self.hint(page)

    def hint(self, page):
        """Puts a page behind those that wait, where there is room."""
        if len(self.hints) == HINTS:
            self.dropped += 1
            return
        self.hints.append(page)
        self.pushed += 1
        self.events["a hint is pushed after one was taken"] += self.taken > 0
        self.events["a hint is pushed after one was dropped"] += self.dropped > 0

    def refresh(self, tag, page):
        channel, row = self.place_of(page)
        return channel.refresh(tag, row)

    def drain(self, tag, count):
        """Takes hints, one after the other, and refreshes the page of each before the next is taken."""
        waited, drained = len(self.hints), []
        while self.hints and len(drained) < count:
            page = self.hints.popleft()
            try:
                drained.append(f"{page}={self.refresh(tag, page)}")
            except HistoryLimit:
                self.events["a drain meets the limit after a refresh"] += len(drained) > 0
                self.events["a drain meets the limit at its first refresh"] += not drained
                raise
        self.taken += len(drained)
        self.events["a drain takes all hints that it may, and leaves some"] += len(drained) == count < waited
        self.events["a drain finds fewer hints than it may take"] += 0 < len(drained) < count
        self.events["a drain finds no hint"] += not drained
        return " ".join([f"drained {len(drained)}", *drained])

    def text(self):
        pieces = []
        for n, channel in enumerate(self.channels):
            pieces.append(f"channel {n} {len(channel.lines)}\n")
            pieces += channel.lines
        for actor, replies in enumerate(self.replies):
            pieces.append(f"actor {actor} {len(replies)}\n")
            pieces += [f"{n} {reply}\n" for n, reply in enumerate(replies)]
        return "".join(pieces) + self.summary()

    def summary(self):
        senses = sum(channel.kinds["sense"] for channel in self.channels)
        rungs = " ".join(str(self.rungs[rung]) for rung in range(len(self.head.read_levels) + 2))
        reads, writes = self.reads, self.writes
        kinds = sum([channel.kinds for channel in self.channels], Counter())
        return (
            f"summary\nwrite {writes['ok']} {writes['full']} {writes['readonly']} 0\n"
            f"read {reads['data']} {reads['empty']} {reads['uncorrectable']} 0\n"
            f"trim {self.trims}\n"
            f"move {kinds['move']} condemn {kinds['condemn']} changed 0 stay {kinds['stay']}\n"
            f"pick {kinds['pick']} erase {kinds['erase']} bad {kinds['bad']} fault 0\n"
            f"sense {senses}\nrung {rungs}\nhint {self.pushed} {self.dropped} {self.taken}\nend\n"
        )


def begun(data, events, policy="greedy", limit=HISTORY_LIMIT):
    """The run of an input before its first call, and the calls."""
    head, contents = Head(data), []
    at = head.size
    if head.full:
        contents, at = read_contents(data, head)
    actors, calls = read_trace(head, data[at:])
    return Run(head, actors, contents, events, policy, limit), calls


def served(data, events, policy, limit):
    """The run of an input at its end, and what stopped it before its last call, or None."""
    run, calls = begun(data, events, policy, limit)
    try:
        for call in calls:
            run.serve(call)
    except HistoryLimit as stop:
        events["history limit"] += 1
        return run, stop
    finally:
        events["hints pushed"] += run.pushed
        events["hints dropped"] += run.dropped
        events["hints taken"] += run.taken
    return run, None


def told(stop):
    """The text on standard error where the limit of a history stopped a run."""
    return f"history limit on channel {stop.channel} at {stop.length}\n"


def simulated(data, events, policy="greedy", history=HISTORY_LIMIT):
    """The status, the output and the text on standard error of `ssd run`. `events` counts what came up."""
    try:
        run, stopped = served(data, events, policy, history)
    except Stop as stop:
        return stop.status, "", stop.text
    return (0, run.text(), "") if stopped is None else (7, run.text(), told(stopped))


def saved_by(data, events, policy="greedy", history=HISTORY_LIMIT):
    """The same of `ssd save`, all in bytes. A run that was stopped is not saved."""
    try:
        run, stopped = served(data, events, policy, history)
    except Stop as stop:
        return stop.status, b"", stop.text.encode()
    return (0, saved(data, run), b"") if stopped is None else (7, b"", told(stopped).encode())


def formatted(data):
    """The same of `ssd format`."""
    try:
        head = Head(data)
        if head.full:
            read_contents(data, head)
    except Stop as stop:
        return stop.status, b"", stop.text.encode()
    return 0, head_again(data, head) + b"\0", b""


def saved_after(data, change=lambda run: None):
    """The full image of the drive after all calls of an input, and after a change of the run."""
    run, calls = begun(data, Counter())
    for call in calls:
        run.serve(call)
    change(run)
    return saved(data, run)
