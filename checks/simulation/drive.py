"""The channels of a blank drive: cells, page map, the ladder of read retry, and histories."""
import struct
from collections import Counter

from .random_words import words_of

SOFT_VALUES = (-96, -48, -16, 16, 48, 96)
# A look sets aside this many entries of its history.
LOOK_ENTRIES = 256


def hard_values(sense, count):
    return [-32 if sense >> i & 1 else 32 for i in range(count)]


def soft_values(senses, count):
    """The value of each cell, by how many of five senses give 0."""
    return [SOFT_VALUES[5 - sum([sense >> i & 1 for sense in senses])] for i in range(count)]


class HistoryLimit(Exception):
    """A step that found no room in the history of a channel."""

    def __init__(self, channel, length):
        super().__init__(channel, length)
        self.channel, self.length = channel, length


class Cells:
    """The cell levels of a channel's programmed pages, each under its place: die, superblock, page; and how often
    each superblock was erased."""

    def __init__(self, head, channel):
        self.head, self.channel, self.levels, self.erases = head, channel, {}, Counter()
        self.count = head.words * head.lifting * head.column_count

    def program(self, place, word):
        head, (die, sb, page) = self.head, place
        number = ((self.channel * head.dies + die) * head.superblocks + sb) * head.pages + page
        noise = words_of((head.seed + number * 2 ** 32 + self.erases[sb]) % 2 ** 64)
        levels = []
        while len(levels) < self.count:
            four = next(noise)
            for lane in range(min(4, self.count - len(levels))):
                level = head.erased if word >> len(levels) & 1 else head.programmed
                u = four >> 16 * lane & 0xffff
                levels.append(level + u % (2 * head.spread + 1) - head.spread)
        self.levels[place] = levels

    def age(self, die, sb, amount):
        erased = self.head.erased
        for place, levels in self.levels.items():
            if place[:2] == (die, sb):
                levels[:] = [max(erased, g - amount) if g > erased else g for g in levels]

    def erase(self, sb):
        self.erases[sb] += 1
        for place in [place for place in self.levels if place[1] == sb]:
            del self.levels[place]

    def erase_below(self, below, sb):
        """Erases the blocks of a superblock that turns bad, up to the die that answered FAIL."""
        for place in [place for place in self.levels if place[1] == sb and place[0] < below]:
            del self.levels[place]

    def sense(self, place, level):
        return int("".join(["1" if g < level else "0" for g in reversed(self.levels[place])]), 2)


class Ladder:
    """One reading of a page by read retry: the senses that it asked, and what it came to. What comes up is
    counted beside the number of codewords of a page."""

    def __init__(self, head, pages, cells, events):
        self.head, self.pages, self.cells, self.events = head, pages, cells, events
        self.asks, self.whose = [], "the page"

    def came(self, what, how_often=1):
        self.events[what, self.head.words] += how_often

    def sense(self, place, level):
        self.asks.append((place, level))
        return self.cells.sense(place, level)

    def searched(self, place, accepts):
        """What the read levels and then the soft senses find at a place: rung and page, or None."""
        kept, failed, dropped = {}, [], False
        for rung, level in enumerate(self.head.read_levels):
            raw = self.sense(place, level)
            page = self.completed(kept, rung, hard_values(raw, self.pages.bits), accepts)
            if page is not None and accepts(page):
                self.came("a page is found after all its kept words were dropped", dropped)
                return rung, page
            if page is not None:
                kept.clear()
                dropped = True
            failed.append([self.pages.code.failed_checks(word) for word in self.pages.codewords(raw)])
        level, step = self.head.read_levels[self.centre(failed, kept)], self.head.soft_step
        senses = [self.sense(place, level + n * step) for n in (-2, -1, 0, 1, 2)]
        self.came("soft senses go on with what is kept", len(kept) > 0)
        values = soft_values(senses, self.pages.bits)
        page = self.completed(kept, len(self.head.read_levels), values, accepts)
        if page is not None and accepts(page):
            return len(self.head.read_levels), page
        self.came("codewords are kept of a page that isn't found", 0 < len(kept) < self.pages.count)
        return None

    def centre(self, failed, kept):
        """The first read level at which all codewords together, kept or not, failed the fewest checks."""
        totals = [sum(counts) for counts in failed]
        first = totals.index(min(totals))
        self.came("a later level has the fewest failed checks", first > 0)
        others = [sum([n for part, n in enumerate(counts) if part not in kept]) for counts in failed]
        self.came("the codewords that aren't kept failed the fewest checks at another level",
                  others.index(min(others)) != first)
        return first

    def completed(self, kept, rung, values, accepts):
        """Decodes each codeword that has no kept word, and keeps what is found: under the codeword's number
        the rung and the word. Answers the page where each codeword has a kept word."""
        shares = self.pages.shares(values)
        for part, share in enumerate(shares):
            if part not in kept:
                found = self.pages.code.decode(share, self.head.iterations)
                if found is not None:
                    kept[part] = rung, found[1]
                    self.came("a word is found after iterations", found[0] > 0)
        if len(kept) < self.pages.count:
            return None
        page = self.pages.page_of([kept[part][1] for part in range(self.pages.count)])
        self.count_kept(kept, rung, shares, accepts(page))
        return page

    def count_kept(self, kept, rung, shares, accepted):
        """Counts what a page of kept words shows, some of which may be from earlier senses."""
        soft = rung == len(self.head.read_levels)
        earlier = [part for part in kept if kept[part][0] < rung]
        if not accepted:
            self.came("codewords aren't of the page")
            self.came(f"{'soft' if soft else 'hard'} senses find all codewords of another page")
            self.came("codewords that different senses found aren't of the page", len(earlier) > 0)
        elif earlier:
            self.came(f"{self.whose} is found codeword by codeword")
            self.came("soft senses find the rest of a page", soft)
            alone = [self.pages.code.decode(shares[part], self.head.iterations) for part in earlier]
            self.came("a word is kept that the last sense doesn't give", None in alone)

    def recovered(self, place, expected, closed):
        """The rung and the page that was written at a place, or None where it can't be recovered."""
        found = self.searched(place, expected)
        if found is not None:
            kind = "soft senses" if found[0] == len(self.head.read_levels) else "a read level"
            self.came(f"recovered by {kind if found[0] else 'the first read level'}")
            return found
        if not closed:
            self.came("uncorrectable in an open stripe")
            return None
        self.whose = "another page of the stripe"
        die, sb, page = place
        total = 0
        for other in range(self.head.dies):
            if other != die:
                found = self.searched((other, sb, page), lambda page: True)
                if found is None:
                    self.came("uncorrectable in a closed stripe: a page has no codewords")
                    return None
                self.came("a page of the stripe needed more than one level", found[0] > 0)
                total ^= found[1]
        if not expected(total):
            self.came("uncorrectable in a closed stripe: the sum isn't the page")
            return None
        self.came("recovered by the stripe")
        return len(self.head.read_levels) + 1, total


class Channel:
    def __init__(self, head, pages, number, policy, limit, events):
        self.head, self.pages, self.number, self.policy, self.limit = head, pages, number, policy, limit
        self.events = events
        self.cells = Cells(head, number)
        self.lines, self.kinds = [], Counter()
        self.rows = {}
        self.free, self.frontier, self.used = head.good(number), None, Counter()
        self.sealed, self.stripe_sum, self.victim = [], 0, None
        # A row without an entry is empty, and one with None is lost.
        self.weak = {(die, sb): erases for owner, die, sb, erases in head.weak if owner == number}
        self.ladders = {}

    def add(self, tag, kind, text):
        self.kinds[kind] += 1
        self.lines.append(f"{len(self.lines)} {tag} {kind} {text}\n")

    def need_room(self, entries):
        if len(self.lines) + entries > self.limit:
            raise HistoryLimit(self.number, len(self.lines))

    def place_of(self, sb, index):
        """The die, superblock and page of a slot, and the die of its stripe's parity."""
        stripe, n = divmod(index, self.head.dies - 1)
        parity = (sb + stripe) % self.head.dies
        return (n if n < parity else n + 1, sb, stripe), parity

    def is_closed(self, sb, index):
        width = self.head.dies - 1
        return (index // width + 1) * width <= self.used[sb]

    def start_of(self, row, serial):
        """The payload before the data."""
        return struct.pack("<QI", serial, row) + b"PGE1"

    def has_room(self):
        return len(self.free) >= (1 if self.frontier is not None else 2)

    def live(self, sb):
        """The rows of a superblock's live pages, in the order of their slots."""
        live = [(page[1], row) for row, page in self.rows.items() if page is not None and page[0] == sb]
        return [row for _, row in sorted(live)]

    def garbage(self):
        """The sealed superblocks that have garbage, each with how much."""
        kept = {sb: self.head.slots - len(self.live(sb)) for sb in self.sealed}
        return {sb: count for sb, count in kept.items() if count}

    def is_worn(self):
        left = 0 if self.frontier is None else self.head.slots - self.used[self.frontier]
        return not self.free and (self.victim is None or left < len(self.live(self.victim)))

    def refusal(self):
        """How a write that finds no room is refused, or None where it has to make room."""
        if self.is_worn():
            return "readonly"
        if self.free and self.victim is None and not self.garbage():
            return "full"
        return None

    def is_weak(self, die, sb):
        return self.cells.erases[sb] >= self.weak.get((die, sb), self.cells.erases[sb] + 1)

    def failed_die(self, sb, index, word):
        """Programs a word into a slot, and its stripe's sum after the last slot of that. Answers the die that
        answered FAIL, or None."""
        place, parity = self.place_of(sb, index)
        if self.is_weak(place[0], sb):
            self.events["a program of a page answers FAIL"] += 1
            return place[0]
        self.cells.program(place, word)
        self.stripe_sum ^= word
        if (index + 1) % (self.head.dies - 1):
            return None
        if self.is_weak(parity, sb):
            self.events["a program of a parity answers FAIL"] += 1
            return parity
        self.cells.program((parity, *place[1:]), self.stripe_sum)
        self.stripe_sum = 0
        return None

    def tried(self, tag, word, what, done):
        """Programs a word into the next slot, and answers it, or None where its superblock turned bad."""
        if self.frontier is None:
            self.frontier = min(self.free, key=lambda sb: (self.cells.erases[sb], sb))
            self.free.remove(self.frontier)
        sb, index = self.frontier, self.used[self.frontier]
        self.ladders.clear()
        die = self.failed_die(sb, index, word)
        if die is not None:
            self.frontier, self.stripe_sum = None, 0
            self.add(tag, "bad", f"{what} {sb}.{index} {die} fail")
            return None
        self.used[sb] += 1
        if self.used[sb] == self.head.slots:
            self.sealed.append(sb)
            self.frontier = None
        self.add(tag, *done(f"{sb}.{index}"))
        return sb, index

    def write(self, tag, row, serial, data):
        word = self.pages.word_of(int.from_bytes(self.start_of(row, serial) + data, "little"))
        slot, tries = None, 0
        while slot is None:
            self.need_room(1)
            if self.has_room():
                slot = self.tried(tag, word, f"write {row}", lambda slot: ("write", f"{row} {slot}"))
                tries += 1
                continue
            state = self.refusal()
            if state is not None:
                self.events[f"a write is refused as {state}"] += 1
                self.add(tag, "refused", f"{row} {state}")
                return state
            self.events["a write has to make room"] += 1
            self.round(tag)
        self.events["a write is tried three times"] += tries == 3
        self.rows[row] = (*slot, serial)
        return "ok"

    def round(self, tag):
        """One round of collection: a victim is picked, or there is one; its live pages are copied out, and it is
        erased. Answers the reply that an erase decides, or None."""
        self.need_room(1)
        garbage = self.garbage()
        if self.victim is None and self.free and garbage:
            self.victim = self.policy.picked(garbage)
            self.sealed.remove(self.victim)
            self.add(tag, "pick", self.victim)
        if self.victim is None:
            return None
        self.need_room(LOOK_ENTRIES)
        while self.live(self.victim):
            if not self.copy(tag, self.live(self.victim)[0]):
                return None
            self.need_room(LOOK_ENTRIES)
        return self.erase(tag)

    def copy(self, tag, row):
        """Copies a page out of the victim, and answers whether the round goes on."""
        at = self.look(tag, row)
        asks, _, page = self.ladder(row)
        self.sensed(tag, at, asks)
        goes_on = True
        if page is None:
            self.rows[row] = None
            self.add(tag, "condemn", at)
            self.events["a page is condemned"] += 1
        else:
            reply = self.moved(tag, at, row, page)
            goes_on = reply in ("moved", "failed")
            self.events["a page is copied"] += reply == "moved"
            self.events["a copy answers FAIL"] += reply == "failed"
            self.events["a page of a worn channel stays"] += not goes_on
        self.add(tag, "leave", at)
        return goes_on

    def moved(self, tag, at, row, page):
        """Copies a page that was found to the next slot, and answers the reply of a refresh. A page of the victim
        may take any slot; another one only where a write finds room."""
        sb, _, serial = self.rows[row]
        has_room = self.has_room() if sb != self.victim else self.frontier is not None or len(self.free) > 0
        if not has_room:
            reply = "readonly" if self.is_worn() else "noroom"
            self.add(tag, "stay", f"{at} {reply}")
            return reply
        slot = self.tried(tag, page, f"copy {at}", lambda slot: ("move", f"{at} {slot}"))
        if slot is None:
            return "failed"
        self.rows[row] = (*slot, serial)
        return "moved"

    def erase(self, tag):
        sb, self.victim = self.victim, None
        self.ladders.clear()
        weak = [die for die in range(self.head.dies) if self.is_weak(die, sb)]
        if weak:
            self.used[sb] = 0
            self.cells.erase_below(weak[0], sb)
            self.add(tag, "bad", f"erase {sb} {weak[0]} fail")
            return f"retired {sb}"
        self.cells.erase(sb)
        self.used[sb] = 0
        self.free.append(sb)
        self.policy.erased(sb)
        self.add(tag, "erase", sb)
        return f"collected {sb}"

    def collect(self, tag):
        while True:
            reply = self.round(tag)
            if reply is not None:
                return reply
            self.need_room(1)
            live = 0 if self.victim is None else len(self.live(self.victim))
            victim, garbage = "-" if self.victim is None else self.victim, len(self.garbage())
            self.add(tag, "note", f"{len(self.free)} {victim} {live} 0 {garbage}")
            if live or (self.victim is None and not (garbage and self.free)):
                self.events["a collect is idle"] += 1
                return "idle"

    def trim(self, tag, row):
        self.need_room(1)
        self.rows.pop(row, None)
        self.add(tag, "trim", row)
        return "ok"

    def age(self, tag, die, sb, amount):
        self.need_room(1)
        self.cells.age(die, sb, amount)
        self.ladders.clear()
        self.add(tag, "age", f"{die}.{sb} {amount}")
        return "ok"

    def read(self, tag, row):
        missing = self.looked_in_vain(tag, row)
        if missing is not None:
            self.events["a lost row is read"] += missing == "uncorrectable"
            return missing
        sb, _, _ = self.rows[row]
        # A superblock with a used slot is sealed, the frontier, the victim or bad.
        self.events["a page of a bad superblock is read"] += sb not in [*self.sealed, self.frontier, self.victim]
        at = self.look(tag, row)
        asks, reply, _ = self.ladder(row)
        self.sensed(tag, at, asks)
        self.add(tag, "leave", at)
        return reply

    def refresh(self, tag, row):
        """Copies the page of a row to a new slot. One that isn't recovered stays where it is."""
        reply = self.looked_in_vain(tag, row)
        if reply is not None:
            self.events["a lost row is refreshed"] += reply == "uncorrectable"
            self.events["an empty row is refreshed"] += reply == "empty"
            return reply
        at = self.look(tag, row)
        asks, reply, page = self.ladder(row)
        self.sensed(tag, at, asks)
        if page is not None:
            reply = self.moved(tag, at, row, page)
        self.add(tag, "leave", at)
        self.events[f"a page is refreshed: {reply}"] += 1
        return reply

    def looked_in_vain(self, tag, row):
        """Looks at a row that has no page, and answers the reply; or None where the row has one."""
        self.need_room(LOOK_ENTRIES)
        if row not in self.rows:
            self.add(tag, "look", f"{row} empty")
            return "empty"
        if self.rows[row] is None:
            self.add(tag, "look", f"{row} lost")
            return "uncorrectable"
        return None

    def look(self, tag, row):
        """Looks at a row's page, and answers where the look began."""
        at, (sb, index, serial) = len(self.lines), self.rows[row]
        state = "closed" if self.is_closed(sb, index) else "open"
        self.add(tag, "look", f"{row} page {sb}.{index} {serial} {state}")
        return at

    def sensed(self, tag, at, asks):
        self.kinds["sense"] += len(asks)
        first = len(self.lines)
        self.lines += [f"{n} {tag} sense {at} {ask}\n" for n, ask in enumerate(asks, first)]

    def ladder(self, row):
        """The senses, the reply of a read, and the page that was found. Until the next program, erase or ageing they
        stay the same."""
        if row not in self.ladders:
            sb, index, serial = self.rows[row]
            ladder = Ladder(self.head, self.pages, self.cells, self.events)
            start, end = self.start_of(row, serial), 16 + self.head.data_bytes

            def is_the_page(page):
                payload = self.pages.payload_of(page)
                parts = {"serial": slice(0, 8), "row": slice(8, 12), "text": slice(12, 16)}
                wrong = [name for name, part in parts.items() if payload[part] != start[part]]
                wrong += ["end"] if any(payload[end:]) else []
                if len(wrong) == 1:
                    ladder.came(f"a page is wrong in its {wrong[0]} alone")
                return not wrong

            place, _ = self.place_of(sb, index)
            found = ladder.recovered(place, is_the_page, self.is_closed(sb, index))
            reply, page = "uncorrectable", None
            if found is not None:
                page = found[1]
                reply = f"data {found[0]} {self.pages.payload_of(found[1])[16:end].hex()}"
            asks = [f"{die}.{block}.{page} {level}" for (die, block, page), level in ladder.asks]
            self.ladders[row] = asks, reply, page
        return self.ladders[row]
