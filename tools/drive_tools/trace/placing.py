"""Where the bytes of a workload stand on a drive: requests to calls on pages."""
from collections import Counter

from ..faults import InputFault
from .writing import MOST_ACTORS

# A request that touches more pages than a trace has calls is no request of a drive this small.
MOST_PAGES = 2 ** 20
FITS = ("drop", "wrap", "pack")
DONE = {"read": "read", "write": "written"}


class Survey:
    """What a first reading of a workload gives: how far each disk reaches, and who asks."""

    def __init__(self, requests):
        self.ends, self.jobs, self.count = {}, {}, 0
        for request in requests:
            self.count += 1
            end = request.offset + request.length
            self.ends[request.disk] = max(self.ends.get(request.disk, 0), end)
            self.jobs.setdefault(request.job, len(self.jobs))


class Actors:
    """Which actor makes the calls of a request: one for each job or disk, or a number of them in turn."""

    def __init__(self, choice, survey):
        self.choice = choice
        self.numbers = survey.jobs if choice == "job" else {disk: n for n, disk in enumerate(survey.ends)}
        self.found = len(self.numbers) if choice in ("job", "disk") else choice
        self.count = min(self.found, MOST_ACTORS)
        self.turn = 0

    def of(self, request):
        """The actor of a request."""
        if self.choice == "job":
            return self.numbers[request.job] % self.count
        if self.choice == "disk":
            return self.numbers[request.disk] % self.count
        self.turn += 1
        return (self.turn - 1) % self.count


class Pages:
    """The pages of the drive that a request touches.

    By `drop` and `wrap` the disks stand one after the other; what is beyond the drive is left out by the one and begins
    again at page 0 by the other. By `pack` pages get the next number when they are first touched.
    """

    def __init__(self, head, page_bytes, fit, survey):
        self.count, self.page_bytes, self.fit = head.host_pages, page_bytes, fit
        self.packed, self.bases, base = {}, {}, 0
        for disk, end in survey.ends.items():
            self.bases[disk] = base
            base += -(-end // page_bytes)

    def _numbered(self, disk, page):
        """The page of the drive for a page of a disk, or None where the drive has no room."""
        if self.fit == "pack":
            if (disk, page) not in self.packed and len(self.packed) < self.count:
                self.packed[disk, page] = len(self.packed)
            return self.packed.get((disk, page))
        page += self.bases[disk]
        if self.fit == "wrap":
            return page % self.count
        return page if page < self.count else None

    def add(self, writer, actor, request):
        """Adds the calls of a request."""
        size, end = self.page_bytes, request.offset + request.length
        first, past = request.offset // size, -(-end // size)
        parts = (request.offset % size != 0) + (end % size != 0)
        if past - first == 1:
            parts = min(parts, 1)
        if request.kind == "trim" and parts:
            # A page that is trimmed in part keeps the rest of its bytes.
            writer.left_out["pages that a trim covers only in part"] += parts
            first, past = -(-request.offset // size), end // size
        elif parts:
            writer.notes[f"pages that a {request.kind} touches only in part and that are {DONE[request.kind]} whole"] += parts
        if past - first > MOST_PAGES:
            writer.left_out[f"requests of more than {MOST_PAGES} pages"] += 1
            return
        for page in range(first, past):
            number = self._numbered(request.disk, page)
            if number is None:
                writer.left_out[f"calls on pages that the drive's {self.count} have no room for"] += 1
            else:
                writer.add(actor, request.kind, number)


class Placing:
    """How a workload is laid on a drive. `read_again` gives all its requests anew, and counts what it leaves out."""

    def __init__(self, read_again, head, page_bytes, fit, actors, name):
        self.read_again = read_again
        self.survey = Survey(read_again(Counter()))
        if not self.survey.count:
            raise InputFault("has no read, write or trim that is taken", file=name)
        self.actors = Actors(actors, self.survey)
        self.pages = Pages(head, page_bytes or head.data_bytes, fit, self.survey)

    def write(self, writer):
        """Writes the calls of all requests."""
        for request in self.read_again(writer.left_out):
            self.pages.add(writer, self.actors.of(request), request)
        if self.actors.found > MOST_ACTORS:
            writer.notes[f"jobs or disks share the {MOST_ACTORS} actors that a trace can have"] += self.actors.found
