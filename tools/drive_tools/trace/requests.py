"""Requests of a workload as logs tell them, before they are pages of a drive."""
import contextlib
import heapq
import shutil
import sys
import tempfile
from dataclasses import dataclass

from ..faults import InputFault

LONGEST_LINE = 65_536


@dataclass(slots=True)
class Request:
    """A read, write or trim of bytes of a disk, at a time that only orders it among others."""

    kind: str
    disk: str
    job: str
    offset: int
    length: int
    time: float


class Log:
    """A log that can be read several times, with the name that faults give it."""

    def __init__(self, path):
        self.path = path
        self.kept = None
        if path == "-":
            self.kept = tempfile.TemporaryFile()
            shutil.copyfileobj(sys.stdin.buffer, self.kept)

    @contextlib.contextmanager
    def opened(self):
        """The file of bytes, at its beginning."""
        if self.kept is not None:
            self.kept.seek(0)
            yield self.kept
            return
        with open(self.path, "rb") as file:
            yield file

    def lines(self):
        """The number and the text of each line, without its end."""
        with self.opened() as file:
            number = 0
            while data := file.readline(LONGEST_LINE):
                number += 1
                if len(data) == LONGEST_LINE and not data.endswith(b"\n"):
                    raise self.fault(number, f"the line has more than {LONGEST_LINE} bytes")
                yield number, data.decode(errors="replace").rstrip("\r\n")

    def fault(self, line, text, field=None):
        """A fault of a line."""
        return InputFault(text, file=self.path, line=line, field=field)

    def number(self, line, field, text):
        """A number of a line, below 2^64."""
        if not text.isascii() or not text.isdigit():
            raise self.fault(line, f"{text[:40]!r} is no number", field)
        if len(text.lstrip("0")) > 20 or int(text) >= 2 ** 64:
            raise self.fault(line, f"{text[:40]} is 2^64 or more", field)
        return int(text)


def in_order(parts):
    """The requests of several logs by their times; of the same time those of an earlier log come first."""
    if len(parts) == 1:
        return iter(parts[0])
    return heapq.merge(*parts, key=lambda request: request.time)
