"""The text of `blkparse` in its default form."""
import re

from ..faults import InputFault
from .requests import Request

SECTOR = 512
EVENT = re.compile(r"\s*(\d+,\d+)\s+(\d+)\s+(\d+)\s+(\d+\.\d+)\s+(\d+)\s+([A-Za-z]+)\s+([A-Z]+)(?:\s+(.*))?$")
# Of a message there is only its text, whatever it is.
MESSAGE = re.compile(r"\s*\d+,\d+\s+\d+\s+\d+\s+\d+\.\d+\s+\d+\s+m\s")
SECTORS = re.compile(r"(\d+) \+ (\d+)(?:\s|$)")
# The summary that blkparse prints after the events.
SUMMARY = re.compile(r"(CPU\s*\d+ \(|Total \(|Throughput \(|Events \(|Skips: |Input file )")


def _kind(flags):
    """The kind of request that the RWBS letters tell of, or None where it moves no data."""
    if "D" in flags:
        return "trim"
    if "R" in flags:
        return "read"
    return "write" if "W" in flags else None


def _request(log, line, event, left_out):
    """The request of an event that is taken, or None where it moves no data."""
    disk, _, _, time, process, _, flags, rest = event
    kind = _kind(flags)
    sectors = SECTORS.match(rest or "")
    if kind is None or not sectors:
        left_out[f"events that move no data, as {flags}"] += 1
        return None
    first, count = (log.number(line, field, text) for field, text in zip(("sector", "sectors"), sectors.groups()))
    if count == 0:
        left_out[f"requests {kind} of no byte"] += 1
        return None
    return Request(kind, disk, process, first * SECTOR, count * SECTOR, float(time))


def requests_of(log, action, left_out):
    """The requests of the events of one action, as Q for what was queued. All other events are left out."""
    seen = False
    for line, text in log.lines():
        if SUMMARY.match(text.lstrip()):
            return
        if not text.strip():
            continue
        seen = True
        if MESSAGE.match(text):
            left_out["messages"] += 1
            continue
        event = EVENT.match(text)
        if not event:
            raise log.fault(line, "isn't a line of blkparse: device, processor, number, time, process, action, kind")
        if event[6] != action:
            left_out[f"events of action {event[6]}"] += 1
            continue
        request = _request(log, line, event.groups(), left_out)
        if request:
            yield request
    if not seen:
        raise InputFault("has no event of blkparse", file=log.path, line=1)


def parts_of(logs, action, left_out):
    """The requests of each text."""
    return [requests_of(log, action, left_out) for log in logs]
