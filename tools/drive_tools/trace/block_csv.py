"""Block traces in CSV, in the form of the MSR Cambridge traces: timestamp, host, disk, type, offset, size, response time."""
import csv

from ..faults import InputFault
from .requests import Request

FIELDS = ("timestamp", "hostname", "disk", "type", "offset", "size", "response time")
KINDS = {"read": "read", "write": "write", "trim": "trim"}


def _cells(log, line, text):
    """The fields of a line."""
    try:
        cells = [cell.strip() for cell in next(csv.reader([text], strict=True))]
    except csv.Error as fault:
        raise log.fault(line, f"no CSV: {fault}") from None
    if len(cells) not in (len(FIELDS), len(FIELDS) - 1):
        raise log.fault(line, f"has {len(cells)} fields, not the {len(FIELDS)} {', '.join(FIELDS)}")
    return cells


def requests_of(log, left_out):
    """The requests of a trace. A first line with the fields' names is passed over."""
    seen = False
    for line, text in log.lines():
        if not text.strip() or line == 1 and text.lower().lstrip("\ufeff").startswith("timestamp"):
            continue
        seen = True
        cells = _cells(log, line, text)
        time, host, disk, kind = cells[:4]
        if kind.lower() not in KINDS:
            raise log.fault(line, f"{kind!r} is none of Read, Write, Trim", "type")
        time, offset, size = (log.number(line, field, cell)
                              for field, cell in zip(("timestamp", "offset", "size"), (time, cells[4], cells[5])))
        if size == 0:
            left_out[f"requests {kind.lower()} of no byte"] += 1
            continue
        yield Request(KINDS[kind.lower()], f"{host}.{disk}", host, offset, size, time)
    if not seen:
        raise InputFault(f"has no line of {', '.join(FIELDS)}", file=log.path, line=1)


def parts_of(logs, left_out):
    """The requests of each trace."""
    return [requests_of(log, left_out) for log in logs]
