"""The logs that fio writes by `write_iolog`, of versions 2 and 3."""
from ..faults import InputFault
from .requests import Request

FILE_ACTIONS = ("add", "open", "close")
# What a line may do to bytes of its file, and the kind of request that it is.
KINDS = {"read": "read", "write": "write", "trim": "trim"}
LEFT_OUT = ("sync", "datasync", "sync_file_range", "wait")


def version_of(log):
    """The version of a log, 2 or 3, by its first line."""
    for line, text in log.lines():
        words = text.split()
        if words[:2] == ["fio", "version"] and words[3:] == ["iolog"] and words[2] in ("2", "3"):
            return int(words[2])
        raise log.fault(line, "isn't 'fio version 2 iolog' or 'fio version 3 iolog'")
    raise InputFault("is empty: it has to begin with 'fio version 2 iolog' or 'fio version 3 iolog'", file=log.path, line=1)


def _parts(log, line, words):
    """The file, the action, the offset and the length of a line; the last two are None where the line has none."""
    if len(words) >= 2 and words[-1] in FILE_ACTIONS:
        return " ".join(words[:-1]), words[-1], None, None
    if len(words) < 4:
        raise log.fault(line, "isn't a file, an action, an offset and a length")
    action = words[-3]
    if action not in KINDS and action not in LEFT_OUT:
        known = ", ".join([*FILE_ACTIONS, *KINDS, *LEFT_OUT])
        raise log.fault(line, f"{action!r} is none of {known}", "action")
    return " ".join(words[:-3]), action, log.number(line, "offset", words[-2]), log.number(line, "length", words[-1])


def requests_of(log, version, left_out):
    """The requests of a log. Actions on whole files and what moves no data are counted as left out."""
    lines = log.lines()
    next(lines)
    made = 0
    for line, text in lines:
        words = text.split(" ")
        if not text.strip():
            continue
        if words[:2] == ["fio", "version"]:
            raise log.fault(line, "another run's log begins here: fio appends to a log that is there, so give each run its own")
        time = made
        if version == 3:
            time = log.number(line, "time", words[0])
            words = words[1:]
        disk, action, offset, length = _parts(log, line, words)
        if action in FILE_ACTIONS:
            continue
        if action in LEFT_OUT or length == 0:
            left_out[f"requests {action}" + ("" if action in LEFT_OUT else " of no byte")] += 1
            continue
        made += 1
        yield Request(KINDS[action], disk, log.path, offset, length, time)


def parts_of(logs, left_out):
    """The requests of each log. Logs without times (version 2) are taken in turn, one request of each."""
    versions = [version_of(log) for log in logs]
    if len(set(versions)) > 1:
        raise InputFault("is of another version than the first log, so the two have no order", file=next(
            log.path for log, version in zip(logs, versions) if version != versions[0]), line=1)
    return [requests_of(log, version, left_out) for log, version in zip(logs, versions)]
