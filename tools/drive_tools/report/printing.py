"""A report as text."""

WIDTH = 40
CHANNEL_COLUMNS = ("entries", "writes", "moves", "picks", "erases", "senses", "trims", "ages", "condemns")
REPLY_ORDER = ("ok", "data", "empty", "uncorrectable", "full", "readonly", "moved", "changed", "noroom", "failed",
               "collected", "retired", "idle", "drained", "diefault")


def shown(value):
    """A ratio as text."""
    return "-" if value is None else f"{value:.3f}"


def rung_name(rung, count):
    """The name of a rung, of so many."""
    if rung < count - 2:
        return f"read level {rung}"
    return "soft senses" if rung == count - 2 else "stripe parity"


def table(heads, rows):
    """Lines of a table with its columns to the right."""
    cells = [list(heads), *[[str(cell) for cell in row] for row in rows]]
    widths = [max(len(row[n]) for row in cells) for n in range(len(heads))]
    return ["  " + "  ".join(cell.rjust(width) for cell, width in zip(row, widths)) for row in cells]


def total_lines(report):
    """The lines on the whole run."""
    totals = report["totals"]
    yield (f"write amplification {shown(totals['write_amplification'])}: {totals['writes']} writes of the host and"
           f" {totals['moves']} moves")
    if "parity_pages" in totals:
        yield (f"                    {shown(totals['write_amplification_with_parity'])} with the {totals['parity_pages']}"
               " parity pages of full stripes")
    yield (f"erases {totals['erases']}, picks {totals['picks']}, senses {totals['senses']}, bad entries {totals['bad']},"
           f" fault entries {totals['faults']}, lost pages {totals['condemns']}")


def rung_lines(rungs):
    """The lines on reads by rung."""
    if not rungs:
        return
    total = sum(rungs)
    yield f"reads by rung, {total} with data:"
    for rung, count in enumerate(rungs):
        bar = "#" * (round(WIDTH * count / total) if total else 0) or ("." if count else "")
        share = 100 * count / total if total else 0
        yield f"  rung {rung:>2}  {rung_name(rung, len(rungs)):<14} {count:>9} {share:>5.1f}%  {bar}".rstrip()


def not_ok_lines(not_ok):
    """The lines on replies that aren't ok."""
    yield f"replies that aren't ok: {not_ok['count']}" + "".join(
        f"{', ' if n else ': '}{count} {word}" for n, (word, count) in enumerate(sorted(not_ok["by_reply"].items())))
    for named in not_ok["first"]:
        yield f"  actor {named['actor']} call {named['call']}: {named['reply']}"
    hidden = not_ok["count"] - len(not_ok["first"])
    if hidden > 0 and not_ok["first"]:
        yield f"  and {hidden} more"


def channel_lines(channels):
    """The table of channels."""
    if not channels:
        return
    yield "channels:"
    heads = ["channel", *CHANNEL_COLUMNS, "bad", "faults", "amplification"]
    yield from table(heads, [
        [counts["channel"], *[counts[name] for name in CHANNEL_COLUMNS], sum(counts["bad"].values()),
         sum(counts["faults"].values()), shown(counts["write_amplification"])] for counts in channels])


def actor_lines(actors):
    """The table of actors."""
    if not actors:
        return
    found = {word for counts in actors for word in counts["replies"]}
    order = [word for word in REPLY_ORDER if word in found] + sorted(found - set(REPLY_ORDER))
    rungs = sorted({rung for counts in actors for rung in counts["rungs"]}, key=int)
    yield "actors, with their replies and the rungs of their reads:"
    yield from table(["actor", "calls", *order, *[f"rung {rung}" for rung in rungs]], [
        [counts["actor"], counts["calls"], *[counts["replies"].get(word, 0) for word in order],
         *[counts["rungs"].get(rung, 0) for rung in rungs]] for counts in actors])


def report_lines(report):
    """All lines of a report."""
    entries = sum(counts["entries"] for counts in report["channels"])
    yield (f"{report['file']}: {len(report['channels'])} channels, {entries} entries, {len(report['actors'])} actors,"
           f" {sum(counts['calls'] for counts in report['actors'])} answered calls")
    if not report["whole"]:
        yield "the text is cut off: what is counted is a front of the run"
    yield from total_lines(report)
    for lines in (rung_lines(report["rungs"]), not_ok_lines(report["not_ok"]), channel_lines(report["channels"]),
                  actor_lines(report["actors"])):
        yield ""
        yield from lines
