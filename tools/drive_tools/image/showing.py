"""What an image says, as text and as plain values for JSON."""
from .head import NUMBERS

WIDTH = 50
MOST_BINS = 32


def plain_values(head, channels, levels, after):
    """All that is shown, as values that JSON can hold."""
    numbers = {name: getattr(head, name) for name, _ in NUMBERS}
    return {
        "version": head.version, "words": head.words, **numbers, "levels": head.levels, "matrix": head.matrix,
        "weak": [list(record) for record in head.weak], "bad": [list(record) for record in head.bad],
        "contents": "full" if head.contents else "blank", "cells": head.cells, "bytes_after": after,
        "channels_shown": [channel_values(channel) for channel in channels],
        "histogram": {str(level): levels[level] for level in sorted(levels)},
    }


def channel_values(channel):
    """A channel as plain values."""
    return {"rows_in_use": channel.in_use, "rows_lost": channel.lost, "rows": len(channel.rows),
            "superblocks": [{"state": block.state, "erases": block.erases, "used": block.used, "live": block.live,
                             "programmed": block.programmed} for block in channel.superblocks]}


def head_lines(head):
    """The lines on the head."""
    spare = 100 * (head.superblocks * head.slots * head.channels - len(head.bad) * head.slots) / head.host_pages - 100
    yield f"image of version {head.version}, {'with contents' if head.contents else 'blank'}"
    yield (f"sizes      channels {head.channels}, dies per channel {head.dies}, superblocks {head.superblocks},"
           f" pages per block {head.pages}")
    yield f"           {head.slots} data slots a superblock, {head.cells} cells in all"
    yield (f"host       {head.host_pages} pages of {head.data_bytes} bytes, {head.rows} rows a channel,"
           f" over-provisioning {spare:.1f} percent")
    words = "one codeword" if head.words == 1 else f"{head.words} codewords"
    yield (f"code       {words} a page, lifting size {head.lifting}, {head.base_rows} base rows,"
           f" {head.base_columns} base columns,")
    yield f"           payload {head.payload_bytes} bytes, at most {head.iterations} iterations"
    yield f"cells      erased {head.erased}, programmed {head.programmed}, spread of noise {head.spread}, seed {head.seed}"
    yield f"reading    read levels {', '.join(map(str, head.levels))}; soft step {head.soft_step}"
    yield f"session    {head.session}"
    yield from weak_lines(head)


def weak_lines(head):
    """The lines on the base matrix and on weak and bad blocks."""
    yield "base matrix, -1 as a dot:"
    for base_row in head.matrix:
        yield "  " + " ".join(f"{'.' if entry == -1 else entry:>4}" for entry in base_row)
    for channel, die, sb, start in head.weak:
        yield f"weak       channel {channel}, die {die}, superblock {sb}, from {start} erases on"
    for channel, sb in head.bad:
        yield f"bad        channel {channel}, superblock {sb}"


def channel_lines(number, channel):
    """The lines on the contents of a channel."""
    yield f"channel {number}: {channel.in_use} of {len(channel.rows)} rows in use, {channel.lost} lost"
    yield "  superblock state       erases     used     live  programmed pages by die"
    for sb, block in enumerate(channel.superblocks):
        yield (f"  {sb:>10} {block.state:<8} {block.erases:>9} {block.used:>8} {block.live:>8}  "
               + " ".join(map(str, block.programmed)))


def binned(levels, most=MOST_BINS):
    """Counts of levels in at most so many bins of the same width: first level, last level and count of each."""
    low, high = min(levels), max(levels)
    width = -(-(high - low + 1) // most)
    counts = [0] * -(-(high - low + 1) // width)
    for level, count in levels.items():
        counts[(level - low) // width] += count
    return [(low + n * width, min(low + (n + 1) * width - 1, high), count) for n, count in enumerate(counts)]


def histogram_lines(levels):
    """The lines of the histogram of levels. Where no cell has a level of several bins there is one line for them."""
    if not levels:
        return
    yield f"cell levels of programmed pages, {sum(levels.values())} cells:"
    bins = binned(levels)
    most, gap = max(count for _, _, count in bins), False
    for low, high, count in bins:
        name = str(low) if low == high else f"{low} to {high}"
        if count:
            yield f"  {name:>16} {count:>10} {'#' * round(WIDTH * count / most) or '.'}"
        elif not gap:
            yield f"  {'..':>16} {0:>10}"
        gap = not count


def shown_lines(head, channels, levels, after):
    """All lines of an image that is shown."""
    yield from head_lines(head)
    if head.contents:
        for number, channel in enumerate(channels):
            yield from channel_lines(number, channel)
        yield from histogram_lines(levels)
    if after:
        yield f"after the image: {after} bytes, as of a trace"


def description_text(head):
    """A description from which the same head is made again."""
    lines = [f"version = {head.version}", "", "[sizes]"]
    lines += [f"{name} = {getattr(head, name)}"
              for name in ("channels", "dies", "superblocks", "pages", "data_bytes", "rows", "words")]
    lines += ["", "[code]", f"lifting = {head.lifting}", f"iterations = {head.iterations}", "matrix = ["]
    lines += [f"    {base_row}," for base_row in head.matrix]
    lines += ["]", "", "[cells]"]
    lines += [f"{name} = {getattr(head, name)}" for name in ("erased", "programmed", "spread", "seed", "session")]
    lines += ["", "[reading]", f"levels = {head.levels}", f"soft_step = {head.soft_step}"]
    for channel, die, sb, start in head.weak:
        lines += ["", "[[weak]]", f"channel = {channel}", f"die = {die}", f"superblock = {sb}", f"from = {start}"]
    for channel, sb in head.bad:
        lines += ["", "[[bad]]", f"channel = {channel}", f"superblock = {sb}"]
    return "\n".join(lines) + "\n"
