"""A description of a drive to begin with, with a note at each field."""
from .head import DEFAULT_VERSION

# By name: channels, dies, superblocks, pages, data bytes, lifting size, base rows, base columns, levels apart, spread.
PRESETS = {
    "small": (1, 3, 8, 4, 64, 16, 4, 48, 200, 90),
    "medium": (2, 4, 16, 16, 512, 64, 8, 76, 120, 50),
    "large": (4, 5, 32, 32, 1024, 128, 8, 76, 120, 46),
}

TEXT = """\
# A drive for ssd. Make its image by: ssdtool image make THIS.toml -o drive.img
# version = {version}  # of the image: 1 or 2; 2 where a page has several codewords

[sizes]
channels = {channels}  # 1 to 8
dies = {dies}  # of each channel, 3 to 8
superblocks = {superblocks}  # of each channel, 4 to 256
pages = {pages}  # of each block, 2 to 256
data_bytes = {data_bytes}  # of a page for the host
over_provisioning = 50.0  # percent of the host's pages; or 'rows', the host's pages on each channel
words = 1  # codewords of a page: 1, 2 or 4

[code]
lifting = {lifting}  # size of a block of the parity checks, 4 to 1024
base_rows = {base_rows}  # 3 to 16
base_columns = {base_columns}  # up to 128; base_columns * lifting bits are a codeword
iterations = 20  # of the decoder, 1 to 64
family = "random"  # random, staggered or array; or 'matrix', a list of rows with -1 for a block of zeros
seed = {seed}  # from which the family's shifts are drawn
weight = 3  # blocks of a column in the family random

[cells]
erased = {erased}  # level of an erased cell
programmed = {programmed}  # level of a programmed cell
spread = {spread}  # noise: each level is off by at most this, 0 to 4095
seed = {seed}  # of the noise
session = 0

[reading]
levels = [0, {less}, {least}]  # read levels, tried in this order, 1 to 16
soft_step = {soft_step}  # distance of the five soft senses

# A block that fails once it was erased so often:
# [[weak]]
# channel = 0
# die = 1
# superblock = 3
# from = 5

# A superblock that is bad from the factory:
# [[bad]]
# channel = 0
# superblock = 2
"""


def new_description(preset, seed):
    """The text of a description of this size, with the seed written in it."""
    channels, dies, superblocks, pages, data_bytes, lifting, base_rows, base_columns, apart, spread = PRESETS[preset]
    text = TEXT.format(
        version=DEFAULT_VERSION,
        channels=channels, dies=dies, superblocks=superblocks, pages=pages, data_bytes=data_bytes, lifting=lifting,
        base_rows=base_rows, base_columns=base_columns, seed=seed, erased=-apart // 2, programmed=apart // 2, spread=spread,
        less=-apart // 10, least=-apart // 5, soft_step=max(apart // 20, 1))
    return "".join(aligned(line) + "\n" for line in text.splitlines())


def aligned(line):
    """A field's line with its note in one column with the others."""
    field, mark, note = line.partition("  # ")
    return f"{field:<24} # {note}" if mark else line
