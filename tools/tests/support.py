"""What the tests share: the command as a user runs it, and folders that go away."""
import contextlib
import io
import os
import pathlib
import sys
import tempfile
import unittest
from unittest import mock

HERE = pathlib.Path(__file__).resolve().parent
TOOL = HERE.parent / "ssdtool"
DATA = HERE / "data"
STAND_IN = HERE / "plain_ssd"

sys.path.insert(0, str(HERE.parent))

from drive_tools.main import main  # noqa: E402  (the path has to stand first)

SMALL = """\
version = 1

[sizes]
channels = 1
dies = 3
superblocks = 4
pages = 2
data_bytes = 8
rows = 8

[code]
lifting = 64
iterations = 8
matrix = [
    [0, 1, -1, 1, 0, -1],
    [5, -1, 7, 0, 0, 0],
    [-1, 11, 3, 1, -1, 0],
]

[cells]
erased = -100
programmed = 100
seed = 1

[reading]
levels = [0, -60]
soft_step = 10
"""


class ToolTest(unittest.TestCase):
    """A test with a folder of its own in which the command runs."""

    def setUp(self):
        folder = tempfile.TemporaryDirectory(prefix="ssdtool-test-")
        self.addCleanup(folder.cleanup)
        self.folder = pathlib.Path(folder.name)

    def write(self, name, content):
        """Writes a file of text or bytes, and gives its path."""
        path = self.folder / name
        path.write_bytes(content if isinstance(content, bytes) else content.encode())
        return path

    def tool(self, *words, data=b"", status=0):
        """Runs the command, wants this status, and gives what it wrote to standard output and standard error.

        It runs in this process, which is many times as fast as to start Python for each of some hundred commands.
        """
        streams = io.TextIOWrapper(io.BytesIO(data)), io.TextIOWrapper(io.BytesIO()), io.StringIO()
        with (contextlib.chdir(self.folder), mock.patch.dict(os.environ, SSD=str(STAND_IN)),
              mock.patch.multiple(sys, stdin=streams[0], stdout=streams[1], stderr=streams[2])):
            try:
                found = main([str(word) for word in words])
            except SystemExit as end:
                found = end.code
        told = streams[2].getvalue()
        self.assertEqual(found, status, f"{words}\n{told}")
        streams[1].flush()
        return streams[1].buffer.getvalue().decode(errors="replace"), told

    def refused(self, *words, tells, leaves=None, data=b""):
        """Runs the command on a wrong input: it tells this, and leaves no file of this name."""
        _, told = self.tool(*words, data=data, status=1)
        self.assertIn(tells, told)
        if leaves:
            self.assertFalse((self.folder / leaves).exists(), "an output file was left")

    def small_image(self):
        """The image of the small drive."""
        self.write("small.toml", SMALL)
        self.tool("image", "make", "small.toml", "-o", "small.img")
        return self.folder / "small.img"
