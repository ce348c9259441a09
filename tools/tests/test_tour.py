"""The tour, with the program of this repository where it is built."""
import os
import pathlib
import subprocess
import unittest

from support import HERE, ToolTest

TOUR = HERE.parents[1] / "examples" / "tour"
PROGRAM = HERE.parents[1] / "crates" / "ssd" / "out" / "ssd"


def program():
    """The built program: that of the variable SSD or of this repository, or None."""
    found = pathlib.Path(os.environ.get("SSD") or PROGRAM)
    return found if os.access(found, os.X_OK) else None


@unittest.skipUnless(program(), "the program isn't built (`rt run` in crates/ssd does), so the tour isn't gone")
class TourTest(ToolTest):
    def test_the_tour_is_gone_to_its_end(self):
        run = subprocess.run([TOUR, self.folder / "out"], capture_output=True, timeout=60,
                             env={**os.environ, "SSD": str(program())})
        self.assertEqual(run.returncode, 0, run.stderr.decode())
        made = sorted(path.name for path in (self.folder / "out").iterdir())
        self.assertEqual(made, ["drive.img", "run.html", "run.txt", "work.trace"])
        self.assertIn("282 writes of the host", run.stdout.decode())


if __name__ == "__main__":
    unittest.main()
