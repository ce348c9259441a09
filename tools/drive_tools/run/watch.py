"""A run of a program with its time, memory and written bytes shown while it goes on."""
import contextlib
import subprocess
import sys
import threading
import time

PIECE = 1 << 16
# Seconds between two lines where standard error is a file, and between two changes of the line on a terminal.
BETWEEN_LINES, BETWEEN_CHANGES = 10.0, 0.25


def memory_of(process_id):
    """The bytes of memory that a process holds and the most that it held, or twice None where the system doesn't tell.

    What the system tells at the end of a process counts what its parent held, so it is asked while the process runs.
    """
    with contextlib.suppress(OSError, KeyError, ValueError, IndexError):
        with open(f"/proc/{process_id}/status") as file:
            told = dict(line.split(":", 1) for line in file)
        return tuple(int(told[name].split()[0]) * 1024 for name in ("VmRSS", "VmHWM"))
    return None, None


def sized(count):
    """A number of bytes as text."""
    if count is None:
        return "?"
    for unit in ("bytes", "KB", "MB"):
        if count < 1000 or unit == "MB" and count < 10_000:
            return f"{count:.0f} {unit}" if unit == "bytes" else f"{count:.1f} {unit}"
        count /= 1000
    return f"{count:.1f} GB"


class Watch:
    """Tells on standard error how a run goes."""

    def __init__(self, process_id, quiet):
        self.process_id, self.quiet, self.written, self.most = process_id, quiet, 0, None
        self.started, self.done = time.monotonic(), threading.Event()
        self.terminal = sys.stderr.isatty()
        self.thread = threading.Thread(target=self.tell_on, daemon=True)
        self.thread.start()

    def look(self):
        """The memory that is held now. The most is kept."""
        held, most = memory_of(self.process_id)
        if most is not None:
            self.most = max(most, self.most or 0)
        return held

    def text(self):
        """What is told."""
        return f"{time.monotonic() - self.started:.1f} s, memory {sized(self.look())}, {sized(self.written)} written"

    def tell_on(self):
        """Tells again and again until the run is done."""
        between = BETWEEN_CHANGES if self.terminal else BETWEEN_LINES
        self.look()
        while not self.done.wait(between):
            self.look()
            if not self.quiet:
                begin, end = ("\r\033[K", "") if self.terminal else ("", "\n")
                print(f"{begin}ssdtool: running: {self.text()}", end=end, file=sys.stderr, flush=True)

    def close(self):
        """Ends the telling."""
        self.done.set()
        self.thread.join()
        if self.terminal and not self.quiet:
            print("\r\033[K", end="", file=sys.stderr, flush=True)


def feed(files, target):
    """Copies files, one after the other, to the standard input of a program, which may stop reading early."""
    with contextlib.suppress(BrokenPipeError), target:
        for file in files:
            while piece := file.read(PIECE):
                target.write(piece)


@contextlib.contextmanager
def opened(paths):
    """The files at these paths, standard input for `-`."""
    with contextlib.ExitStack() as stack:
        yield [sys.stdin.buffer if path == "-" else stack.enter_context(open(path, "rb")) for path in paths]


class Ended:
    """How a run ended: its status, its text on standard error, seconds, most memory and written bytes."""

    def __init__(self, status, text, seconds, memory, written):
        self.status, self.text, self.seconds, self.memory, self.written = status, text, seconds, memory, written

    def told(self):
        """A line on the end of the run."""
        return (f"ssd ended with status {self.status} after {self.seconds:.1f} s, at most {sized(self.memory)} of memory,"
                f" {sized(self.written)} written")


def run_watched(words, paths, output, quiet=False):
    """Runs a program on the contents of files, copies what it writes to `output`, and gives how it ended."""
    with opened(paths) as files:
        process = subprocess.Popen(words, stdin=subprocess.PIPE, stdout=subprocess.PIPE, stderr=subprocess.PIPE)
        watch, told = Watch(process.pid, quiet), []
        feeder = threading.Thread(target=feed, args=(files, process.stdin), daemon=True)
        teller = threading.Thread(target=lambda: told.append(process.stderr.read()), daemon=True)
        feeder.start()
        teller.start()
        try:
            while piece := process.stdout.read1(PIECE):
                output.write(piece)
                watch.written += len(piece)
                watch.look()
            process.wait()
        except BaseException:
            process.kill()
            process.wait()
            raise
        finally:
            watch.close()
        teller.join()
        process.stdout.close()
        process.stderr.close()
    code = process.returncode if process.returncode >= 0 else 128 - process.returncode
    text = b"".join(told).decode(errors="replace").rstrip("\n")
    return Ended(code, text, time.monotonic() - watch.started, watch.most, watch.written)
