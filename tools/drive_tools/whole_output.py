"""Output that is there whole or not at all."""
import contextlib
import os
import shutil
import sys
import tempfile

STANDARD = "-"


def _created_mode():
    """The rights that a new file gets under the process's mask."""
    mask = os.umask(0)
    os.umask(mask)
    return 0o666 & ~mask


def _is_plain(path):
    """Whether a file can be put in the place of what stands at this path."""
    return not os.path.exists(path) or os.path.isfile(path)


def _copied(path, file):
    """Copies what was written to standard output or to a device."""
    file.flush()
    file.seek(0)
    if path == STANDARD:
        shutil.copyfileobj(file, sys.stdout.buffer)
        sys.stdout.buffer.flush()
        return
    with open(path, "wb") as target:
        shutil.copyfileobj(file, target)


@contextlib.contextmanager
def whole_file(path):
    """A file of bytes that takes the place of `path` when the block ends well, and is removed when it doesn't.

    The path `-` is standard output, which gets all bytes at the end.
    """
    if path == STANDARD or not _is_plain(path):
        with tempfile.TemporaryFile() as file:
            yield file
            _copied(path, file)
        return
    target = os.path.realpath(path)
    try:
        handle, beside = tempfile.mkstemp(prefix=os.path.basename(target) + ".", dir=os.path.dirname(target))
    except OSError as fault:
        fault.filename = path
        raise
    try:
        with os.fdopen(handle, "wb") as file:
            yield file
        os.chmod(beside, _created_mode())
        os.replace(beside, target)
    except BaseException:
        with contextlib.suppress(FileNotFoundError):
            os.unlink(beside)
        raise


def write_whole(path, data):
    """Writes bytes or text to `path`, whole or not at all."""
    with whole_file(path) as file:
        file.write(data.encode() if isinstance(data, str) else data)
