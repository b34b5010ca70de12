"""Files that are written whole, or not at all."""
import contextlib
import os
import signal
import stat
import sys
import tempfile
from types import FrameType
from typing import Iterator, Optional

from .held import NoMetadata

SIGNALLED = 128
# What the caller doesn't want others to do with new files; it can be read by setting it alone.
UMASK = os.umask(0o077)
os.umask(UMASK)
USUAL_MODE = 0o666 & ~UMASK


def write(path: str, octets: bytes) -> None:
    """Writes a file whole, in the place of an older one, whose mode it keeps. A link stays, and what it leads to is written; what
    is no file, as /dev/stdout, is written as it is."""
    place = os.path.realpath(path)
    mode = mode_of(place)
    if mode is not None and not stat.S_ISREG(mode):
        with open(place, "wb") as device:
            device.write(octets)
        return
    with made_for_a_while(os.path.dirname(place), octets) as name:
        os.chmod(name, stat.S_IMODE(mode) if mode is not None else USUAL_MODE)
        os.replace(name, place)


def mode_of(path: str) -> Optional[int]:
    """The kind and the mode of what stands at a path, or None where nothing does."""
    try:
        return os.stat(path).st_mode
    except FileNotFoundError:
        return None


@contextlib.contextmanager
def made_for_a_while(folder: str, octets: bytes, end: str = "") -> Iterator[str]:
    """The path of a new file in a folder. It is removed at the end, unless it has another name by then."""
    descriptor, name = tempfile.mkstemp(dir=folder, prefix=".groot-", suffix=end)
    try:
        try:
            with open(descriptor, "wb") as file:
                file.write(octets)
        except OSError as fault:
            raise OSError(fault.errno, fault.strerror, name) from None
        yield name
    finally:
        with contextlib.suppress(FileNotFoundError):
            os.unlink(name)


def print_whole(octets: bytes) -> None:
    """Writes to the standard output. Where it is closed or full, NoMetadata says so."""
    try:
        if sys.stdout is None:
            raise NoMetadata("the standard output is closed; give --output META")
        sys.stdout.buffer.write(octets)
        sys.stdout.flush()
    except OSError as fault:
        # what the interpreter still holds would be written again when it ends
        os.dup2(os.open(os.devnull, os.O_WRONLY), 1)
        raise NoMetadata(f"the standard output: {fault.strerror}") from None


def end_in_order() -> None:
    """From now on SIGINT, SIGTERM and SIGHUP end this program as an error does, so that files made for a while are removed;
    unless the caller ignores them."""

    def stop(number: int, _frame: Optional[FrameType]) -> None:
        sys.exit(SIGNALLED + number)

    for number in (signal.SIGINT, signal.SIGTERM, signal.SIGHUP):
        if signal.getsignal(number) != signal.SIG_IGN:  # as nohup has it
            signal.signal(number, stop)
