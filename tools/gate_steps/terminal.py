"""What the scripts print: nothing of it steers a terminal or a runner of pipelines, and no stream that fails goes unseen."""
import os
import sys
from typing import Iterable

from server_zones.names import shown


def script() -> str:
    """The name of the script without that of groot."""
    return os.path.basename(sys.argv[0]).rpartition("groot-")[2]


def say(text: str) -> None:
    """Writes a line on the standard error, as far as that takes it."""
    line = f"{script()}: {shown(text)}\n"
    try:
        os.write(2, line.encode("utf-8"))
    except OSError:
        pass


def shown_line(line: str) -> str:
    """A line of another program. One that begins with a name, which may be a word to a runner as `::error::`, begins with a dash."""
    text = shown(line)
    return text if text.startswith("metadata: ") else f"- {text}"


def pass_on(lines: Iterable[str]) -> None:
    """Writes lines of another program on the standard error."""
    for line in lines:
        try:
            os.write(2, f"{shown_line(line)}\n".encode("utf-8"))
        except OSError:
            return


def put(octets: bytes) -> None:
    """Writes to the standard output. An OSError that it raises names it."""
    try:
        while octets:
            octets = octets[os.write(1, octets):]
    except OSError as fault:
        raise OSError(fault.errno, fault.strerror, "the standard output") from None


def hold_streams() -> bool:
    """Opens the null device in place of each standard stream that is closed, so that no file takes its number, and returns
    whether there is a standard output."""
    there = True
    for stream in (0, 1, 2):
        try:
            os.fstat(stream)
        except OSError:
            os.open(os.devnull, os.O_RDWR)  # the lowest number that is free is the stream's own
            there = there and stream != 1
    return there
