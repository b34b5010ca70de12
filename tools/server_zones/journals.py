"""What the journal of a zone of BIND says of its file."""
import struct
from typing import Optional

from .master_file import NotCut, entries, parts_of

FRONTS = (b";BIND LOG V9\n", b";BIND LOG V9.2\n")


def last_serial(path: str) -> Optional[int]:
    """The serial up to which a journal has changes, or None where it isn't in BIND's form."""
    with open(path, "rb") as file:
        front = file.read(32)
    if len(front) < 32 or not front.startswith(FRONTS):
        return None
    return int(struct.unpack(">I", front[24:28])[0])


def serial_of(path: str) -> Optional[int]:
    """The serial of the first SOA record of a text file, or None where it has none that can be read."""
    with open(path, "rb") as file:
        octets = file.read()
    try:
        for entry in entries(octets):
            parts = parts_of(entry)
            if parts.rtype == b"SOA":
                return int(parts.data[2].text)
    except (NotCut, ValueError, IndexError):
        pass
    return None


def has_more(journal: str, file: str, form: str) -> bool:
    """Whether a journal may have changes that a zone's file doesn't have: its last serial comes after the file's (RFC 1982)."""
    last, own = last_serial(journal), serial_of(file) if form == "text" else None
    return last is None or own is None or 0 < (last - own) % 2**32 < 2**31
