"""The records of a zone's plain text, as far as names in them count."""
import os
from typing import Dict, Iterator, NamedTuple, Tuple

from .master_file import Token, directive_of, entries, parts_of
from .names import below

# The places of the names in the data of the types that lead to some.
NAMES: Dict[str, Tuple[int, ...]] = {"CNAME": (0,), "DNAME": (0,), "NS": (0,), "PTR": (0,), "MX": (1,), "SRV": (3,)}


class Record(NamedTuple):
    """A record: its owner, its type in upper case, its data, the origin under which names in the data stand, and its line."""

    owner: str
    rtype: str
    data: Tuple[Token, ...]
    origin: str
    line: int

    def name(self, at: int = 0) -> str:
        """The name in the data at a place."""
        return below(os.fsdecode(self.data[at].text), self.origin)


def records(octets: bytes, origin: str) -> Iterator[Record]:
    """The records of a text without $INCLUDE and $GENERATE. What is no record is NotCut, NotAName or an IndexError."""
    owner = origin
    for entry in entries(octets):
        if directive_of(entry):
            if directive_of(entry) == b"$ORIGIN":
                origin = below(os.fsdecode(entry.tokens[1].text), origin)
            continue
        parts = parts_of(entry)
        if not entry.blank:
            owner = below(os.fsdecode(parts.owner), origin)
        yield Record(owner, parts.rtype.decode(errors="replace"), parts.data, origin, entry.first)
