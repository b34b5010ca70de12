"""The records of a zone, from what a tool printed of a running server or a database. What isn't whole is refused."""
import re
from typing import Callable, Dict, List

from .held import NoMetadata
from .master_file import NotCut, Parts, entries, parts_of
from .names import canonical

TSIG = re.compile(rb"^[^ \t\n]+[ \t]+[0-9]+[ \t]+ANY[ \t]+TSIG[ \t][^\n]*$", re.M)
CUT = re.compile(rb"^;.*$", re.M)
READ_LINE = re.compile(rb"\[[^\n\]]*\] (.*)")


def transferred(name: str, octets: bytes) -> bytes:
    """The records of a transfer that dig printed, which begin and end with one SOA record; it has the closing one no more."""
    said = b"\n".join(CUT.findall(octets))
    records = lines_of(TSIG.sub(b"", CUT.sub(b"", octets)))
    if b"failed" in said or not records:
        raise NoMetadata("the server didn't transfer it; does it allow that from here, with this key?",
                         said.decode(errors="replace"))
    soas = [soa_of(line) for line in records if is_soa(line)]
    if len(soas) < 2 or not is_soa(records[0]) or not is_soa(records[-1]):
        raise NoMetadata("the transfer isn't whole: it doesn't begin and end with the SOA record")
    if len(soas) > 2 or soas[0].data != soas[-1].data:
        raise NoMetadata("the zone changed while it was transferred (its SOA records differ); run this again")
    if canonical(soas[0].owner.decode(errors="surrogateescape")) != name:
        raise NoMetadata("the server sent another zone")
    return b"".join(line + b"\n" for line in records[:-1])


def remarks_in(said: str) -> str:
    """What a tool said, without the records that it printed before it failed."""
    lines = said.splitlines()
    return "\n".join([line for line in lines if line.startswith(";")] or lines[-1:])


def lines_of(octets: bytes) -> List[bytes]:
    """The lines of a text that aren't empty."""
    return [line for line in octets.split(b"\n") if line.strip()]


def is_soa(line: bytes) -> bool:
    """Whether a line has an SOA record."""
    return len(line.split(None, 4)) > 4 and line.split(None, 4)[3] == b"SOA"


def soa_of(line: bytes) -> Parts:
    """The parts of a line with an SOA record."""
    try:
        return parts_of(next(entries(line)))
    except (NotCut, StopIteration):
        raise NoMetadata("its SOA record isn't printed as it should be") from None


def read_from_knot(name: str, octets: bytes) -> bytes:
    """The records that `knotc zone-read` printed: each line has the zone in front, and no class."""
    records = []
    for line in lines_of(octets):
        found = READ_LINE.fullmatch(line)
        if not found:
            raise NoMetadata("knotc zone-read printed a line that isn't known here",
                             line.decode(errors="replace"))
        records.append(found[1])
    if not any(line.split(None, 3)[2:3] == [b"SOA"] for line in records):
        raise NoMetadata("knotc zone-read printed no SOA record; is the zone loaded?")
    return b"".join(line + b"\n" for line in records)


def listed_by_powerdns(name: str, octets: bytes) -> bytes:
    """The records that `pdnsutil list-zone` printed."""
    if not any(is_soa(line) for line in lines_of(octets)):
        raise NoMetadata("it has no SOA record: it isn't transferred yet, or disabled; --leave-out it")
    return octets


READERS: Dict[str, Callable[[str, bytes], bytes]] = {
    "dig": transferred, "zone-read": read_from_knot, "list-zone": listed_by_powerdns,
}
