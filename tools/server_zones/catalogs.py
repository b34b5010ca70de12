"""The members of a catalog zone (RFC 9432)."""
import os
from typing import Dict, List, NamedTuple, Set

from .held import Findings, NoMetadata, Server, Zone
from .zone_files import seen
from .records import Record
from .zone_records import name_servers_of, records_of

VERSIONS = (b"1", b"2")
INVALID = "invalid."


class Member(NamedTuple):
    """A member zone, and its group, "" where it has none."""

    name: str
    group: str


def members_of(zone: Zone) -> List[Member]:
    """The members of a catalog, in the order of its records. One that stands there twice, as while it is moved, counts once."""
    records = records_of(zone)
    if not has_version(zone, records):
        raise NoMetadata("it has no version that is known here (RFC 9432)")
    below = ".zones." + zone.name
    groups = {record.owner.split(".", 1)[1]: os.fsdecode(record.data[0].text) for record in records
              if record.rtype == "TXT" and record.owner.startswith("group.") and record.owner.endswith(below)}
    found: Dict[str, Member] = {}
    for record in single(records, below):
        name = record.name()
        found.setdefault(name, Member(name, groups.get(record.owner, "")))
    return list(found.values())


def has_version(zone: Zone, records: List[Record]) -> bool:
    """Whether a zone says that it is a catalog of a version that is known here."""
    return any(record.owner == "version." + zone.name and record.rtype == "TXT" and record.data[0].text in VERSIONS
               for record in records)


def is_catalog(zone: Zone) -> bool:
    """Whether a zone's own text file says that it is a catalog: then nobody asks for its names."""
    try:
        if zone.unplaced or zone.printer or not seen(str(zone.file)).may_be_catalog:
            return False
        records = records_of(zone)
    except (OSError, NoMetadata):
        return False
    return has_version(zone, records) and name_servers_of(zone, records) == [INVALID]


def single(records: List[Record], below: str) -> List[Record]:
    """The PTR records of members: an owner with several of them is no member."""
    found: Dict[str, List[Record]] = {}
    for record in records:
        if record.rtype == "PTR" and record.owner.endswith(below):
            found.setdefault(record.owner, []).append(record)
    return [own[0] for own in found.values() if len(own) == 1]


def taken(server: Server, catalog: Zone, held: Set[str], findings: Findings) -> List[Member]:
    """The members of a catalog that its server takes: those that it doesn't hold otherwise, and none if the catalog is left out.
    Where the catalog can't be read, it has no place."""
    if findings.leaves_out(server, catalog.name):
        return []
    catalog = catalog.live or catalog
    if catalog.unplaced:
        findings.unplace(server, catalog.name, f"a catalog zone, whose members aren't known: {catalog.unplaced}")
        return []
    try:
        members = members_of(catalog)
    except NoMetadata as fault:
        findings.unplace(server, catalog.name, f"a catalog zone, whose members aren't known: {fault}")
        return []
    findings.catalogs.add(catalog.name)
    findings.remark(server, f"{catalog.name}: a catalog zone; its members have rows ({len(members)}), and it has none")
    return [member for member in members if member.name not in held]
