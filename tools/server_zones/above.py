"""A zone above the zones that the servers hold, made of their records.

It stands at the root. It delegates each topmost zone to the servers of its own NS set, with their addresses, and each name
outside to which a record leads to a server that has no row, so that a walk which leaves the zones ends there.
"""
import os
from typing import Dict, Iterable, List, NamedTuple, Optional, Tuple

from .held import NoMetadata
from .line_map import Run, place_of, unescaped
from .names import at_or_below, by_label, names_above

SERVER, OUTSIDE = "above.invalid.", "elsewhere.invalid."
HEAD = f"""$TTL 60
. SOA {SERVER} hostmaster.invalid. 1 3600 900 604800 60
. NS {SERVER}
{SERVER} A 192.0.2.1
{OUTSIDE} A 192.0.2.2
"""
# The place of the name in the data of the types that lead to one.
LEADS = {"CNAME": 0, "DNAME": 0, "NS": 0, "PTR": 0, "MX": 1, "SRV": 3}


class Record(NamedTuple):
    """A record that a server's zone holds, in the texts of `groot-map records`, and the operator's file and line of it."""

    server: str
    zone: str
    owner: str
    rtype: str
    data: str
    place: Tuple[str, int]


class Line(NamedTuple):
    """A line of the zone above, and the operator's file and line from which it is."""

    text: str
    place: Optional[Tuple[str, int]] = None


# The records of each zone, owner and type.
Data = Dict[Tuple[str, str, str], List[Record]]


def records_of(text: str, source: str) -> List[Record]:
    """The records of a list that `groot-map records` printed."""
    found = []
    for number, line in enumerate(text.removesuffix("\n").split("\n"), 1):
        columns = line.split("\t")
        if len(columns) != 7:
            raise NoMetadata(f"{source}: line {number} has {len(columns)} columns, and groot-map records prints 7")
        if not columns[5].isdigit():
            raise NoMetadata(f"{source}: line {number} has no number in its sixth column; make the list by groot-map records")
        place = place_of(unescaped(os.fsencode(columns[4])), int(columns[5]))
        found.append(Record(columns[0], columns[1], columns[2], columns[3], columns[6], place))
    return found


def zone_above(models: Dict[str, str], records: List[Record]) -> Tuple[str, List[Run]]:
    """The text of the zone above, and the map of its lines. `models` has each zone of the servers, with the server whose NS records
    and addresses count."""
    check_complete(models, records)
    topmost = by_name(zone for zone in models if not any(name in models for name in names_above(zone)))
    for name in (".", SERVER, OUTSIDE):
        if any(at_or_below(name, zone) for zone in topmost):
            raise NoMetadata(f"--above: {name} is in a zone of the servers, so no zone can be made above them")
    outside = names_outside(topmost, records)
    data = by_owner(models, records)
    lines = [line for zone in topmost for line in delegation(zone, models[zone], data)]
    lines += [Line(f"{name} NS {OUTSIDE}", place) for name, place in outside.items()]
    lines += [Line(f'{wildcard} TXT "outside"') for wildcard in wildcards([*topmost, *outside, SERVER], records)]
    first = HEAD.count("\n") + 1
    runs = [Run(number, number, line.place[1], 0, line.place[0]) for number, line in enumerate(lines, first) if line.place]
    return HEAD + "".join(line.text + "\n" for line in lines), runs


def by_owner(models: Dict[str, str], records: List[Record]) -> Data:
    """The records of the models, by zone, owner and type."""
    data: Data = {}
    for record in records:
        if models[record.zone] == record.server:
            data.setdefault((record.zone, record.owner, record.rtype), []).append(record)
    return data


def check_complete(models: Dict[str, str], records: List[Record]) -> None:
    """Refuses records that aren't those of the zones."""
    listed = {(record.server, record.zone) for record in records if record.rtype == "SOA"}
    for zone, server in models.items():
        if (server, zone) not in listed:
            raise NoMetadata(f"{server}: {zone}: the list of records doesn't have this zone; make it anew")
    for _, zone in listed:
        if zone not in models:
            raise NoMetadata(f"{zone}: the list of records has this zone, and no server holds it; make it anew")


def delegation(zone: str, model: str, data: Data) -> List[Line]:
    """The lines that delegate a zone, with the addresses of those of its servers that stand in it."""
    found = sorted(data.get((zone, zone, "NS"), []), key=lambda record: by_label(record.data))
    if not found:
        raise NoMetadata(f"{model}: {zone} has no NS records, so it can't be delegated")
    lines = [Line(f"{zone} NS {record.data}", record.place) for record in found]
    return lines + [line for record in found if at_or_below(record.data, zone) for line in addresses(record.data, data)]


def addresses(server: str, data: Data) -> List[Line]:
    """The address records of a name server, from the nearest zone at or above its name that has any."""
    for zone in [server, *names_above(server)]:
        found = [record for rtype in ("A", "AAAA") for record in data.get((zone, server, rtype), [])]
        if found:
            return [Line(f"{server} {record.rtype} {record.data}", record.place) for record in found]
    return []


def names_outside(topmost: List[str], records: List[Record]) -> Dict[str, Tuple[str, int]]:
    """The names outside to which a record leads, each with the place of the first one, without those below another one. A name
    with a star has no servers, so the name below which it stands is taken."""
    held = set(topmost)
    above_held = {name for zone in topmost for name in names_above(zone)}
    targets: Dict[str, Tuple[str, int]] = {}
    for target, place in targets_of(records).items():
        name = target.removeprefix("*.") or "."
        if name not in above_held and held.isdisjoint([name, *names_above(name)]):
            targets.setdefault(name, place)
    return {name: targets[name] for name in by_name(targets) if targets.keys().isdisjoint(names_above(name))}


def targets_of(records: List[Record]) -> Dict[str, Tuple[str, int]]:
    """The names to which records lead, each with the place of the first one."""
    found: Dict[str, Tuple[str, int]] = {}
    for record in records:
        if record.rtype in LEADS:
            found.setdefault(record.data.split(" ")[LEADS[record.rtype]], record.place)
    return found


def wildcards(delegated: List[str], records: List[Record]) -> List[str]:
    """Wildcards for the names that exist in the zone above only since others stand below them, as far as a DNAME record leads
    to them, or another record to a star below them: so that no redirected name is missing there."""
    targets = {record.data for record in records if record.rtype == "DNAME"}
    stars = {name for name in targets_of(records) if name.startswith("*.")}
    between = {name for below in delegated for name in names_above(below)}
    found = {"*." + name.removeprefix(".") for name in between if any(at_or_below(name, target) for target in targets)}
    return by_name(found | {star for star in stars if (star.removeprefix("*.") or ".") in between})


def by_name(names: Iterable[str]) -> List[str]:
    """Names in the order of their labels, from the top label down."""
    return sorted(names, key=by_label)
