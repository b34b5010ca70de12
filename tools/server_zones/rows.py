"""The rows of the metadata, from the zones of the servers."""
import os
import shlex
from typing import Callable, Dict, List, NamedTuple, Optional, Set, Tuple

from . import bind, catalogs, folder, knot, made_files, nsd, powerdns, transfer
from .command_line import BY_NS, Wanted
from .held import Findings, NoMetadata, Server, Zone
from .names import at_or_below, by_label
from .paths import absolute
from .plain_files import Placed, files_of
from .programs import output_of
from .zone_files import conversion, form_of, has_changes, why_not_plain
from .zone_records import name_servers

COMMANDS: Dict[str, Callable[[str], List[str]]] = {"bind": bind.command, "nsd": nsd.command, "knot": knot.command}
ZONES: Dict[str, Callable[[Server, str, List[str], Findings], List[Zone]]] = {
    "bind": bind.zones, "nsd": nsd.zones, "knot": knot.zones, "axfr": transfer.zones, "pdns": powerdns.zones,
    "zones": folder.zones,
}
# Zones that a machine holds for itself; queries of others for them never come from a delegation (RFC 6303).
OF_THE_MACHINE = ("localhost.", "localdomain.", "0.in-addr.arpa.", "127.in-addr.arpa.", "255.in-addr.arpa.",
                  "1." + "0." * 31 + "ip6.arpa.", "0." * 32 + "ip6.arpa.")

# The name of a zone's server, and its own.
Place = Tuple[str, str]


class Row(NamedTuple):
    """A row of the metadata, and whether its server is the zone's primary or a secondary."""

    server: str
    origin: str
    file: str
    role: str = "primary"


def rows_of(wanted: Wanted, kept: Optional[made_files.Folder], findings: Findings) -> List[Row]:
    """The rows, in the order of servers and of their zones."""
    zones = without_catalogs(with_given(held_by(wanted.servers, wanted, findings), wanted), findings)
    sources = sources_of(zones, {place_of(zone) for zone in wanted.given}, wanted, findings)
    meta_folder = folder_of(wanted.output)
    placed = [placed_zone(zone, meta_folder, bool(wanted.flatten), findings) for zone in sources]
    files = files_of(placed, kept, models_of(zones), findings)
    return [Row(name, zone.name, file, zone.role) for zone, file in zip(zones.values(), files) for name in names_of(zone, wanted)]


def place_of(zone: Zone) -> Place:
    """What tells a zone from all others."""
    return zone.server.name, zone.name


def held_by(servers: List[Server], wanted: Wanted, findings: Findings) -> Dict[Place, Zone]:
    """The zones of all servers. A server's second zone of a name has no place."""
    zones: Dict[Place, Zone] = {}
    for zone in (zone for server in servers for zone in zones_of(server, wanted, findings)):
        if place_of(zone) in zones:
            findings.unplace(zone.server, zone.name, "two zones of this name; give different servers different names")
        zones[place_of(zone)] = zone
    return zones


def with_given(zones: Dict[Place, Zone], wanted: Wanted) -> Dict[Place, Zone]:
    """The zones with those that the command line gives, each in the place of the server's own, whose role it keeps."""
    given = {}
    for zone in wanted.given:
        own = zones.get(place_of(zone))
        given[place_of(zone)] = zone._replace(role=own.role if own else said_role(zone, wanted))
    return {**zones, **given}


def names_of(zone: Zone, wanted: Wanted) -> List[str]:
    """The names of the servers that have a row for a zone."""
    own = list(zone.servers) or [zone.server.name]
    return own + [other for name, other in wanted.others if name == zone.server.name]


def zones_of(server: Server, wanted: Wanted, findings: Findings) -> List[Zone]:
    """The zones that a server holds, without those that are left out, in the order of their names from the top label down."""
    try:
        text = printed(server) if server.kind in COMMANDS else ""
        held = ZONES[server.kind](server, text, wanted.views, findings)
    except OSError as fault:
        raise NoMetadata(f"{server.name}: {fault.filename}: {fault.strerror}") from None
    held = [zone._replace(role=zone.role or said_role(zone, wanted)) for zone in without_own(server, held, findings)]
    held = [zone for zone in held if not findings.leaves_out(server, zone.name)]
    held.sort(key=lambda zone: by_label(zone.name))
    if server.name == BY_NS:
        held = [zone for zone in map(lambda zone: with_servers(zone, findings), held) if zone.servers]
    secondary = sum(zone.role == "secondary" for zone in held)
    unsaid = sum(not zone.role for zone in held)
    findings.remark(server, f"zones: {len(held)}" if unsaid else f"zones: {len(held) - secondary} primary, {secondary} secondary")
    return held


def without_catalogs(zones: Dict[Place, Zone], findings: Findings) -> Dict[Place, Zone]:
    """The zones without catalogs, also on the server that makes them: nobody asks for their names."""
    names = findings.catalogs | {zone.name for zone in zones.values() if catalogs.is_catalog(zone)}
    for zone in zones.values():
        if zone.name in names:
            findings.remark(zone.server, f"{zone.name}: passed over, a catalog zone, for which nobody asks")
    return {place: zone for place, zone in zones.items() if zone.name not in names}


def printed(server: Server) -> str:
    """A server's configuration as its own tool prints it, here or on another machine."""
    command = COMMANDS[server.kind]
    if not server.elsewhere:
        return output_of(command(server.path), server.name)
    with open(server.path, encoding="utf-8", errors="surrogateescape") as file:
        text = file.read()
    if not text.strip():
        raise NoMetadata(f"{server.name}: {server.path}: it is empty; give what {' '.join(command('FILE'))} prints")
    return text


def said_role(zone: Zone, wanted: Wanted) -> str:
    """The role of a zone of which its source says nothing."""
    return "primary" if zone.server.name in wanted.primaries else ""


def is_of_the_machine(name: str) -> bool:
    """Whether a zone is one that a machine holds for itself."""
    return name.endswith(OF_THE_MACHINE) and any(at_or_below(name, own) for own in OF_THE_MACHINE)


def without_own(server: Server, held: List[Zone], findings: Findings) -> List[Zone]:
    """The zones without those that the server's machine holds for itself, which is said."""
    own = [zone.name for zone in held if is_of_the_machine(zone.name)]
    if own:
        findings.remark(server, f"left out, since no delegation leads to them: {', '.join(own)} (--zone takes one in)")
    return [zone for zone in held if zone.name not in own]


def with_servers(zone: Zone, findings: Findings) -> Zone:
    """A zone of a folder, with the servers that its own NS records name."""
    try:
        servers = name_servers(zone)
        if not servers:
            findings.unplace(zone.server, zone.name, f"{zone.file}: no NS records at its origin, so no server is known")
    except NoMetadata as fault:
        servers = []
        findings.unplace(zone.server, zone.name, str(fault))
    return zone._replace(servers=servers)


def sources_of(zones: Dict[Place, Zone], given: Set[Place], wanted: Wanted, findings: Findings) -> List[Zone]:
    """For each zone the one whose file its row takes."""
    if not wanted.published:
        return [zone.live or zone for zone in zones.values()]
    primaries: Dict[str, List[Zone]] = {}
    for zone in zones.values():
        if zone.role == "primary":
            primaries.setdefault(zone.name, []).append(zone)
    return [zone if place in given else published(zone, primaries.get(zone.name, []), findings) for place, zone in zones.items()]


def published(zone: Zone, primaries: List[Zone], findings: Findings) -> Zone:
    """The zone whose file a row takes when all is transferred: for a secondary that of its primary, if a server here is it."""
    if zone.role == "primary":
        return zone
    if not zone.role:
        findings.remark(zone.server, "nothing says whether its zones are copies, so they are taken as they are")
        return zone.live or zone
    if not primaries:
        findings.remark(zone.server, f"{zone.name}: no server here is its primary, so its own file is taken")
        return zone.live or zone
    if len({source_of(primary) for primary in primaries}) > 1:
        files = ", ".join(f"{source_of(primary)} of {primary.server.name}" for primary in primaries)
        return zone._replace(unplaced=f"it has several primaries with different files: {files}")
    return primaries[0]


def source_of(zone: Zone) -> str:
    """The file of a zone, or what prints it."""
    return zone.file or (shlex.join(zone.printer.command) if zone.printer else "nothing")


def placed_zone(zone: Zone, meta_folder: str, flattens: bool, findings: Findings) -> Placed:
    """How the file of a zone gets into a row of metadata for a folder."""
    if zone.unplaced:
        return Placed(zone, unplaced=zone.unplaced)
    try:
        why = why_not_plain(zone, meta_folder)
        changed = has_changes(zone)
        if why or (changed and flattens):
            why = why or f"its journal, {zone.journal}, may have more than its file"
            return Placed(zone, why) if flattens else Placed(zone, unplaced=f"{why}; {way(zone)}")
        if changed:
            findings.remark(zone.server, f"{zone.name} has a journal, {zone.journal}, that may have more than its file; "
                                         f"first run {zone.refresh}, or use --flatten FOLDER")
        elif zone.why:
            findings.remark(zone.server, f"{zone.name}: {zone.why}")
        return Placed(zone)
    except OSError as fault:
        why = f"{fault.filename}: {fault.strerror}"
        if zone.role == "secondary":
            why += f"; has it been transferred? {zone.refresh} writes it"
        return Placed(zone, unplaced=why)
    except NoMetadata as fault:
        return Placed(zone, unplaced=str(fault))


def way(zone: Zone) -> str:
    """What to do with a zone that groot can't read as it is."""
    if zone.printer:
        return "use --flatten FOLDER, which keeps what is printed"
    return "use --flatten FOLDER, or run " + conversion(zone) if form_of(zone) != "text" else "use --flatten FOLDER"


def models_of(zones: Dict[Place, Zone]) -> Dict[str, Zone]:
    """For the name of each zone the primary whose text the operator edits."""
    found: Dict[str, Zone] = {}
    for zone in zones.values():
        if zone.role == "primary" and zone.file and not zone.unplaced and os.path.isfile(zone.file) and form_of(zone) == "text":
            found.setdefault(zone.name, zone)
    return found


def folder_of(output: str) -> str:
    """The folder of the metadata file."""
    return os.path.dirname(absolute(output or "-"))
