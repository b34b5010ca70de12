"""The zones that a running server transfers (RFC 5936), asked by dig."""
from typing import List

from . import catalogs
from .held import Findings, NoMetadata, Printer, Server, Zone
from .names import NotAName, canonical
from .printed_zones import remarks_in
from .programs import octets_of

USUAL_PORT = "53"
SECONDS = "20"
REMEDY = "the server can't be reached, or the transfer was cut off"


def zones(server: Server, _text: str, _views: List[str], findings: Findings) -> List[Zone]:
    """The zones that the server is asked for: those of a list, and the members of a catalog that it holds."""
    if not server.names and not server.catalog:
        raise NoMetadata(f"{server.name}: say which zones are meant: --zones {server.name}=FILE, a name a line, "
                         f"or --catalog {server.name}=ZONE")
    names = listed(server) if server.names else []
    check_reached(server, (names or [server.catalog])[0])
    if server.catalog:
        catalog = zone_of(server, server.catalog)
        names += [member.name for member in catalogs.taken(server, catalog, set(names), findings)]
    return [zone_of(server, name) for name in dict.fromkeys(names)]


def zone_of(server: Server, name: str) -> Zone:
    """A zone that is printed by a transfer."""
    return Zone(server, name, "", None, why="it is transferred", printer=Printer(asking(server, name, "AXFR"), "dig", REMEDY))


def check_reached(server: Server, name: str) -> None:
    """Refuses a server that doesn't answer, once for all its zones."""
    try:
        octets_of(asking(server, name, "SOA"), "dig")
    except NoMetadata as fault:
        raise NoMetadata(f"{server.name}: {server.path} can't be asked", remarks_in(fault.said or str(fault))) from None


def asking(server: Server, name: str, rtype: str) -> List[str]:
    """The command that transfers a zone, or asks for records of a type at its origin."""
    address, _, port = server.path.partition("@")
    key = ["-k", server.key] if server.key else []
    return ["dig", "-r", f"@{address}", "-p", port or USUAL_PORT, *key, "-t", rtype, "-q", name, "+tcp", "+tries=1",
            f"+time={SECONDS}", "+noidnin", "+noidnout", "+noall", "+answer"]


def listed(server: Server) -> List[str]:
    """The names of a list of zones, one in each line; what follows # is a comment."""
    names = []
    with open(server.names, encoding="utf-8", errors="surrogateescape") as file:
        for number, line in enumerate(file, 1):
            words = line.split("#", 1)[0].split()
            try:
                names += [canonical(word) for word in words]
            except NotAName as fault:
                raise NoMetadata(f"{server.names}:{number}: {fault}: not a name") from None
    if not names:
        raise NoMetadata(f"{server.name}: {server.names} names no zone")
    return names
