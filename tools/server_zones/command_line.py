"""What the command line of groot-metadata asks for."""
import argparse
import os
from typing import Dict, Iterable, List, NamedTuple, Set, Tuple

from .held import NoMetadata, Server, Zone
from .names import canonical
from .paths import absolute
from .version import version

PROGRAM = "groot-metadata"
CONFIGURED, PRINTED = ("bind", "nsd", "knot"), "-printed"
ASKED = ("axfr", "pdns", "zones")
# Kinds whose zones a tool prints, so that they need a folder.
PRINTING = ("axfr", "pdns")
BY_NS = "by-ns"


class Wanted(NamedTuple):
    """What the command line asks for. `given` are zones whose files it names, `others` further names of servers, `primaries` the
    servers of which it says that they are the primaries of zones of which nothing else says it."""

    servers: List[Server]
    given: List[Zone]
    others: List[Tuple[str, str]]
    primaries: List[str]
    tops: List[str]
    views: List[str]
    left_out: List[str]
    flatten: str
    published: bool
    above: str
    records: str
    output: str


def words(usage: str) -> argparse.Namespace:
    """The words of the command line."""
    parser = argparse.ArgumentParser(prog=PROGRAM, description=usage, allow_abbrev=False)

    def several(option: str, metavar: str, text: str) -> None:
        parser.add_argument(option, metavar=metavar, action="append", default=[], help=text)

    several("--server", "NAME=KIND:PATH", (
        "a server, by its name in NS records, and where its zones are from: bind:FILE, nsd:FILE, knot:FILE or knot:FOLDER (a "
        "confdb); with -printed behind the kind, PATH is what the server's tool printed on another machine; pdns:FOLDER (the "
        "folder of pdns.conf); axfr:ADDRESS[@PORT] (transfers); zones:FOLDER/%%s.zone (zone files alone)"))
    several("--by-ns", "FOLDER/%s.zone", "zone files, each for all servers that the zone's own NS records name")
    several("--root", "NAME=FOLDER", "the folder below which this server's files stand, copied from its machine")
    several("--also", "NAME=OTHER", "another name of the server in NS records")
    several("--zone", "NAME=ZONE:FILE", (
        "a zone of a server and a text file that holds it: a zone above your own, or in the place of the server's own file"))
    several("--zones", "NAME=FILE", "for axfr: the names of the zones, one in a line")
    several("--catalog", "NAME=ZONE", "for axfr: a catalog zone, whose members are the zones")
    several("--key", "NAME=FILE", "for axfr: a file with the TSIG key, as named.conf has it")
    several("--primary", "NAME", "this server is the primary of its zones, where nothing else says it")
    several("--top", "NAME", "a server at which queries begin; without it, all servers")
    several("--view", "VIEW", "the view of BIND whose zones are taken")
    several("--leave-out", "NAME", "a zone, catalog or database to leave out on purpose")
    parser.add_argument("--flatten", metavar="FOLDER", default="", help=(
        "where what is transferred or printed is kept, and plain text of the zones that groot can't read as they stand"))
    parser.add_argument("--published", action="store_true", help="take the primary's file for secondaries too: what will be")
    parser.add_argument("--above", metavar="FOLDER", default="", help=(
        "where to write a zone above all zones, at which queries then begin: made of their records, which groot-map lists"))
    parser.add_argument("--records", metavar="FILE", default="", help="for --above: the list that groot-map records printed")
    parser.add_argument("--output", metavar="META", default="", help=(
        "the metadata file; without it, the standard output, and metadata for the working folder"))
    parser.add_argument("--version", action="version", version=f"{PROGRAM} {version()}", help="print the version")
    return parser.parse_args()


def wanted_of(line: argparse.Namespace) -> Wanted:
    """What the words ask for, with each name as groot prints it."""
    files = {option: named(getattr(line, option)) for option in ("root", "zones", "catalog", "key")}
    servers = [server_of(text, files) for text in line.server]
    servers += [Server(BY_NS, "zones", pattern) for pattern in line.by_ns]
    given = [given_zone(text) for text in line.zone]
    others = [(canonical(name), canonical(other)) for name, other in map(pair, line.also)]
    primaries = [canonical(name) for name in line.primary]
    check_servers(line, servers, given, files)
    check_options(line)
    return Wanted(
        servers, given, others, primaries, [canonical(name) for name in line.top], line.view,
        [canonical(name) for name in line.leave_out], line.flatten, line.published, line.above, line.records, line.output,
    )


def check_servers(line: argparse.Namespace, servers: List[Server], given: List[Zone], files: Dict[str, Dict[str, str]]) -> None:
    """Refuses options for servers that aren't there, and servers that lack one."""
    asked = {server.name for server in servers}
    for option, names in files.items():
        check_known("--" + option, names, {server.name for server in servers if option == "root" or server.kind == "axfr"})
    there = asked.union(zone.server.name for zone in given)
    check_known("--also", [canonical(name) for name, _ in map(pair, line.also)], there)
    check_known("--primary", map(canonical, line.primary), there)
    for server in servers:
        if server.kind in PRINTING and not line.flatten:
            raise NoMetadata(f"{server.name}: {server.kind}: takes --flatten FOLDER too, where what is printed is kept")


def check_options(line: argparse.Namespace) -> None:
    """Refuses options that don't go together."""
    if line.above and line.top:
        raise NoMetadata("--top: with --above, queries begin at the zone above")
    if line.records and not line.above:
        raise NoMetadata("--records: it is for --above alone")


def named(texts: List[str]) -> Dict[str, str]:
    """What stands behind the name of each server."""
    return {canonical(name): rest for name, rest in map(pair, texts)}


def server_of(text: str, files: Dict[str, Dict[str, str]]) -> Server:
    """A server, with what other options say of it."""
    name, rest = pair(text)
    kind, colon, path = rest.partition(":")
    plain = kind.removesuffix(PRINTED) if kind.removesuffix(PRINTED) in CONFIGURED else kind
    if not colon or not path or plain not in CONFIGURED + ASKED:
        raise NoMetadata(f"--server {name}={rest}: write {name}=KIND:PATH, with a KIND of {', '.join(CONFIGURED + ASKED)}")
    own = canonical(name)
    catalog = files["catalog"].get(own, "")
    return Server(own, plain, path, root_of(files["root"].get(own, "")), kind != plain,
                  files["zones"].get(own, ""), canonical(catalog) if catalog else "", files["key"].get(own, ""))


def root_of(folder: str) -> str:
    """The folder below which a server's files stand; "" where they stand as on its machine."""
    return absolute(folder).rstrip("/") if folder else ""


def check_known(option: str, names: Iterable[str], servers: Set[str]) -> None:
    """Refuses an option for a server that isn't there, or whose kind has no use for it."""
    for name in names:
        if name not in servers:
            raise NoMetadata(f"{option} {name}: no server has this name" + (
                ", or it isn't asked by axfr:" if option in ("--zones", "--catalog", "--key") else ""))


def pair(text: str) -> Tuple[str, str]:
    """The two words around the first equals sign."""
    first, sign, second = text.partition("=")
    if not sign or not second:
        raise NoMetadata(f"{text}: an equals sign, and something behind it, is missing")
    return first, second


def given_zone(text: str) -> Zone:
    """A zone whose server and file the command line says."""
    name, rest = pair(text)
    zone, colon, file = rest.partition(":")
    if not colon or not file:
        raise NoMetadata(f"--zone {text}: write NAME=ZONE:FILE")
    path = absolute(file)
    return Zone(Server(canonical(name), "", ""), canonical(zone), "", path, os.path.dirname(path))
