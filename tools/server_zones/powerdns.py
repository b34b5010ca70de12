"""The zones of PowerDNS, of whatever backend, by pdnsutil."""
import re
from typing import List

from .held import Findings, NoMetadata, Printer, Server, Zone
from .names import canonical
from .programs import both_of, output_of

TOOL = "pdnsutil"
REJECTED = re.compile(r"\b(\d+) rejected\b")
COUNT = re.compile(r"^\w+ zonecount: ?(\d+)$", re.M)
REMEDY = "pdnsutil can't list it; may this user read its configuration and its database?"
SECONDARY, CATALOGS = ("secondary", "slave"), ("producer", "consumer")


def zones(server: Server, _text: str, _views: List[str], findings: Findings) -> List[Zone]:
    """All zones, of which those that it transfers from elsewhere are secondaries, without its catalogs."""
    names = names_of(server, [])
    say_rejected(server, findings)
    secondary = set(names_of(server, list(SECONDARY)))
    catalogs = {name for kind in CATALOGS for name in names_of(server, [kind])}
    if catalogs:
        findings.remark(server, f"catalog zones, which have no rows: {', '.join(sorted(catalogs))}")
    held = []
    for name in [name for name in names if name not in catalogs]:
        words = [*asked(server), "list-zone", "--", name]
        held.append(Zone(server, name, "secondary" if name in secondary else "primary", None, why="it stands in a database",
                         printer=Printer(words, "list-zone", REMEDY)))
    say_signed(server, names, findings)
    return held


def asked(server: Server) -> List[str]:
    """The tool, for the server's configuration."""
    return [TOOL, f"--config-dir={server.path}"]


def names_of(server: Server, kinds: List[str]) -> List[str]:
    """The names of all zones, or of those of a kind, of which the tool knows one of the words; also of zones without records."""
    for kind in kinds or [""]:
        try:
            text = output_of([*asked(server), "-v", "list-all-zones", *([kind] if kind else [])], server.name)
        except NoMetadata:
            if not kind:
                raise
            continue
        found = COUNT.search(text)
        names = [canonical(line.strip()) for line in text[:found.start() if found else 0].splitlines() if line.strip()]
        if not found or int(found[1]) != len(names):
            raise NoMetadata(f"{server.name}: {TOOL} list-all-zones didn't print a list with its count", text)
        return names
    return []


def say_rejected(server: Server, findings: Findings) -> None:
    """Says that a backend rejects zones of its own configuration, which no list has then."""
    _, said = both_of([*asked(server), "list-all-zones"], server.name)
    found = REJECTED.search(said)
    if found and int(found[1]) and not findings.leaves_out(server, "rejected"):
        findings.unplace(server, "rejected", f"PowerDNS rejects {found[1]} of its zones: a file is missing, or a type isn't known to "
                                             "it; mend them, or --leave-out=rejected")


def say_signed(server: Server, names: List[str], findings: Findings) -> None:
    """Says of which zones the server adds records while it answers."""
    lines = [line.split() for line in output_of([*asked(server), "list-keys"], server.name).splitlines()]
    keys = {canonical(words[0]) for words in lines if "Act" in words[1:]}
    signed = [name for name in names if name in keys]
    if signed:
        shown = ", ".join(signed[:3]) + (", .." if len(signed) > 3 else "")
        findings.remark(server, f"zones that PowerDNS signs: {shown} ({len(signed)}); it may raise their serials and adds keys as it "
                                "answers, which stands in no list: take them by axfr: if another server holds them too")
