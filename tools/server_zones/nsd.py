"""The zones that NSD holds, from what `nsd-checkconf -v` prints, with its patterns put in, and from its list of added zones."""
import os
import re
import shlex
from typing import Dict, Iterator, List, Tuple

from . import catalogs
from .held import UNKNOWN_FOLDER, Findings, NoMetadata, Server, Zone, rooted, unprinted
from .names import canonical, labels_of

Settings = Dict[str, str]


def command(path: str) -> List[str]:
    """The command that prints the configuration."""
    return ["nsd-checkconf", "-v", path]


def zones(server: Server, text: str, _views: List[str], findings: Findings) -> List[Zone]:
    """The zones of the configuration, those that nsd-control added, and the members of catalogs in the place of these."""
    sections = list(sections_of(text))
    options = checked(server, sections)
    patterns = {settings["name"]: settings for kind, settings in sections if kind == "pattern"}
    configured = [settings for kind, settings in sections if kind == "zone"]
    configured += added(server, options, patterns, findings)
    found = []
    known = {canonical(settings["name"]) for settings in configured}
    for settings in configured:
        zone = zone_of(server, options, settings)
        if settings.get("catalog") == "consumer":
            members = catalogs.taken(server, zone, known, findings)
            found += [zone_of(server, options, member_of(member, settings, patterns)) for member in members]
        else:
            found.append(zone)
    secondaries = sum(zone.role == "secondary" for zone in found)
    if secondaries:
        findings.remark(server, f"the files of secondary zones ({secondaries}) are as the last `nsd-control write` left them")
    return found


def checked(server: Server, sections: List[Tuple[str, Settings]]) -> Settings:
    """The server's options; refuses what nsd-checkconf doesn't print."""
    for kind, settings in sections:
        if "include" in (kind, *settings):
            raise unprinted(server, command("FILE"), "include")
        if kind in ("zone", "pattern") and "name" not in settings:
            raise NoMetadata(f"{server.name}: {server.path}: not as nsd-checkconf -v prints it: a {kind} without a name")
    options = [settings for kind, settings in sections if kind == "server"]
    if not options:
        raise NoMetadata(f"{server.name}: {server.path}: not as nsd-checkconf -v prints it: it has no server section")
    return options[0]


def member_of(member: catalogs.Member, catalog: Settings, patterns: Dict[str, Settings]) -> Settings:
    """The settings of a member of a catalog: those of the pattern of its group, or of the catalog's usual one."""
    usual = patterns.get(catalog.get("catalog-member-pattern", ""), {})
    return {**patterns.get(member.group, usual), "name": member.name[:-1]}


def zone_of(server: Server, options: Settings, settings: Settings) -> Zone:
    """A zone, from the server's options and its own settings."""
    name = settings["name"]
    directory, chroot = options.get("zonesdir", ""), options.get("chroot", "").rstrip("/")
    file = file_of(settings.get("zonefile", ""), name)
    if chroot and file.startswith("/") and not file.startswith(chroot + "/"):
        file = chroot + file
    path = rooted(server, directory, file) if file else None
    unplaced = ""
    if not file:
        unplaced = "it has no file; give it a zonefile, reload, and for a secondary run nsd-control write"
    elif not path:
        unplaced = f"{file}: no absolute zonesdir says from where it is meant"
    return Zone(
        server, canonical(name), "secondary" if "request-xfr" in settings else "primary", path,
        folder=rooted(server, directory, ".") or UNKNOWN_FOLDER,
        refresh=f"nsd-control write {shlex.quote(name)}", unplaced=unplaced,
    )


def added(server: Server, options: Settings, patterns: Dict[str, Settings], findings: Findings) -> List[Settings]:
    """The settings of the zones that nsd-control added, each those of its pattern."""
    path = rooted(server, options.get("zonesdir", ""), options.get("zonelistfile", ""))
    try:
        with open(path or "", encoding="utf-8", errors="surrogateescape") as file:
            lines = [line.split() for line in file if line.strip() and not line.startswith("#")]
    except FileNotFoundError:
        if (server.elsewhere or server.root) and not os.path.isdir(os.path.dirname(path or "")):
            raise NoMetadata(f"{server.name}: {path} may list zones that nsd-control added; copy its folder too") from None
        return []
    found = []
    for words in lines:
        if words[0] == "add" and len(words) == 3 and words[2] in patterns:
            found.append({**patterns[words[2]], "name": words[1]})
        elif words[0] not in ("del", "cat"):
            raise NoMetadata(f"{server.name}: {path}: a line that isn't known here: {' '.join(words)}")
    if found:
        findings.remark(server, f"zones that nsd-control added, from {path}: {len(found)}")
    return found


def sections_of(text: str) -> Iterator[Tuple[str, Settings]]:
    """Each section as its kind and its settings; of a setting the first value counts."""
    kind = ""
    settings: Settings = {}
    for line in text.splitlines():
        key, _, value = line.strip().partition(":")
        if not key or key.startswith("#"):
            continue
        if line[0].isspace():
            settings.setdefault(key, unquoted(value.strip()))
        else:
            if kind:
                yield kind, settings
            kind, settings = key, {}
    yield kind, settings


def unquoted(value: str) -> str:
    """A value without the quotes around it; within them NSD escapes nothing."""
    return value[1:-1] if len(value) > 1 and value[0] == value[-1] == '"' else value


def file_of(pattern: str, name: str) -> str:
    """The file of a zone, with the parts of its name put into the pattern (nsd.conf, `zonefile`)."""
    labels = labels_of(canonical(name))
    parts = {"s": name, "1": name[0:1], "2": name[1:2], "3": name[2:3]}
    parts.update(zip("zyx", reversed(labels)))
    return re.sub("%([s123zyx])", lambda found: parts.get(found[1]) or ".", pattern)
