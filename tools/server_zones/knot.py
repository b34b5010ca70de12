"""The zones that Knot holds, from what `knotc conf-export` prints of its configuration file or its configuration database."""
import os
import re
import shlex
from typing import Dict, List, Match

from . import catalogs
from .held import Findings, NoMetadata, Printer, Server, Zone, rooted, unprinted
from .names import canonical, labels_of

USUAL_STORAGE = "/var/lib/knot"
USUAL_FILE = "%s.zone"
REMEDY = "knotc can't read it from the server, which must run here; or take the zone by a transfer (axfr:), or use --published"
PRINTED = re.compile(r'(?:#.*|[\w-]+:|  (?:- |  )[\w-]+: (?:".*"|\[ ".*" \]))?')
FORMATTER = re.compile(r"%(?:%|s|c\[(?P<first>\d+)(?:-(?P<last>\d+))?\]|l\[(?P<label>\d+)\])")

Settings = Dict[str, List[str]]


def command(path: str) -> List[str]:
    """The command that prints the configuration; a folder is a configuration database."""
    return [*control(path), "conf-export"]


def control(path: str) -> List[str]:
    """The command that speaks with the server of a configuration."""
    return ["knotc", "-C" if os.path.isdir(path) else "-c", path]


def zones(server: Server, text: str, _views: List[str], findings: Findings) -> List[Zone]:
    """The zones of the configuration, each with what its template gives it, and the members of catalogs in the place of these."""
    for line in text.splitlines():
        if not PRINTED.fullmatch(line):
            raise unprinted(server, command("FILE"), line.strip())
    sections = sections_of(text)
    templates = {word_of(item, "id", ""): item for item in sections.get("template", [])}
    updaters = {word_of(item, "id", "") for item in sections.get("acl", []) if "update" in item.get("action", [])}
    configured = []
    for item in sections.get("zone", []):
        if "domain" not in item:
            raise NoMetadata(f"{server.name}: {server.path}: not as knotc conf-export prints it: a zone without a domain")
        configured.append({**templates.get(word_of(item, "template", "default"), {}), **item})
    held = [zone_of(server, settings, updaters, findings) for settings in configured]
    known = {zone.name for zone in held}
    found = []
    for zone, settings in zip(held, configured):
        role = word_of(settings, "catalog-role", "none")
        if role == "interpret":
            members = catalogs.taken(server, zone, known, findings)
            found += [zone_of(server, member_of(member, settings, templates), updaters, findings) for member in members]
        elif role == "generate":
            findings.remark(server, f"{zone.name}: passed over, a catalog zone that Knot makes; its members have rows")
        else:
            found.append(zone)
    return found


def member_of(member: catalogs.Member, catalog: Settings, templates: Dict[str, Settings]) -> Settings:
    """The settings of a member of a catalog: those of the template for its group, or of the first one."""
    names = catalog.get("catalog-template", ["default"])
    return {**templates.get(member.group if member.group in names else names[0], {}), "domain": [member.name]}


def zone_of(server: Server, settings: Settings, updaters: "set[str]", findings: Findings) -> Zone:
    """A zone, from its settings and those of its template."""
    name = word_of(settings, "domain", "")
    pattern, storage = word_of(settings, "file", USUAL_FILE), word_of(settings, "storage", USUAL_STORAGE)
    file = file_of(pattern, canonical(name))
    path = rooted(server, storage, file) if file else None
    role = "secondary" if "master" in settings else "primary"
    for module in settings.get("module", []):
        findings.remark(server, f"{name}: what {module} answers stands in no file")
    zone = Zone(server, canonical(name), role, path, refresh=flush(name),
                unplaced="" if path else f"{pattern} in the storage {storage} is no absolute path")
    why = why_not_written(settings, role, bool(updaters.intersection(settings.get("acl", []))))
    if not why:
        if updaters.intersection(settings.get("acl", [])):
            findings.remark(server, f"{name} takes updates; first run {flush(name)}")
        elif word_of(settings, "zonefile-sync", "0") not in ("-1", "0"):
            findings.remark(server, f"{name}: its file is written some time after a change (zonefile-sync); first run {flush(name)}")
        return zone
    live = zone._replace(unplaced="", printer=Printer([*control(server.path), "zone-read", name], "zone-read", REMEDY), why=why)
    if server.elsewhere or server.root:
        live = zone._replace(unplaced=f"{why}; take it by a transfer (axfr:), or use --published, or run "
                                      f"{flush(name)} +outdir FOLDER")
    return zone._replace(live=live)


def why_not_written(settings: Settings, role: str, updated: bool) -> str:
    """Why the server's answers stand in no file; "" where it writes them into the zone's file."""
    if word_of(settings, "zonefile-sync", "0") != "-1":
        return ""
    sign = word_of(settings, "dnssec-signing", "off") == "on"
    loads = word_of(settings, "zonefile-load", "whole")
    reasons = [("it is a secondary", role == "secondary"), ("the server signs it", sign), ("it takes updates", updated),
               ("zonefile-load is none", loads == "none"), ("the server counts its serial", loads == "difference-no-serial")]
    reason = next((text for text, holds in reasons if holds), "")
    return f"{reason}, and Knot doesn't write its file (zonefile-sync -1)" if reason else ""


def flush(name: str) -> str:
    """The line that has Knot write the file of a zone."""
    return f"knotc zone-flush {shlex.quote(name)}"


def word_of(settings: Settings, key: str, usual: str) -> str:
    """The first value of a setting, or the usual one."""
    return next(iter(settings.get(key, [])), usual)


def sections_of(text: str) -> Dict[str, List[Settings]]:
    """The items of each section. An item is its settings, and a setting a list of values, within whose quotes Knot escapes
    nothing."""
    sections: Dict[str, List[Settings]] = {}
    items: List[Settings] = []
    for line in text.splitlines():
        if not line.strip() or line.startswith("#"):
            continue
        if not line.startswith(" "):
            items = sections.setdefault(line.rstrip(": "), [])
            continue
        if line.startswith("  - ") or not items:
            items.append({})
        key, _, value = line[4:].strip().partition(": ")
        several = re.fullmatch(r'\[ "(.*)" \]', value)
        items[-1][key] = several[1].split('", "') if several else [value[1:-1]]
    return sections


def file_of(pattern: str, name: str) -> str:
    """The file of a zone, with the parts of its name put into the pattern (knot.conf, zone section, `file`); "" where the
    pattern has a formatter that isn't known here."""
    text = name.replace("/", "_")
    labels = labels_of(text)[::-1]

    def part(found: Match[str]) -> str:
        if found["first"]:
            return text[int(found["first"]):int(found["last"] or found["first"]) + 1]
        if found["label"]:
            return "".join(labels[int(found["label"]):][:1])
        return "%" if found[0] == "%%" else text[:-1]

    return "" if "%" in FORMATTER.sub("", pattern) else FORMATTER.sub(part, pattern)
