"""The zones of a folder of zone files, each under the name of its zone: FOLDER/%s.zone."""
import os
import re
from typing import List, Tuple

from .held import Findings, NoMetadata, Server, Zone
from .names import NotAName, canonical
from .paths import absolute

PLACE = "%s"


def zones(server: Server, _text: str, _views: List[str], findings: Findings) -> List[Zone]:
    """The zones of the files that fit the pattern."""
    found, others = files_of(server)
    held = []
    for text, path in found:
        try:
            name = canonical(text)
        except NotAName:
            findings.unplace(server, path, "its name is that of no zone; move it, or give it another one")
            continue
        held.append(Zone(server, name, "", path, folder=os.path.dirname(path)))
    if others:
        shown = ", ".join(others[:3]) + (", .." if len(others) > 3 else "")
        findings.remark(server, f"files that don't fit {server.path}: {len(others)} ({shown})")
    if not held:
        raise NoMetadata(f"{server.name}: no file fits {server.path}")
    return held


def files_of(server: Server) -> Tuple[List[Tuple[str, str]], List[str]]:
    """Each file that fits the pattern, with the text in the place of %s, and the names of those beside it that don't fit."""
    path = absolute(server.path)
    if path.count(PLACE) != 1:
        raise NoMetadata(f"{server.name}: {server.path}: write %s once, in the place of the zone's name, as in FOLDER/%s.zone")
    front, behind = path.split(PLACE)
    folder, start = front.rsplit("/", 1)
    end, slash, rest = behind.partition("/")
    form = re.compile(re.escape(start) + "(.+)" + re.escape(end), re.S)
    found, others = [], []
    for name in sorted(name for name in os.listdir(folder or "/") if not name.startswith(".")):
        fits = form.fullmatch(name)
        file = os.path.join(folder, name) + slash + rest
        if fits and os.path.isfile(file):
            found.append((fits[1], file))
        elif slash or os.path.isfile(file):
            others.append(name)
    return found, others
