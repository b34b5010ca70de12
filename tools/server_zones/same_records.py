"""From which line of the operator's text a record of a binary file, a journal or a transfer is: that of the same record there."""
import ipaddress
from typing import Dict, List, Tuple

from .line_map import Run
from .master_file import NotCut
from .names import NotAName
from .plain_text import Plain
from .records import NAMES, Record, records

# Texts longer than this aren't compared.
MOST_OCTETS = 8_000_000

Key = Tuple[str, str, Tuple[str, ...]]


def runs_of(octets: bytes, model: Plain, origin: str) -> List[Run]:
    """The map of a text's lines, as far as a record in them stands in the model too."""
    if len(octets) + len(model.octets) > MOST_OCTETS:
        return []
    try:
        places = places_of(model, origin)
        found = [(record.line, places.get(key_of(record))) for record in records(octets, origin)]
    except (NotCut, NotAName, IndexError, ValueError):
        return []
    runs: List[Run] = []
    for line, place in found:
        last = runs[-1] if runs else Run(0, 0, 0, 0, "")
        if place and (last.last + 1, last.line + line - last.first, last.file) == (line, place[1], place[0]):
            runs[-1] = last._replace(last=line)
        elif place:
            runs.append(Run(line, line, place[1], 1, place[0]))
    return runs


def places_of(model: Plain, origin: str) -> Dict[Key, Tuple[str, int]]:
    """The operator's file and line of each record of a text."""
    found: Dict[Key, Tuple[str, int]] = {}
    at = 0
    for record in records(model.octets, origin):
        while model.runs[at].last < record.line:
            at += 1
        run = model.runs[at]
        found.setdefault(key_of(record), (run.file, run.line + (record.line - run.first) * run.step))
    return found


def key_of(record: Record) -> Key:
    """What is the same of a record in every text of it. There is one SOA record, whose serial may differ."""
    if record.rtype == "SOA":
        return record.owner, "SOA", ()
    if record.rtype == "AAAA":
        return record.owner, "AAAA", (ipaddress.IPv6Address(record.data[0].text.decode()).exploded,)
    names = NAMES.get(record.rtype, ())
    data = [record.name(at) if at in names else token.text.decode("latin-1") for at, token in enumerate(record.data)]
    return record.owner, record.rtype, tuple(data)
