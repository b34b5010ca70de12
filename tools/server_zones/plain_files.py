"""The files of rows: the zones' own, and the plain ones that are made of those that groot can't read."""
import concurrent.futures
import os
from typing import Dict, List, NamedTuple, Optional, Tuple, Union

from . import made_files
from .held import Findings, NoMetadata, Server, Zone
from .zone_files import Made, flattened

MOST_SINGLE_LINES, MOST_SAID = 20, 3

# The name of a zone's server, its own, and that of its file.
Key = Tuple[str, str, str]


class Placed(NamedTuple):
    """The zone whose file a row takes, and why this can't be read as it is: then a plain one is made, or it has no place."""

    zone: Zone
    reason: str = ""
    unplaced: str = ""


def files_of(placed: List[Placed], kept: Optional[made_files.Folder], models: Dict[str, Zone], findings: Findings) -> List[str]:
    """The file of each row: the zone's own, or the plain one that is made of it, several at a time; "" where it has none."""
    wanted = {key_of(one.zone): one.zone for one in placed if one.reason}
    results = dict(zip(wanted, made_of(list(wanted.values()), kept, models))) if kept and wanted else {}
    made = {key: result for key, result in results.items() if isinstance(result, Made)}
    say_made({key_of(one.zone): one for one in placed if one.reason and key_of(one.zone) in made}, made, findings)
    return [file_of(one, results.get(key_of(one.zone)), findings) for one in placed]


def file_of(one: Placed, result: Union[Made, str, None], findings: Findings) -> str:
    """The file of a row, with what came of making one; "" where it has none, which is then said."""
    unplaced = one.unplaced or (result if isinstance(result, str) else "")
    if unplaced:
        findings.unplace(one.zone.server, one.zone.name, unplaced)
        return ""
    return result.file if isinstance(result, Made) else str(one.zone.file)


def key_of(zone: Zone) -> Key:
    """What tells a zone's file from others."""
    return zone.server.name, zone.name, str(zone.file)


def made_of(zones: List[Zone], kept: made_files.Folder, models: Dict[str, Zone]) -> List[Union[Made, str]]:
    """The plain file of each zone, or why there is none."""

    def attempt(zone: Zone) -> Union[Made, str]:
        try:
            return flattened(zone, kept, models.get(zone.name))
        except NoMetadata as fault:
            return ": ".join([str(fault), *list(filter(None, fault.said.split("\n")))[:MOST_SAID]])
        except OSError as fault:
            return f"{fault.filename}: {fault.strerror}"

    pool = concurrent.futures.ThreadPoolExecutor(max_workers=os.cpu_count())
    try:
        return list(pool.map(attempt, zones))
    finally:
        pool.shutdown(wait=True, cancel_futures=True)


def say_made(placed: Dict[Key, Placed], made: Dict[Key, Made], findings: Findings) -> None:
    """Says which files were made, and which records stand for more than is seen."""
    by_server: Dict[Server, List[Placed]] = {}
    for one in placed.values():
        by_server.setdefault(one.zone.server, []).append(one)
    for server, own in by_server.items():
        say_own_types(server, {one.zone.name: made[key_of(one.zone)] for one in own}, findings)
        say_files(server, own, made, findings)


def say_files(server: Server, placed: List[Placed], made: Dict[Key, Made], findings: Findings) -> None:
    """Says which files were made of a server's zones: in one line where they are many."""
    if len(placed) > MOST_SINGLE_LINES:
        folder = os.path.dirname(made[key_of(placed[0].zone)].file)
        findings.remark(server, f"{len(placed)} zones are written plain or kept below {folder}")
        return
    for one in placed:
        verb = "kept as" if one.zone.printer else "written plain as"
        findings.remark(server, f"{one.zone.name}: {one.reason}; {verb} {made[key_of(one.zone)].file}")


def say_own_types(server: Server, made: Dict[str, Made], findings: Findings) -> None:
    """Says which types of records a server has for itself: it answers something else than what stands there."""
    found: Dict[str, List[str]] = {}
    for name, word, places in ((name, word, places) for name, one in made.items() for word, places in one.own.items()):
        found.setdefault(word, []).extend(place if place.startswith("/") else name for place in places)
    for word, places in found.items():
        findings.remark(server, f"records of type {word}: {len(places)}, the first at {places[0]}; groot doesn't see what the "
                                "server makes of them")
