"""What groot-map says of a configuration: its records, and the rows that no query reaches."""
import functools
import os
import re
import shutil
import subprocess
from typing import Dict, List, NamedTuple

from .held import NoMetadata
from .line_map import place_of
from .programs import ended
from .whole_files import made_for_a_while

PROGRAM = "groot-map"
REFUSED = re.compile(r"(.*):(\d+): ([a-z-]+)", re.S)


class Row(NamedTuple):
    """A row of the metadata, and whether a query reaches it."""

    reached: bool
    server: str
    zone: str
    file: str


def is_there() -> bool:
    """Whether the program is on the path."""
    return shutil.which(PROGRAM) is not None


@functools.lru_cache(maxsize=None)
def knows(word: str) -> bool:
    """Whether the program is on the path, and has a command: its usage line names it."""
    return is_there() and word in os.fsdecode(subprocess.run(
        [PROGRAM], stdin=subprocess.DEVNULL, stdout=subprocess.DEVNULL, stderr=subprocess.PIPE, check=False).stderr).split()


def records(metadata: str, folder: str) -> str:
    """The list of the records of metadata, which are meant for a folder."""
    if not is_there():
        raise NoMetadata(f"--above: {PROGRAM} isn't on the path; or give its list of records by --records")
    run = asked_of("records", metadata, folder)
    if run.returncode:
        raise NoMetadata(f"{PROGRAM} records: {ended(run.returncode)}: {refusal_of(run.stderr)}")
    return os.fsdecode(run.stdout)


def reached(metadata: str, folder: str) -> List[Row]:
    """The rows of metadata, each with whether a query reaches it."""
    run = asked_of("reached", metadata, folder)
    if run.returncode not in (0, 1):
        raise NoMetadata(f"{PROGRAM} reached: {ended(run.returncode)}: {refusal_of(run.stderr)}")
    return rows_of(os.fsdecode(run.stdout))


def rows_of(text: str) -> List[Row]:
    """The rows of the list that `groot-map reached` printed."""
    lines = [line.split("\t") for line in text.removesuffix("\n").split("\n")]
    if any(len(columns) != 5 for columns in lines):
        raise NoMetadata(f"{PROGRAM} reached: a line has not 5 columns")
    return [Row(word == "reached", server, zone, file) for word, _, server, zone, file in lines]


def said_of(rows: List[Row]) -> List[str]:
    """A line for each row that no query reaches, or one for all of a server, if no query reaches any."""
    lines: List[str] = []
    by_server: Dict[str, List[Row]] = {}
    for row in rows:
        by_server.setdefault(row.server, []).append(row)
    for server, own in by_server.items():
        if len(own) > 1 and not any(row.reached for row in own):
            lines.append(f"{server}: no query reaches any of its {len(own)} rows, so none is checked")
        else:
            lines += [f"{server}: {row.zone}: no query reaches this row, so it isn't checked ({row.file})"
                      for row in own if not row.reached]
    return lines


def zones_beside(rows: List[Row]) -> List[str]:
    """The zones of which no query reaches a row, though one reaches another row of each of their servers: those that a server
    holds for its own machine, as localhost, are such."""
    asked = {row.server for row in rows if row.reached}
    found = {row.zone for row in rows if row.reached} | {row.zone for row in rows if row.server not in asked}
    return list(dict.fromkeys(row.zone for row in rows if row.zone not in found))


def refusal_of(said: bytes) -> str:
    """What the program said of a refusal, with the operator's file and line in the place of those of a file that was made."""
    text = os.fsdecode(said).strip()
    found = REFUSED.fullmatch(text)
    if not found:
        return text
    file, line = place_of(found[1], int(found[2]))
    return f"{file}:{line}: {found[3]}"


def by_one_name(rows: List[Row], also: Dict[str, str]) -> List[Row]:
    """The rows, of which those of a server that has several names count as reached by any of them; `also` gives the first name
    of another one."""
    reached = {(also.get(row.server, row.server), row.zone) for row in rows if row.reached}
    return [row._replace(reached=(also.get(row.server, row.server), row.zone) in reached) for row in rows]


def asked(word: str, path: str) -> "subprocess.CompletedProcess[bytes]":
    """A run of the program over a metadata file."""
    return subprocess.run([PROGRAM, word, path], stdin=subprocess.DEVNULL, stdout=subprocess.PIPE, stderr=subprocess.PIPE,
                          check=False)


def asked_of(word: str, metadata: str, folder: str) -> "subprocess.CompletedProcess[bytes]":
    """A run of the program over metadata that are meant for a folder."""
    try:
        with made_for_a_while(folder, os.fsencode(metadata), ".json") as path:
            return asked(word, path)
    except OSError as fault:
        raise NoMetadata(f"{PROGRAM} {word}: {folder}: {fault.strerror}") from None
