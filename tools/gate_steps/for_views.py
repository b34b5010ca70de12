"""What the views get of the files of a run: of a list of records the lines alone that they need, which are few of many."""
import contextlib
import json
import os
import re
from typing import Any, IO, Iterable, Iterator, List, Set, Tuple

from .folder import Folder

NAME = "records.part.tsv"
# the types of the records at which findings stand, beside the types of queries that servers answer differently
TYPES = {b"SOA", b"NS", b"CNAME", b"DNAME", b"A", b"AAAA"}
OBEYED = re.compile(rb"[^\n\t -~]")  # more than what a terminal obeys: the views look closer then
ESCAPED = re.compile(rb"\\[bfnrtu]")


@contextlib.contextmanager
def named_records(folder: Folder, lists: Iterable[str]) -> Iterator[str]:
    """The path of a list, for a while, of those records of the folder that its report or another list names: by their owner, or
    by file and line."""
    try:
        with folder.writing(NAME) as out:
            write_named(folder, lists, out)
        yield folder.at(NAME)
    finally:
        with contextlib.suppress(OSError):
            os.unlink(folder.at(NAME))


def write_named(folder: Folder, lists: Iterable[str], out: IO[bytes]) -> None:
    """Writes the lines of those records."""
    with open(folder.at("report.json"), encoding="utf-8") as report:
        faults = json.load(report)["faults"]
    names, places = set(texts(faults)), set()
    for path in lists:
        with open(path, "rb") as file:
            for line in file:
                row = line.rstrip(b"\n").split(b"\t")
                names.update(row)
                places.add((row[-2], row[-1]))
    types = TYPES | {fault["type"].encode() for fault in faults}
    with open(folder.at("records.tsv"), "rb") as records:
        out.writelines(line for line in records if is_named(line.rstrip(b"\n").split(b"\t"), names, places, types))


def is_named(row: List[bytes], names: Set[bytes], places: Set[Tuple[bytes, bytes]], types: Set[bytes]) -> bool:
    """Whether a record is named by its owner, may answer for a name as a wildcard, or stands where a list says."""
    return row[3] in types and (row[2] in names or row[2].startswith(b"*.") or (row[4], row[5]) in places)


def texts(value: Any) -> Iterator[bytes]:
    """All texts in a JSON value."""
    if isinstance(value, str):
        yield value.encode("utf-8", "surrogatepass")
    elif isinstance(value, list):
        for member in value:
            yield from texts(member)
    elif isinstance(value, dict):
        for member in value.values():
            yield from texts(member)


def is_plain(report: str, lists: Iterable[str]) -> bool:
    """Whether no file that the views read has a character that a terminal obeys, or may have an escape for one."""
    with open(report, "rb") as file:
        text = file.read()
    if OBEYED.search(text) or ESCAPED.search(text):
        return False
    for path in lists:
        with open(path, "rb") as file:
            if any(OBEYED.search(line) for line in file):
                return False
    return True
