"""The lists of groot-map in a pipeline: how they are run and read."""
import contextlib
import os
import re
import tempfile
from typing import Dict, IO, Iterable, Iterator, List, NamedTuple, Sequence, Set

from server_zones.line_map import escaped, unescaped

from .children import Ended, how_it_ended, run
from .tables import columns
from .terminal import pass_on

PROGRAM = "groot-map"
COLUMNS = columns()
PLACE = re.compile(r"(.+):([0-9]+): (\S+)")
LINES = ".lines"
FAILED = 8
LIMIT = 4  # the status of groot and groot-map when a limit is passed
FIRST_LINE = b"groot-metadata lines 1\n"


class Names(NamedTuple):
    """How names of files are written: from the working folder on, and which of them are plain texts of other files."""

    top: bytes
    flat: Set[bytes]


def missing_words() -> List[str]:
    """The words that this groot-map doesn't have: its usage line names those that it has."""
    _, lines = run([PROGRAM])
    known = " ".join(lines).split()
    return [word for word in COLUMNS if word not in known]


def names_from(folder: str) -> Names:
    """Names of files from a folder on."""
    return Names(escaped(folder.rstrip("/") + "/"), set())


def rows_of(file: Iterable[bytes], word: str, names: Names) -> Iterator[List[bytes]]:
    """The columns of each line of a list, with the names of files from the working folder on."""
    place = COLUMNS[word].index("file") if "file" in COLUMNS[word] else None
    for line in file:
        row = line.rstrip(b"\n").split(b"\t")
        if len(row) != len(COLUMNS[word]):
            raise Ended(FAILED, f"{PROGRAM} {word}: a line has {len(row)} columns, not {len(COLUMNS[word])}; install groot and groot-map of one version")
        if place is not None:
            names.flat.add(row[place])
            row[place] = row[place].removeprefix(names.top)
        yield row


def write_rows(rows: Iterable[List[bytes]], out: IO[bytes]) -> None:
    """Writes the lines of a list."""
    for line in rows:
        out.write(b"\t".join(line) + b"\n")


def mark_unasked(rows: Iterable[List[bytes]], unasked: List[str], also: Dict[str, str]) -> List[List[bytes]]:
    """The rows of a list of rows, where those that no query needs to reach are said to be `unasked`: those of the servers
    `unasked`, and a row that is reached by another name of its server, where `also` has further names, each with the first one."""
    listed, servers = list(rows), {name.encode() for name in unasked}
    names = {other.encode(): first.encode() for other, first in also.items()}
    reached = {(names.get(row[2], row[2]), row[3]) for row in listed if row[0] == b"reached"}
    return [[b"unasked", *row[1:]] if row[0] == b"unreached" and (row[2] in servers or (names.get(row[2], row[2]), row[3]) in reached)
            else row for row in listed]


def written_out(names: Names) -> Iterator[List[bytes]]:
    """For each plain text that stands for an operator's file, the lines of its map, each with the name of the text before it."""
    for flat in sorted(names.flat):
        path = unescaped(flat) + LINES
        if os.path.isfile(path):
            with open(path, "rb") as file:
                if file.readline() != FIRST_LINE:
                    raise Ended(FAILED, f"{path}: it isn't a map of lines that this groot-gate knows; make the metadata anew")
                for line in file:
                    *numbers, name = line.rstrip(b"\n").split(b"\t")
                    yield [flat.removeprefix(names.top), *numbers, name.removeprefix(names.top)]


def operators_line(text: str) -> str:
    """A line `FILE:LINE: CODE` of groot, with the operator's file and line if FILE is a plain text that stands for another."""
    found = PLACE.fullmatch(text)
    if not found or not os.path.isfile(found[1] + LINES):
        return text
    file, number, code = found[1], int(found[2]), found[3]
    for _, first, last, line, step, name in written_out(Names(b"", {escaped(file)})):
        if int(first) <= number <= int(last):
            place = int(line) + (number - int(first)) * int(step)
            return f"{unescaped(name)}:{place}: {code} (written out as {file}:{number})"
    return text


@contextlib.contextmanager
def output_of(command: Sequence[str], folder: str, most: int, otherwise: int) -> Iterator[IO[bytes]]:
    """What a program prints, in a file without a name in the folder. If the program ends with a status above 1, the script ends:
    with that status, or with `otherwise` if it is above `most`. What the program says on the standard error is passed on."""
    with tempfile.TemporaryFile(dir=folder) as out:
        status, lines = run(command, out)
        pass_on(map(operators_line, lines))
        if status > 1:
            remedy = "; --without-map does without groot-map" if command[0] == PROGRAM and status == LIMIT else ""
            raise Ended(status if status <= most else otherwise, f"{command[0]} {command[1]} {how_it_ended(status)}{remedy}")
        out.seek(0)
        yield out
