"""Where each line of a zone file that was written plain stands in the files of the operator.

The map of FILE is FILE.lines beside it. Its first line is HEAD; each other line is about some lines of FILE that follow one
another, in five columns with a tab between: the first and the last of them, the operator's line of the first, how many of the
operator's lines lie between one of them and the next (1 for lines that were copied, 0 for those that one line wrote out), and
the operator's file, in which control characters and a backslash are written as `groot-map records` writes them. Lines that no
entry is about come from no line of the operator.
"""
import bisect
import functools
import os
import re
from typing import List, NamedTuple, Optional, Tuple

END = ".lines"
HEAD = b"groot-metadata lines 1\n"
LETTERS = {b"\t": b"\\t", b"\n": b"\\n", b"\\": b"\\\\"}  # any other control character stands as a number of three digits
OCTETS = {letter[1:]: octet for octet, letter in LETTERS.items()}


class Run(NamedTuple):
    """Lines of a written file that follow one another, and where they come from."""

    first: int
    last: int
    line: int
    step: int
    file: str


def lines_of(runs: List[Run]) -> bytes:
    """The text of a map."""
    rows = [b"%d\t%d\t%d\t%d\t%s\n" % (*run[:4], escaped(run.file)) for run in runs]
    return HEAD + b"".join(rows)


def place_of(file: str, line: int) -> Tuple[str, int]:
    """The operator's file and line from which a line of a file comes; the file and the line themselves where no map says more."""
    runs, firsts = runs_of(file)
    at = bisect.bisect_right(firsts, line) - 1
    if at < 0 or line > runs[at].last:
        return file, line
    run = runs[at]
    return run.file, run.line + (line - run.first) * run.step


@functools.lru_cache(maxsize=None)
def runs_of(file: str) -> Tuple[List[Run], List[int]]:
    """The runs of a file's map, and the first line of each; none where it has no map."""
    text = text_of(file + END)
    if text is None or not text.startswith(HEAD):
        return [], []
    rows = [line.split(b"\t") for line in text[len(HEAD):].split(b"\n")[:-1]]
    runs = [Run(int(row[0]), int(row[1]), int(row[2]), int(row[3]), unescaped(row[4])) for row in rows]
    return runs, [run.first for run in runs]


def text_of(path: str) -> Optional[bytes]:
    """What a file holds, or None where it can't be read."""
    try:
        with open(path, "rb") as file:
            return file.read()
    except OSError:
        return None


def escaped(name: str) -> bytes:
    """The name of a file as a list of records has it."""
    return re.sub(rb"[\x00-\x1f\x7f\\]", lambda found: LETTERS.get(found[0]) or b"\\%03d" % found[0][0], os.fsencode(name))


def unescaped(name: bytes) -> str:
    """The name of a file, from how a list of records has it."""
    return os.fsdecode(re.sub(rb"\\([0-9]{3}|.)", lambda found: OCTETS.get(found[1]) or bytes([int(found[1])]), name))
