#!/usr/bin/env python3
"""Holds what pages claim to the table of docs/CLAIMS.md.

A sentence of README.md, docs/BELIEVE.md or CHANGELOG.md that has one of the words "proved", "exactly", "every", "all" and "no" is a
row of the table, which says what it rests on: a clause, or why it promises nothing. A clause stands as `call`: `clause`, and the call has a
clause of this name. A line names each sentence without a row, each row without a sentence, and each clause that isn't there; the
status is 1 if there is one.
"""
import pathlib
import re
import sys
from typing import Dict, Iterator, Optional, Set, Tuple

TOP = pathlib.Path(__file__).resolve().parent.parent
PAGES = ["README.md", "docs/BELIEVE.md", "CHANGELOG.md"]
STRONG = re.compile(r"(?<![-\w])(?:proved|exactly|every|all|no)(?![-\w])", re.I)
CLAUSE = re.compile(r"`(\w+(?:::\w+)?)`: ((?:`\w+`(?:, )?)+)")


def main() -> int:
    rows = dict(table((TOP / "docs/CLAIMS.md").read_text()))
    claimed = {it: page for page in PAGES for it in sentences((TOP / page).read_text()) if is_strong(it)}
    faults = [f"{page}: not in docs/CLAIMS.md: {it}" for it, page in claimed.items() if it not in rows]
    faults += [f"docs/CLAIMS.md: no page says: {it}" for it in rows if it not in claimed]
    clauses = clauses_of_calls()
    for reason in rows.values():
        for call, names in CLAUSE.findall(reason):
            faults += [f"docs/CLAIMS.md: no clause {name} of {call}" for name in re.findall(r"\w+", names)
                       if name not in clauses.get(call.rpartition("::")[2], ())]
    print("\n".join(faults) or f"claims: {len(claimed)} sentences, each with what it rests on")
    return int(bool(faults))


def table(text: str) -> Iterator[Tuple[str, str]]:
    """The rows of the table: a sentence and what it rests on."""
    for line in text.splitlines():
        cells = [it.strip() for it in line.strip().strip("|").split(" | ")]
        if line.startswith("| ") and len(cells) == 2 and cells[0] != "Sentence":
            yield cells[0], cells[1]


def sentences(text: str) -> Iterator[str]:
    """The sentences of a page's paragraphs, points, headings and cells, without the targets of links. Blocks of code are left out."""
    text = re.sub(r"^```.*?^```$", "", text, flags=re.S | re.M)
    text = re.sub(r"!?\[([^\]]*)\]\([^)]*\)", r"\1", text)
    for line in text.splitlines():
        for cell in re.sub(r"^(?:[-#>]+|\d+\.) ", "", line.strip()).strip("|").split("|"):
            for it in re.split(r"(?<=[.?!;])\s+", cell.strip()):
                yield it


def is_strong(sentence: str) -> bool:
    """Whether a word of the sentence outside backquotes is one of the strong ones."""
    return bool(STRONG.search(re.sub(r"`[^`]*`", "", sentence)))


def clauses_of_calls() -> Dict[str, Set[str]]:
    """The names of the clauses of each function, by its name."""
    found: Dict[str, Set[str]] = {}
    for path in TOP.glob("crates/*/src/**/*.rt"):
        call: Optional[str] = None
        for line in path.read_text().splitlines():
            if begun := re.match(r"\s*(?:pub(?:\(crate\))? )?fn (\w+)", line):
                call = begun[1]
            elif call and (clause := re.match(r"\s*ensures (\w+) \{", line)):
                found.setdefault(call, set()).add(clause[1])
    return found


if __name__ == "__main__":
    sys.exit(main())
