#!/usr/bin/env python3
"""Lists names that aren't made of known words: words.py [--where WORD ..] [--drop]

A name is any of the code of `src` or of the definitions in `specs`, call_tests aside; its words stand between its underscores and
capitals. They are known if they stand in the first column of docs/WORDS.md or in .ci/words.txt, which has the field's words,
those of Rust and the kit, and plain English. A word that nothing uses any more is listed too; --drop takes it out of .ci/words.txt.

A row of docs/WORDS.md whose last column ends with "alone" has all crates in which a function, a type, a constant, a module or a
definition may have that word; others are listed. With --where, only the names with these words are listed, by crate.
The status is 1 if something is listed.
"""
import argparse
import collections
import pathlib
import re
import sys
import textwrap
from typing import Dict, Iterator, List, NamedTuple, Set

TOP = pathlib.Path(__file__).resolve().parent.parent
KNOWN = TOP / ".ci" / "words.txt"
PAGE = TOP / "docs" / "WORDS.md"
NOT_LOOKED_AT = "call_tests"
WIDTH = 124
NO_NAME = {
    ".rt": re.compile(r"//[^\n]*|\"(?:\\.|[^\"\\])*\"|b?'(?:\\[^\n]{1,3}|[^\\\n])'|\bghost use [^;]*;|^ *(?:pub(?:\(\w+\))? )?use [^;]*;|#!?\[[^\]\n]*\]", re.M),
    ".antt": re.compile(r"--[^\n]*|\"(?:\\.|[^\"\\])*\"|^ *(?:pub )?use [^\n]*(?:\n +[^\n]*)*", re.M),
}
DECLARED = {
    ".rt": re.compile(r"\b(?:fn|struct|enum|trait|const|type|mod) (\w+)"),
    ".antt": re.compile(r"^(?:pub )?(?:abbrev|record|data) (?:pub )?(\w+)", re.M),
}
NAME = re.compile(r"\b[A-Za-z_]\w*")
WORD = re.compile(r"[A-Z]+(?![a-z])|[A-Z]?[a-z]+")
ROW = re.compile(r"^\| ([^|]*) \| [^|]* \| ([^|]*) \|$", re.M)


class Use(NamedTuple):
    """A name in a crate, and whether it is declared there as a function, a type, a constant, a module or a definition."""

    crate: str
    name: str
    is_declared: bool


def words_of(name: str) -> List[str]:
    """The words of a name. Single letters are none."""
    return [word.lower() for word in WORD.findall(name) if len(word) > 1]


def uses() -> Dict[str, Set[Use]]:
    """Of each word the names that have it."""
    found: Dict[str, Set[Use]] = collections.defaultdict(set)
    for path in sorted((TOP / "crates").rglob("*.*t")):
        crate, part = path.relative_to(TOP / "crates").parts[:2]
        if crate != NOT_LOOKED_AT and (part, path.suffix) in (("src", ".rt"), ("specs", ".antt")):
            text = NO_NAME[path.suffix].sub(" ", path.read_text(encoding="utf-8"))
            declared = set(DECLARED[path.suffix].findall(text))
            for name in set(NAME.findall(text)):
                for word in words_of(name):
                    found[word].add(Use(crate, name, name in declared))
    return found


def groups() -> Dict[str, List[str]]:
    """The words of .ci/words.txt below their headings."""
    found: Dict[str, List[str]] = {}
    for line in KNOWN.read_text(encoding="utf-8").splitlines():
        if line.startswith("# "):
            found[line] = []
        elif line:
            found[list(found)[-1]] += line.split()
    return found


def write(kept: Dict[str, List[str]]) -> None:
    """Writes .ci/words.txt, the words of each heading in order."""
    KNOWN.write_text("\n".join(f"{head}\n{textwrap.fill(' '.join(sorted(set(words))), WIDTH)}\n" for head, words in kept.items()), encoding="utf-8")


def strangers(found: Dict[str, Set[Use]]) -> Iterator[str]:
    """Lines on declared names with a word that other crates alone may have."""
    for words, where in ROW.findall(PAGE.read_text(encoding="utf-8")):
        if where.endswith(" alone"):
            crates = re.findall(r"\w+", where)[:-1]
            for word in (words, words + "s"):
                for use in sorted(found.get(word, ())):
                    if use.is_declared and use.crate not in crates:
                        yield f"{use.crate}: {use.name}: docs/WORDS.md keeps `{words}` for {', '.join(crates)}"


def main() -> int:
    """The status."""
    line = argparse.ArgumentParser(description=(__doc__ or "").split("\n", maxsplit=1)[0])
    line.add_argument("--where", nargs="+", metavar="WORD", default=[])
    line.add_argument("--drop", action="store_true")
    asked = line.parse_args()
    found = uses()
    if asked.where:
        for word in asked.where:
            for crate in sorted({use.crate for use in found[word]}):
                print(f"{word}: {crate}: {', '.join(sorted({use.name for use in found[word] if use.crate == crate}))}")
        return 0
    listed, page = groups(), {word for words, _ in ROW.findall(PAGE.read_text(encoding="utf-8")) for word in re.findall(r"[a-z]+", words)}
    if asked.drop:
        listed = {head: [word for word in words if word in found] for head, words in listed.items()}
        write(listed)
    known = {word for words in listed.values() for word in words}
    faults = [f"{use.crate}: {use.name}: no known word: {word}" for word in sorted(found.keys() - known - page) for use in sorted(found[word])]
    faults += [f".ci/words.txt: no name has this word any more: {word}" for word in sorted(known - found.keys())]
    faults += strangers(found)
    print("\n".join([*faults, f"words: {len(found)} in names, {len(page)} of them with a meaning of their own, {len(faults)} faults"]))
    return int(bool(faults))


if __name__ == "__main__":
    sys.exit(main())
