#!/usr/bin/env python3
"""Prints the table of bench/RESULTS.md by crate: proofs.py FOLDER

FOLDER has a file for each crate that was proved by itself, made by

    /usr/bin/time -f 'cpu %U %S wall %e' -o FOLDER/CRATE.time rt ci CRATE

and, if a crate's must-fail edits were tried in a run of their own, edits-CRATE.time in the same form. The last line of a file
counts, and one without seconds, of a run that isn't over, is none. The table has the crates of crates.txt in their order, each
with its lines of src, specs and proofs, the processor seconds of its proof and of its edits, the seconds by the clock, and the
processor seconds for a thousand lines, but of a program. The last row has the sums. A crate without a file has empty cells, and the status is
then 1.
"""
import argparse
import pathlib
import re
import sys

TOP = pathlib.Path(__file__).resolve().parent.parent
# of a crate with fewer, as a program's, the seconds are those of what it links
FEW_LINES = 150
TOOK = re.compile(r"^cpu ([\d.]+) ([\d.]+) wall ([\d.]+)$", re.M)


def crates():
    """The crates, in the order of crates.txt."""
    lines = (TOP / "crates.txt").read_text(encoding="utf-8").splitlines()
    return [line.partition(":")[0].split()[0] for line in lines if ":" in line and not line.startswith("#")]


def lines_of(crate):
    """How many lines of src, specs and proofs a crate has."""
    files = [path for part in ("src", "specs", "proofs") for path in (TOP / "crates" / crate / part).rglob("*.*t")]
    return sum(path.read_bytes().count(b"\n") for path in files)


def took(path):
    """The processor seconds and the seconds by the clock that a file tells, or None."""
    told = TOOK.findall(path.read_text(encoding="utf-8")) if path.exists() else []
    if not told or not float(told[-1][2]):
        return None
    user, system, clock = map(float, told[-1])
    return user + system, clock


def row(*cells):
    """A row of the table. Numbers without fractions, thousands with a comma; an empty cell for what isn't known."""
    print("| " + " | ".join("" if cell is None else cell if isinstance(cell, str) else f"{cell:,.0f}" for cell in cells) + " |")


def main():
    """Prints the table, and returns the status."""
    parser = argparse.ArgumentParser(description=__doc__.split("\n", maxsplit=1)[0])
    parser.add_argument("folder", type=pathlib.Path, metavar="FOLDER")
    folder = parser.parse_args().folder
    row("Crate", "Lines", "Proof", "Edits", "By the clock", "Proof for 1,000 lines")
    print("|---|---|---|---|---|---|")
    sums, missing = [0, 0.0, 0.0], 0
    for crate in crates():
        lines, proof, edits = lines_of(crate), took(folder / f"{crate}.time"), took(folder / f"edits-{crate}.time")
        missing += proof is None
        cpu, clock = proof or (None, None)
        row(crate, lines, cpu, edits and edits[0], clock, 1000 * cpu / lines if cpu and lines >= FEW_LINES else None)
        sums = [sums[0] + lines, sums[1] + (cpu or 0), sums[2] + (edits[0] if edits else 0)]
    row("all", *sums, None, 1000 * sums[1] / sums[0])
    if missing:
        print(f"proofs: {missing} crates have no file in {folder}", file=sys.stderr)
    return int(missing > 0)


if __name__ == "__main__":
    sys.exit(main())
