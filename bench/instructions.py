#!/usr/bin/env python3
"""Counts the instructions of a check: instructions.py [--program GROOT] [--tenth] [--keep]

Unlike times, these are the same on every machine and under every load. Each input is made by make_zone.py and checked with
one worker under valgrind's callgrind, and a table is printed: of the whole check, and of reading alone, with what is wanted
of the whole inputs beside. --tenth takes inputs of a tenth of the size. Of a whole input it prints also how many times the
instructions are that are kept of the tenth.

Beside each number stands how many times the one it is that instructions.json keeps for this input and size. The script ends
with status 1 if a number is more than 1.1 times the kept one, or if none is kept. With --keep it writes the numbers into
instructions.json instead, and leaves those of the other size there; keep those of a program that is proved and built.
It needs valgrind.
"""
import argparse
import json
import os
import re
import shutil
import subprocess
import tempfile
from typing import Callable, NamedTuple, Optional

from make_zone import aliases, redirected, registry, write_example, write_hosted, write_on_all, write_without_above, write_zone
from measure import GROOT, HERE, metadata, program

SECONDS = 1800
KEPT = os.path.join(HERE, "instructions.json")
MOST_TIMES = 1.1
MOST_GROWTH = 10.5
READING = re.compile(r"ZoneReader.*feed")


def mixed(octets, folder):
    with open(os.path.join(folder, "mixed.zone"), "w") as into:
        write_zone(octets, into)
    return [{"FileName": "mixed.zone", "NameServer": "ns1.hosting.example."}]


class Input(NamedTuple):
    """What is made, and of which size; a function of the size and the folder that returns the rows of the metadata; and how
    many millions of instructions are wanted of the whole check and of reading, and how many times those of a tenth, at most; and
    whether all servers are top servers, or the first alone."""

    title: str
    size: int
    make: Callable
    check: int
    reading: Optional[int] = None
    growth: Optional[float] = None
    all_top: bool = False


INPUTS = [
    Input("registry, delegations", 10_000, lambda size, folder: write_example(registry(size), folder), 400, 110, MOST_GROWTH),
    Input("hosted zones of 100 records", 100, lambda size, folder: write_hosted(size, size // 10, 100, folder), 115, 32, MOST_GROWTH),
    Input("mixed zone, octets", 1_677_721, mixed, 500, 140, MOST_GROWTH),
    Input("DNAME records onto 40 names", 2_000, lambda size, folder: write_example(redirected(size), folder), 2_200),
    Input("chain of aliases", 5_000, lambda size, folder: write_example(aliases(size), folder), 1_000),
    Input("zones on two of eight top servers", 200, lambda size, folder: write_without_above(8, size, 100, folder), 200, all_top=True),
    Input("zones on 13 servers each", 100, lambda size, folder: write_on_all(13, size, 100, folder), 300),
]


class Counted(NamedTuple):
    """How many instructions a check takes, how many of them to read zone files, and the classes that its report counts."""

    check: int
    reading: int
    classes: int


def of_reading(profile):
    """The instructions that a profile tells of the reading of zone files, with all that it calls."""
    told = subprocess.run(["callgrind_annotate", "--inclusive=yes", "--threshold=100", "--show-percs=no", profile], capture_output=True, text=True)
    costs = [line.split()[0] for line in told.stdout.splitlines() if READING.search(line)]
    return max((int(cost.replace(",", "")) for cost in costs), default=0)


def counted(groot, meta, folder):
    """What is counted of a check of this metadata file. A profile is written to the folder."""
    profile = os.path.join(folder, "profile")
    words = ["valgrind", "--tool=callgrind", f"--callgrind-out-file={profile}", groot, "check", meta, "--classes", "1000000", "--workers", "1"]
    ran = subprocess.run(words, stdin=subprocess.DEVNULL, capture_output=True, text=True, timeout=SECONDS)
    told = re.search(r"Collected : (\d+)", ran.stderr)
    if ran.returncode not in (0, 1) or not told:
        raise SystemExit(f"{' '.join(words)}: it ended with {ran.returncode}\n{ran.stderr[-400:]}")
    return Counted(int(told[1]), of_reading(profile), json.loads(ran.stdout)["classes"])


def counted_of(groot, given, size):
    """What is counted of a check of an input of this size."""
    with tempfile.TemporaryDirectory() as folder:
        rows = given.make(size, folder)
        tops = dict.fromkeys(row["NameServer"] for row in (rows if given.all_top else rows[:1]))
        return counted(groot, metadata(folder, rows, *tops), folder)


def millions(number):
    return f"{number / 1e6:,.1f}" if number else ""


def row(given, size, got, wanted, tenth, times):
    """A row of the table: an input of this size, what is counted of it, whether what is wanted stands beside, the number that is
    kept of a tenth of it, or None, and how many times its own kept number it is."""
    most = (f"{given.check:,}", given.reading or "", given.growth or "") if wanted else ("", "", "")
    return (
        f"| {given.title} | {size:,} | {got.classes:,} | {millions(got.check)} | {most[0]} | {got.check // got.classes:,}"
        f" | {millions(got.reading)} | {most[1]} | {f'{got.check / tenth:.1f}' if tenth else ''} | {most[2]}"
        f" | {f'{times:.3f}' if times else 'none is kept'} |"
    )


def kept_numbers():
    """The numbers that are kept: of each title those of its sizes."""
    if not os.path.exists(KEPT):
        return {}
    with open(KEPT) as file:
        return json.load(file)


def keep(numbers):
    with open(KEPT, "w") as into:
        json.dump(numbers, into, indent=4)
        into.write("\n")


def main():
    words = argparse.ArgumentParser(description=__doc__, formatter_class=argparse.RawDescriptionHelpFormatter)
    words.add_argument("--program", default=GROOT)
    words.add_argument("--tenth", action="store_true")
    words.add_argument("--keep", action="store_true")
    given = words.parse_args()
    groot = program(os.path.abspath(given.program))
    if not shutil.which("valgrind"):
        raise SystemExit("bench/instructions.py: needs valgrind")
    numbers, slipped = kept_numbers(), []
    print("| Input | Size | Classes | Check, millions | Wanted | For each class | Reading, millions | Wanted | Times a tenth | Wanted | Times the kept number |")
    print("|---|---|---|---|---|---|---|---|---|---|---|")
    for one in INPUTS:
        size = one.size // 10 if given.tenth else one.size
        got = counted_of(groot, one, size)
        kept = numbers.get(one.title, {}).get(str(size))
        tenth = None if given.tenth else numbers.get(one.title, {}).get(str(size // 10))
        times = got.check / kept if kept else None
        print(row(one, size, got, not given.tenth, tenth, times), flush=True)
        if times is None or times > MOST_TIMES:
            slipped.append(one.title)
        numbers.setdefault(one.title, {})[str(size)] = got.check
    if given.keep:
        keep(numbers)
    elif slipped:
        raise SystemExit(f"bench/instructions.py: more than {MOST_TIMES} times the number in bench/instructions.json, or none is kept: {'; '.join(slipped)}")


if __name__ == "__main__":
    main()
