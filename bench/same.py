#!/usr/bin/env python3
"""Measures comparisons: same.py [GROOT] [--runs N] [--tenth]

GROOT is the built program, crates/groot/out/groot if none is given. It makes
- a registry of 33,000 delegations to name servers below them (99,004 names, nearly as many as a comparison may have),
- a registry of 99,990 delegations to a name server elsewhere,
- 400 hosted zones of 100 records on three servers and the zone above them,
- 1,000 DNAME records onto a tree of 40 names,
and of each a second configuration: a copy, and a copy in which the data of one record are others. Its owner is the last name.

For each it prints the processor seconds and the peak memory of `check` of the first one with one worker, and of `same` of it
with each of the two, in seconds and MiB, and the ratios to `check`; by the clock, `same` of the copy. Each is the best of
--runs runs, 5 if none are given. With --tenth all inputs are a tenth as large. At most 3 times the processor time and twice
the memory of `check` are wanted of the registry.
"""
import argparse
import os
import tempfile

import make_zone
from measure import GROOT, RUNS, measured, metadata, program, ratio


def example(lines):
    """What writes the zone of so many of these lines, with a record of these data besides."""
    return lambda count, data, folder: make_zone.write_example([*lines(count), f"zz A {data}\n"], folder)


def hosted(count, data, folder):
    """Writes hosted zones, and a record of these data besides in the zone above them."""
    rows = make_zone.write_hosted(count, 0, 100, folder)
    with open(os.path.join(folder, "above.zone"), "a") as above:
        above.write(f"zz A {data}\n")
    return rows


INPUTS = [
    ("registry of 33,000 delegations", example(make_zone.registry), 33_000),
    ("registry of 99,990 delegations to a name server elsewhere", example(make_zone.elsewhere), 99_990),
    ("400 hosted zones of 100 records", hosted, 400),
    ("1,000 DNAME records onto a tree of 40 names", example(make_zone.redirected), 1_000),
]


def configuration(write, count, data, folder):
    """The metadata file of an input, in a folder of its own, with these data of the one record."""
    os.makedirs(folder)
    return metadata(folder, write(count, data, folder), "ns1.example.")


def main():
    words = argparse.ArgumentParser()
    words.add_argument("groot", nargs="?", default=GROOT)
    words.add_argument("--runs", type=int, default=RUNS)
    words.add_argument("--tenth", action="store_true")
    said = words.parse_args()
    groot = program(os.path.abspath(said.groot))
    print("| Input | check | MiB | same of a copy | ratio | MiB | ratio | by the clock | same with one other record | ratio |")
    print("|---|---|---|---|---|---|---|---|---|---|")
    for title, write, size in INPUTS:
        with tempfile.TemporaryDirectory() as folder:
            count = size // 10 if said.tenth else size
            one, copy, other = (configuration(write, count, data, os.path.join(folder, name))
                                for name, data in (("one", "192.0.2.7"), ("copy", "192.0.2.7"), ("other", "192.0.2.8")))
            check = measured([groot, "check", one, "--workers", "1"], (0, 1), said.runs)
            same = measured([groot, "same", one, copy], (0,), said.runs)
            differ = measured([groot, "same", one, other], (1,), said.runs)
            if None in (check, same, differ):
                raise SystemExit(f"{title}: a run ended with another status than it should")
            print(f"| {title} | {check.processor:.2f} | {check.memory:.0f} | {same.processor:.2f} | {ratio(same.processor, check.processor):.1f}"
                  f" | {same.memory:.0f} | {ratio(same.memory, check.memory):.1f} | {same.clock:.2f}"
                  f" | {differ.processor:.2f} | {ratio(differ.processor, check.processor):.1f} |", flush=True)


if __name__ == "__main__":
    main()
