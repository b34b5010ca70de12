#!/usr/bin/env python3
"""Measures commands beside `check` of the same files: commands.py [GROOT] [--runs N] [--tenth] [--only WORD]

GROOT is the built program, crates/groot/out/groot if none is given. It makes
- a registry of 30,000 delegations, and one of 99,990 to name servers elsewhere, whose classes `site` shows to the checks that
  the program brings,
- a zone of 10,000 aliases that lead to no name, and a registry of 10,000 delegations without the addresses of their name
  servers, whose reports `recheck` checks.

For each it prints the processor seconds and the peak memory of the command and of `check`, each with the workers that it has
if none are given, and the ratio. The best of N runs counts, 5 if none are given. With --tenth all inputs are a tenth as
large; with --only those commands alone whose word has it. What is wanted of the whole inputs stands behind the ratio.
"""
import argparse
import os
import subprocess
import tempfile
from typing import Callable, NamedTuple

import make_zone
from measure import GROOT, RUNS, measured, metadata, program, ratio


class Command(NamedTuple):
    """A command that is measured: its word, the lines of the zone that it is given, and at most how many times the processor
    time of `check` is wanted."""

    word: str
    lines: Callable
    most: float


def blackholes(count):
    """The lines of so many aliases, each of which leads to no name."""
    for number in range(count):
        yield f"alias{number} CNAME none{number}\n"


def without_addresses(count):
    """The lines of so many delegations, each to a name server below it that has no address."""
    for number in range(count):
        yield f"d{number:06} NS ns1.d{number:06}\n"


def commands(part):
    """Each command, with an input as large as this part of the whole."""
    return [
        Command("site", lambda: make_zone.registry(30_000 // part), 10),
        Command("site", lambda: make_zone.elsewhere(99_990 // part), 10),
        Command("recheck", lambda: blackholes(10_000 // part), 2),
        Command("recheck", lambda: without_addresses(10_000 // part), 2),
    ]


def with_report(groot, meta, folder):
    """The name of a file with the report of the configuration."""
    path = os.path.join(folder, "report.json")
    with open(path, "wb") as into:
        subprocess.run([groot, "check", meta], stdout=into, stdin=subprocess.DEVNULL)
    return path


def measure_one(groot, given, runs):
    """Measures a command and `check`, and prints what they take."""
    with tempfile.TemporaryDirectory() as folder:
        rows = make_zone.write_example(given.lines(), folder)
        meta = metadata(folder, rows, rows[0]["NameServer"])
        operands = [with_report(groot, meta, folder)] if given.word == "recheck" else []
        check = measured([groot, "check", meta], (0, 1), runs)
        own = measured([groot, given.word, meta, *operands], (0,), runs)
        if check is None or own is None:
            print(f"{given.word:>8} the program ended in another way")
            return
        print(
            f"{given.word:>8} {own.processor:.3f} s, {own.memory:.0f} MiB; check {check.processor:.3f} s, {check.memory:.0f} MiB;"
            f" ratio {ratio(own.processor, check.processor):.2f} (at most {given.most:g})",
            flush=True,
        )


def main():
    words = argparse.ArgumentParser()
    words.add_argument("groot", nargs="?", default=GROOT)
    words.add_argument("--runs", type=int, default=RUNS)
    words.add_argument("--tenth", action="store_true")
    words.add_argument("--only", default="")
    said = words.parse_args()
    groot = program(said.groot)
    for given in commands(10 if said.tenth else 1):
        if said.only in given.word:
            measure_one(groot, given, said.runs)


if __name__ == "__main__":
    main()
