#!/usr/bin/env python3
"""Measures groot-map beside `check` of the same files: map.py [GROOT] [GROOT-MAP] [--runs N] [--tenth] [--only WORD] [--instructions]

GROOT and GROOT-MAP are the built programs, crates/groot/out/groot and crates/groot_map/out/groot_map if none are given. It
makes
- a registry of 30,000 delegations to name servers below them, each with a mail exchange that is one of them,
- 5,000 hosted zones of 10 records on three servers, a tenth of them on a second one too, and the zone above them,
- 5,000 zones of 10 records, each on both of two servers that are asked first,
- one small zone on 4,000 top servers.

For each it prints the lines of a table: the processor seconds and the peak memory in MiB of `check` with one worker, and
those of each word of groot-map with their ratios to those of `check`. Each is the best of --runs runs, 5 if none are given.
With --instructions it prints a row for each input instead: the millions of instructions of `check`, and of each word the ratio
of its instructions to those, of one run each, which are the same under every load; that needs valgrind. With --tenth all inputs
are a tenth as large; with --only those alone whose title has the word. At most the time and the memory of `check` are wanted of
each word; RESULTS.md says which take more.
"""
import argparse
import os
import re
import subprocess
import tempfile

import make_zone
from measure import GROOT, RUNS, TOP, measured, metadata, program, ratio

GROOT_MAP = os.path.join(TOP, "crates", "groot_map", "out", "groot_map")
ASKED = ["records", "reached", "targets", "delegations", "copies", "servers", "aliases", "chain"]


def registry(count, folder):
    """Writes a registry of so many delegations, with as many mail exchanges. One server is asked first."""
    mail = (f"m{number:06} MX 10 ns1.d{number:06}\n" for number in range(count))
    return make_zone.write_example([*make_zone.registry(count), *mail], folder), ["ns1.example."]


def hosted(count, folder):
    """Writes so many hosted zones. One server is asked first."""
    return make_zone.write_hosted(count, count // 10, 10, folder), ["ns1.example."]


def on_two(count, folder):
    """Writes so many zones on two servers each, with no zone above them. Both servers are asked first."""
    return make_zone.write_without_above(2, count, 10, folder), ["ns0.host.", "ns1.host."]


def on_many(count, folder):
    """Writes a zone on so many servers, each of which is asked first."""
    rows = make_zone.write_on_many(count, folder)
    return rows, [row["NameServer"] for row in rows]


INPUTS = [
    ("registry of {:,} delegations", registry, 30_000),
    ("{:,} hosted zones of 10 records", hosted, 5_000),
    ("{:,} zones on two servers", on_two, 5_000),
    ("a zone on {:,} top servers", on_many, 4_000),
]


def known(title, taken):
    """What was taken; it ends where a run ended in another way than it should."""
    if taken is None:
        raise SystemExit(f"{title}: a run ended with another status than it should")
    return taken


def check_words(groot, meta):
    """The words of a check of this metadata file, with one worker."""
    return [groot, "check", meta, "--workers", "1", "--classes", "1000000"]


def counted(words, folder):
    """The instructions of one run."""
    profile = os.path.join(folder, "profile")
    ran = subprocess.run(["valgrind", "--tool=callgrind", f"--callgrind-out-file={profile}", *words], stdin=subprocess.DEVNULL, capture_output=True, text=True)
    told = re.search(r"Collected : (\d+)", ran.stderr)
    if ran.returncode not in (0, 1) or not told:
        raise SystemExit(f"{' '.join(words)}: it ended with {ran.returncode}\n{ran.stderr[-400:]}")
    return int(told[1])


def count_one(groot, groot_map, title, meta, folder):
    """Counts the instructions of `check` and of each word, and prints a row."""
    check = counted(check_words(groot, meta), folder)
    ratios = [f"{counted([groot_map, asked, meta], folder) / check:.2f}" for asked in ASKED]
    print(f"| {title} | {check / 1e6:.1f} | {' | '.join(ratios)} |", flush=True)


def measure_one(groot, groot_map, title, meta, runs):
    """Measures `check` and each word, and prints what they take."""
    check = known(title, measured(check_words(groot, meta), (0, 1), runs))
    print(f"| {title} | `check` | {check.processor:.3f} | | {check.memory:.0f} | |", flush=True)
    for asked in ASKED:
        own = known(title, measured([groot_map, asked, meta], (0, 1), runs))
        cells = [f"{own.processor:.3f}", f"{ratio(own.processor, check.processor):.2f}", f"{own.memory:.0f}", f"{ratio(own.memory, check.memory):.2f}"]
        print(f"| {title} | `{asked}` | {' | '.join(cells)} |", flush=True)


def main():
    words = argparse.ArgumentParser()
    words.add_argument("groot", nargs="?", default=GROOT)
    words.add_argument("groot_map", nargs="?", default=GROOT_MAP)
    words.add_argument("--runs", type=int, default=RUNS)
    words.add_argument("--tenth", action="store_true")
    words.add_argument("--only", default="")
    words.add_argument("--instructions", action="store_true")
    said = words.parse_args()
    groot, groot_map = program(said.groot), program(said.groot_map)
    if said.instructions:
        print(f"| Input | `check`, millions | {' | '.join(f'`{asked}`' for asked in ASKED)} |\n|{'---|' * (len(ASKED) + 2)}")
    else:
        print("| Input | Word | Seconds | ratio | MiB | ratio |\n|---|---|---|---|---|---|")
    for title, make, size in INPUTS:
        count = size // 10 if said.tenth else size
        if said.only in title:
            with tempfile.TemporaryDirectory() as folder:
                rows, tops = make(count, folder)
                meta = metadata(folder, rows, *tops)
                if said.instructions:
                    count_one(groot, groot_map, title.format(count), meta, folder)
                else:
                    measure_one(groot, groot_map, title.format(count), meta, said.runs)


if __name__ == "__main__":
    main()
