#!/usr/bin/env python3
"""Measures the reading of zone files: reading.py [GROOT]

GROOT is the built program, crates/groot/out/groot if none is given. For files of a hosting zone of 1 and 16 MiB, a million
short records (of a million owners, of one owner, and all identical) and 1,000 files of 100 records it prints the processor
seconds and the peak memory of groot, and for a single file those of the stock checkers of master files that are installed
(Knot's kzonecheck, NSD's nsd-checkzone, BIND's named-checkzone), each the best of five runs, and groot's ratios to them; at
most half of kzonecheck's time is wanted. A last row of the metadata names an empty file, for which groot refuses the whole once
it has read the rest, so that nothing is judged.
"""
import os
import sys
import tempfile

import make_zone
from measure import GROOT, MEBIBYTE, measured, metadata, program, ratio, stock_checkers

ROW = {"FileName": "hosting.zone", "NameServer": "ns1.hosting.example."}


def programs(groot, folder, meta):
    """Each program with its words and the status that it must end with."""
    yield "groot", [groot, "check", meta], 3
    zone = os.path.join(folder, "hosting.zone")
    if os.path.exists(zone):
        for name, words in stock_checkers("hosting.example.", zone):
            yield name, words, 0


def records_in(path):
    """How many records the file has, by what make_zone writes."""
    with open(path) as lines:
        return sum(1 for line in lines if line.strip() and line[0] not in ";$" and not line.lstrip().startswith(("\"", "20", "3h")))


def one_file(write):
    """The rows of metadata for one file, which is written by this."""

    def rows(folder):
        with open(os.path.join(folder, "hosting.zone"), "w") as into:
            write(into)
        return [ROW]

    return rows


INPUTS = [
    ("1 MiB", one_file(lambda into: make_zone.write_zone(MEBIBYTE - 4096, into))),
    ("16 MiB", one_file(lambda into: make_zone.write_zone(16 * MEBIBYTE - 4096, into))),
    ("10^6 owners", one_file(lambda into: make_zone.write_short(10**6, "owners", into))),
    ("one owner", one_file(lambda into: make_zone.write_short(10**6, "data", into))),
    ("identical", one_file(lambda into: make_zone.write_short(10**6, "identical", into))),
    ("1,000 files", lambda folder: make_zone.write_many(1000, 100, folder)),
]


def main():
    groot = program(sys.argv[1] if len(sys.argv) > 1 else GROOT)
    print(f"{'input':>12} {'program':<16} {'cpu s':>7} {'MiB/s':>7} {'records/s':>10} {'peak MiB':>9} {'cpu ratio':>10} {'memory ratio':>13}")
    for title, write in INPUTS:
        with tempfile.TemporaryDirectory() as folder:
            rows = write(folder)
            paths = [os.path.join(folder, row["FileName"]) for row in rows]
            records, octets = sum(map(records_in, paths)), sum(map(os.path.getsize, paths))
            meta = metadata(folder, [*rows, make_zone.write_empty(folder, ROW["NameServer"])], ROW["NameServer"])
            own = None
            for name, words, status in programs(groot, folder, meta):
                got = measured(words, (status,))
                if got is None and name == "groot":
                    raise SystemExit(f"reading.py: groot doesn't read {title}")
                if got is None:
                    print(f"{title:>12} {name:<16} refuses it")
                    continue
                own = own or got
                print(
                    f"{title:>12} {name:<16} {got.processor:>7.3f} {ratio(octets / MEBIBYTE, got.processor):>7.1f}"
                    f" {ratio(records, got.processor):>10.0f} {got.memory:>9.1f} {ratio(own.processor, got.processor):>10.2f} {own.memory / got.memory:>13.2f}"
                )


if __name__ == "__main__":
    main()
