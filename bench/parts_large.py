#!/usr/bin/env python3
"""Measures jobs for parts of large networks: parts_large.py [--parts N] [--only WORD] [--tenth]
[--groot-large GROOT] [--groot-parts PARTS] [--groot-map MAP]

It makes the hosting firm and the registry of large.py, first at a tenth of their sizes, and then at these; with --tenth the tenth
alone, with --only those alone that have the word in what is printed of them. tools/split splits each into N parts (4). The whole is
checked once, and then each part by itself, one after another, with one worker. Printed is a line of a table: the input and its
records, the processor seconds and MiB of the check, the processor seconds of all parts, how many times those of the check they are,
the MiB of the largest part, the most rows that a part reads, of all rows, and the processor seconds of the merge.

It ends with status 1 if what is merged isn't the report of the check, octet for octet. It needs some gigabytes of memory, of which
the split of ten million records takes two.
"""
import argparse
import filecmp
import os
import sys
import tempfile

from large import INPUTS, Files
from measure import MEBIBYTE, TOP, Taken, begun, metadata, program, ratio, waited
from parts import SPLIT, Names, labels_of

LIMIT = ["--classes", "9999999", "--workers", "1"]
WRITTEN = (0, 1)


def ran(words, path):
    """What a run takes that writes a report into a file."""
    with open(path, "wb") as out:
        status, usage = waited(begun(words, out))
    if status not in WRITTEN:
        raise SystemExit(f"{' '.join(words)}: it ended with {status}")
    return Taken(usage.ru_utime + usage.ru_stime, 0, usage.ru_maxrss * 1024 / MEBIBYTE)


def split(said, meta, folder):
    """The files of the names of the parts, in order, and how many records the network has."""
    records = SPLIT.records_of(said.groot_map, meta, SPLIT.servers_of(meta))
    count = len(records.starts)
    SPLIT.write_names(SPLIT.Network(records), SPLIT.bounds(records.starts, said.parts), folder)
    return [os.path.join(folder, file) for file in sorted(os.listdir(folder))], count


def rows_read(rows, file):
    """How many rows a part reads."""
    origins = [labels_of(row["Origin"]) for row in rows]
    names = Names(file, set(origins))
    return sum(not names.is_skipped(origin) for origin in origins)


def told(said, one, count):
    """Prints the line of an input of this size, and gives whether the parts make the report of the whole."""
    with tempfile.TemporaryDirectory() as folder:
        files, parts = Files(folder), os.path.join(folder, "parts")
        meta = metadata(folder, files.rows, one.made(files, count))
        os.mkdir(parts)
        whole, merged = os.path.join(folder, "whole"), os.path.join(folder, "merged")
        check = ran([said.groot_large, "check", meta, *LIMIT], whole)
        names, records = split(said, meta, parts)
        jobs = [ran([said.groot_parts, "part", meta, file, *LIMIT], file + ".report") for file in names]
        merge = ran([said.groot_parts, "merge", *(file + ".report" for file in names)], merged)
        spent, most = sum(job.processor for job in jobs), max(job.memory for job in jobs)
        rows = max(rows_read(files.rows, file) for file in names)
        print(f"| {one.what.format(count)} | {records - len(files.rows):,} | {check.processor:.2f} | {check.memory:,.0f} | {spent:.2f}"
              f" | {ratio(spent, check.processor):.2f} | {most:,.0f} | {rows:,} of {len(files.rows):,} | {merge.processor:.2f} |", flush=True)
        return filecmp.cmp(whole, merged, shallow=False)


def main():
    """Prints the table; the status."""
    parser = argparse.ArgumentParser(description=(__doc__ or "").split("\n\n", maxsplit=1)[0])
    parser.add_argument("--parts", type=int, default=4)
    parser.add_argument("--only", default="")
    parser.add_argument("--tenth", action="store_true")
    for name in ("large", "parts", "map"):
        parser.add_argument(f"--groot-{name}", type=program, default=os.path.join(TOP, "crates", f"groot_{name}", "out", f"groot_{name}"))
    said = parser.parse_args()
    print("| Input | Records | Check | MiB | All parts | Times | MiB a part | Rows read | Merge |")
    print("|---|---|---|---|---|---|---|---|---|")
    inputs = [one for one in reversed(INPUTS) if one.status == 1 and said.only in one.what]
    counts = [(one, one.count // times) for times in ((10,) if said.tenth else (10, 1)) for one in inputs]
    are_same = [told(said, one, count) for one, count in counts]
    if not all(are_same):
        print("parts_large: the parts make another report")
    return int(not all(are_same))


if __name__ == "__main__":
    sys.exit(main())
