#!/usr/bin/env python3
"""Measures zone trees and lookups: lookups.py [GROOT [PROGRAM]]

GROOT is the built program, crates/groot/out/groot if none is given. It makes a registry of 100,000 delegations with glue and
a zone of 100,000 hosts with a wildcard, and asks for an address at a delegation, at a host, below the wildcard and of a name
that is missing. For each it prints the processor seconds and the peak memory of the run, those of reading the same file by
the rules alone (with another row behind it, whose file is refused), what trees and walks take in ratio to reading (at most 1
is wanted), and the memory for each record. Each is the best of five runs.

Then it copies the crates that zone_lookup stands on into a scratch folder, beside a program whose text stands in lookups/,
and proves and builds it; PROGRAM is one that was built so before. It makes trees of a registry, of one with two name servers
for each name and in no order, and of hosts, and looks names up in them. It prints the microseconds of processor time and the
octets a record that a tree takes, and the nanoseconds and the allocations of a lookup (where valgrind is there), without
what making the records takes.
"""
import os
import shutil
import sys
import tempfile

import make_zone
from measure import GROOT, MEBIBYTE, allocations, measured, metadata, ratio, taken, with_program

COUNT = 100_000
CRATES = ("dns_data", "net_model", "zone_tree", "name_rules", "zone_lookup")
DEPENDS = "dns_data net_model zone_tree zone_lookup"
NAMES, TURNS, FEW_TURNS = 1_000, 1_000, 2
# the number of each kind of zone, and how many records it has for each count
TREES = (("registry", "0", 2), ("two servers, no order", "1", 4), ("hosts", "2", 1))
LOOKUPS = (("delegation", "0"), ("two servers", "1"), ("host", "2"), ("wildcard", "3"), ("missing", "4"))


def registry():
    """A delegation of each name to a name server below it, with glue."""
    for number in range(COUNT):
        yield f"d{number} NS ns.d{number}\nns.d{number} A 10.{number // 65536}.{number // 256 % 256}.{number % 256}\n"


def hosts():
    """An address of each host, and a wildcard beside them."""
    yield "*.any A 192.0.2.2\n"
    for number in range(COUNT):
        yield f"h{number} A 10.{number // 65536}.{number // 256 % 256}.{number % 256}\n"


# what is asked for in each zone, which has so many records
INPUTS = [
    ("registry", registry, 3 + 2 * COUNT, [("delegation", "www.d77777.example."), ("missing", "www.x.example.")]),
    ("hosts", hosts, 4 + COUNT, [("host", "h77777.example."), ("wildcard", "www.any.example."), ("missing", "x.example.")]),
]


def ask_beside_reading(groot):
    """A line for each name that is asked for."""
    print(f"{'zone':>9} {'asked at':<11} {'ask s':>7} {'read s':>7} {'ratio':>6} {'peak MiB':>9} {'octets/record':>14}")
    for title, lines, records, names in INPUTS:
        with tempfile.TemporaryDirectory() as folder:
            rows = make_zone.write_example(lines(), folder)
            refused = metadata(folder, [*rows, make_zone.write_empty(folder, "ns1.example.")], "ns1.example.")
            read = measured([groot, "ask", refused, "example.", "A"], (3,))
            meta = metadata(folder, rows, "ns1.example.")
            for kind, name in names:
                ask = measured([groot, "ask", meta, name, "A"])
                if read is None or ask is None:
                    print(f"{title:>9} {kind:<11} the program ended in another way")
                    continue
                print(
                    f"{title:>9} {kind:<11} {ask.processor:>7.3f} {read.processor:>7.3f} {ratio(ask.processor - read.processor, read.processor):>6.2f}"
                    f" {ask.memory:>9.1f} {ask.memory * MEBIBYTE / records:>14.0f}"
                )


def trees_and_lookups(program):
    """A line for each kind of zone, and for each kind of name."""
    count = str(COUNT)
    for title, kind, each in TREES:
        none, once = (taken([program, kind, count, builds, "0"]) for builds in ("0", "1"))
        records = each * COUNT + 1
        print(
            f"tree of {title}: {records} records, {(once.processor - none.processor) / records * 1e6:.3f} microseconds a record,"
            f" {(once.memory - none.memory) * MEBIBYTE / records:.0f} octets a record at its peak"
        )
    for title, kind in LOOKUPS:
        few, many = (taken([program, kind, count, "0", str(turns)]) for turns in (1, 1 + TURNS))
        line = f"lookup at a {title}: {(many.processor - few.processor) / (TURNS * NAMES) * 1e9:.0f} nanoseconds"
        if shutil.which("valgrind"):
            made = allocations([program, kind, "100", "0", str(1 + FEW_TURNS)]) - allocations([program, kind, "100", "0", "1"])
            line += f", {made / (FEW_TURNS * NAMES):.2f} allocations"
        print(line)


def main():
    groot = sys.argv[1] if len(sys.argv) > 1 else GROOT
    if os.access(groot, os.X_OK):
        ask_beside_reading(groot)
    else:
        print(f"lookups.py: no program at {groot}; cases/run.py builds it")
    with_program(sys.argv[2] if len(sys.argv) > 2 else None, "lookups", CRATES, DEPENDS, trees_and_lookups)


if __name__ == "__main__":
    main()
