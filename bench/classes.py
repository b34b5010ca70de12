#!/usr/bin/env python3
"""Measures the listing of classes: classes.py [GROOT]

GROOT is the built program, crates/groot/out/groot if none is given. It makes registries of 10,000 and 100,000 delegations
to name servers below them (30,003 and 300,003 names, 60,006 and 600,006 classes), 2,000 DNAME records onto a tree of 40
names (82,044 names), and 20,000 DNAME records each onto one of 40 names. For each it prints the processor seconds and the
peak memory of `classes`, those of `ask` of one name on the same files (reading and trees), and their ratio (at most 2 is
wanted of a registry); and for the larger registry what ten times the input takes (at most 12). Each is the best of five runs.
"""
import sys
import tempfile

import make_zone
from measure import GROOT, measured, metadata, program, ratio

INPUTS = [
    ("registry, 10^4", make_zone.registry(10_000)),
    ("registry, 10^5", make_zone.registry(100_000)),
    ("2,000 DNAME", make_zone.redirected(2_000)),
    ("20,000 DNAME", make_zone.redirected(20_000, lambda number: f"w{number % 40}.t")),
]


def main():
    groot = program(sys.argv[1] if len(sys.argv) > 1 else GROOT)
    print(f"{'zone':>15} {'classes s':>10} {'MiB':>6} {'ask s':>7} {'MiB':>6} {'ratio':>6} {'growth':>7}")
    before = None
    for title, lines in INPUTS:
        with tempfile.TemporaryDirectory() as folder:
            meta = metadata(folder, make_zone.write_example(lines, folder), "ns1.example.")
            own = measured([groot, "classes", meta, "--classes", "1000000"])
            ask = measured([groot, "ask", meta, "ns1.example.", "A"])
            if own is None or ask is None:
                raise SystemExit(f"classes.py: {title}: the program ended in another way")
            growth = f"{ratio(own.processor, before):>7.1f}" if title == "registry, 10^5" else ""
            before = own.processor
            print(f"{title:>15} {own.processor:>10.3f} {own.memory:>6.0f} {ask.processor:>7.3f} {ask.memory:>6.0f} {ratio(own.processor, ask.processor):>6.2f} {growth}")


if __name__ == "__main__":
    main()
