#!/usr/bin/env python3
"""Measures whole checks: checking.py [GROOT] [--runs N] [--tenth] [--only WORD]

GROOT is the built program, crates/groot/out/groot if none is given. It makes
- a registry of 100,000 delegations, each to two name servers below it with glue (433,337 records, 600,006 classes),
- 1,000 hosted zones of 100 records on three servers, and the zone above them,
- a mixed zone of 16 MiB as a hosting firm has it,
- 2,000 DNAME records onto a tree of 40 names, and a chain of 5,000 aliases,
- 10,000 rows: 9,000 hosted zones, of which 999 have a second server, and the zone above them (899,915 records), and a
  ninth of that,
- hosted zones without the zone above, whose 33, 128, 2,000 or 5,000 servers are all top servers, also with large zones,
- a zone on 50 servers, 100 zones on 40, and 60 zones each delegated by the one before,
- a chain of 400 DNAME records, and of half as many,
- aliases to names that no zone has, and into the zone of another server,
- IPv6 addresses' names, one set of 100,000 addresses, and lame delegations,
- a zone of four records on 4,000 servers, all of them top servers, and on a fourth of that.

For each it prints the processor seconds and the peak memory of `check` with one worker, the processor seconds of `ask` of
one name on the same files (reading and trees) and of the stock checkers of master files that are installed (Knot's kzonecheck,
NSD's nsd-checkzone, BIND's named-checkzone) on the same zone where it is one zone, and the ratios to them. Then it prints how
`check` grows from an input to the one that is larger, for the registry and the 10,000 rows the seconds by the clock of judging
alone (seen from outside by strace, where it is installed) and the memory with 1, 2 and 4 workers, and what `drill` takes.

Of inputs at which a run once took too long it prints
- what `check`, `scope` of the root and `same` of two copies take beside `classes` where four DNAME records make more names
  than are looked at,
- what `check` takes where a query reaches more pairs of state and type than are looked at, in four zones that redirect the
  names of each other, alone and beside 20 aliases from which as many are reached,
- what `check --rewrites 64` takes of a chain of 20,000 aliases, nearly each of which leads too far, beside what Python's json
  takes to write the same report.

The best of N runs counts, 5 if none are given; of no run longer than half an hour anything is told. With --tenth all inputs are
a tenth as large; with --only those alone whose title has the word. What is wanted of the whole inputs stands behind the number;
of judging with several workers it is wanted on a machine with as many idle processors.
"""
import argparse
import json
import os
import re
import shutil
import subprocess
import tempfile
import time
from typing import Callable, NamedTuple, Optional

import make_zone
from measure import GROOT, MEBIBYTE, RUNS, measured, metadata, program, ratio, stock_checkers

MOST_MEMORY = 500
MOST_DRILL = 5
MOST_COUNTING = 2
MOST_WRITING = 2
MOST_MORE_STATES = 2
LEAST_SPEED = {4: 3}
MOST_MORE_MEMORY = 1.2


class Input(NamedTuple):
    """What is checked: what writes its files and gives the rows of its metadata; the name of its zone, where it is one; the
    title of a smaller input; at most what of check is wanted, in ratio to ask, to kzonecheck, to the smaller input, in MiB and in
    seconds; and whether all servers are top servers, or the first alone."""

    title: str
    write: Callable
    origin: Optional[str] = None
    smaller: Optional[str] = None
    growth: Optional[float] = None
    ask: Optional[float] = None
    stock: Optional[float] = None
    memory: float = MOST_MEMORY
    seconds: Optional[float] = None
    all_top: bool = False


def one_zone(lines, count):
    """What writes the zone of so many of these lines."""
    return lambda folder: make_zone.write_example(lines(count), folder)


def hosted(zones, second, records):
    """What writes hosted zones."""
    return lambda folder: make_zone.write_hosted(zones, second, records, folder)


def on_many(servers):
    """What writes a small zone on many servers."""
    return lambda folder: make_zone.write_on_many(servers, folder)


def without_above(servers, zones, records):
    """What writes hosted zones of two servers each, with no zone above."""
    return lambda folder: make_zone.write_without_above(servers, zones, records, folder)


def on_all(servers, zones, records):
    """What writes zones that each stand on all servers."""
    return lambda folder: make_zone.write_on_all(servers, zones, records, folder)


def nested(depth, records):
    """What writes zones, each delegated by the one before."""
    return lambda folder: make_zone.write_nested(depth, records, folder)


def across(count):
    """What writes aliases into another server's zone."""
    return lambda folder: make_zone.write_across(count, folder)


def reverse(count):
    """What writes a zone of IPv6 addresses' names."""
    return lambda folder: make_zone.write_reverse(count, folder)


def mixed(octets):
    """What writes a zone of so many octets with records of all kinds."""

    def rows(folder):
        with open(os.path.join(folder, "own.zone"), "w") as into:
            make_zone.write_zone(octets, into)
        return [{"FileName": "own.zone", "NameServer": "ns1.hosting.example."}]

    return rows


def inputs(part):
    """Each input, as large as this part of it."""
    whole = (16 * MEBIBYTE - 4096) // part
    return [
        Input("registry, a tenth", one_zone(make_zone.registry, 10_000 // part), "example."),
        Input("registry", one_zone(make_zone.registry, 100_000 // part), "example.", "registry, a tenth", 12, ask=3, stock=1.5, memory=145),
        Input("hosted zones", hosted(1_000 // part, 0, 100), ask=3),
        Input("mixed, a tenth", mixed(whole // 10), "hosting.example."),
        Input("mixed zone", mixed(whole), "hosting.example.", "mixed, a tenth", 12, ask=3),
        Input("DNAMEs, a tenth", one_zone(make_zone.redirected, 200 // part), "example."),
        Input("DNAME records", one_zone(make_zone.redirected, 2_000 // part), "example.", "DNAMEs, a tenth", 12),
        Input("aliases, a tenth", one_zone(make_zone.aliases, 500 // part), "example."),
        Input("chain of aliases", one_zone(make_zone.aliases, 5_000 // part), "example.", "aliases, a tenth", 12),
        Input("rows, a ninth", hosted(1_000 // part, 111 // part, 89)),
        Input("10,000 rows", hosted(9_000 // part, 999 // part, 89), None, "rows, a ninth", 11, memory=300),
        Input("33 tops", without_above(33, 200 // part, 100), all_top=True),
        Input("128 tops", without_above(128, 200 // part, 100), None, "33 tops", 1.3, all_top=True),
        Input("2,000 tops", without_above(2_000 // part, 2_000 // part, 5), memory=40, seconds=3, all_top=True),
        Input("5,000 tops", without_above(5_000 // part, 5_000 // part, 5), None, "2,000 tops", 3.5, memory=80, seconds=8, all_top=True),
        Input("zones of many tops", without_above(64, 64 // part, 1_000), all_top=True),
        Input("50 servers", on_all(50, 1, 1_000 // part)),
        Input("40 servers", on_all(40, 100 // part, 100)),
        Input("nested zones", nested(60, 10)),
        Input("chain of DNAMEs, half", one_zone(make_zone.chained_redirections, 200 // part), "example."),
        Input("chain of DNAMEs", one_zone(make_zone.chained_redirections, 400 // part), "example.", "chain of DNAMEs, half", 9, seconds=0.5),
        Input("aliases outside", one_zone(make_zone.outside, 10_000 // part), "example."),
        Input("aliases across", across(10_000 // part)),
        Input("ip6.arpa", reverse(10_000 // part), "ip6.arpa."),
        Input("one set", one_zone(make_zone.one_set, 100_000 // part), "example."),
        Input("lame delegations", one_zone(make_zone.lame, 5_000 // part), "example."),
        Input("tops, a fourth", on_many(1_000 // part), all_top=True),
        Input("4,000 top servers", on_many(4_000 // part), None, "tops, a fourth", 5, seconds=3, all_top=True),
    ]


def told(number, most=None, least=None, digits=2):
    """A number with so many digits, and with what is wanted of it."""
    wanted = f" (at most {most:g})" if most else f" (at least {least:g})" if least else ""
    return f"{number:.{digits}f}{wanted}"


def threads_alone(words, runs):
    """The seconds by the clock from the first thread that a run makes to the end of the last one, the least of some runs. It is
    None where strace isn't installed, or a run makes no thread."""
    if not shutil.which("strace"):
        return None
    best = None
    for _ in range(runs):
        with tempfile.NamedTemporaryFile("r") as log:
            traced = ["strace", "-f", "--seccomp-bpf", "-ttt", "-e", "trace=clone3,exit", "-o", log.name, *words]
            subprocess.run(traced, stdin=subprocess.DEVNULL, stdout=subprocess.DEVNULL, stderr=subprocess.DEVNULL)
            calls = [re.match(r"\d+ +(\d+\.\d+) (clone3|exit)\(", line) for line in log]
            made = [float(call[1]) for call in calls if call and call[2] == "clone3"]
            ended = [float(call[1]) for call in calls if call and call[2] == "exit"]
        if made and ended:
            alone = max(ended) - min(made)
            best = alone if best is None else min(best, alone)
    return best


def by_workers(given, words, runs):
    """Prints what judging takes with more workers. Of a run with several it is what their threads take; of a run with one, which
    makes no thread, all but what isn't judging in the run with two."""
    got = {workers: measured([*words, str(workers)], (0, 1), runs) for workers in (1, 2, 4)}
    alone = {workers: threads_alone([*words, str(workers)], runs) for workers in (2, 4)}
    if None in got.values() or None in alone.values():
        print(f"{given.title:>18} workers: strace isn't installed, or the program ended in another way")
        return
    one = got[1].clock - (got[2].clock - alone[2])
    print(f"{given.title:>18} 1 worker: judging {one:.3f} s by the clock, {got[1].memory:.0f} MiB")
    for workers in (2, 4):
        faster = told(one / alone[workers], least=LEAST_SPEED.get(workers))
        more = told(got[workers].memory / got[workers // 2].memory, MOST_MORE_MEMORY)
        print(
            f"{given.title:>18} {workers} workers: judging {alone[workers]:.3f} s, {got[workers].memory:.0f} MiB;"
            f" {faster} times as fast as one, with {more} times the memory of half as many",
            flush=True,
        )


def check_one(groot, given, taken, runs):
    """Checks one input, and prints what that takes, beside ask and kzonecheck."""
    with tempfile.TemporaryDirectory() as folder:
        rows = given.write(folder)
        tops = list(dict.fromkeys(row["NameServer"] for row in (rows if given.all_top else rows[:1])))
        meta = metadata(folder, rows, *tops)
        words = [groot, "check", meta, "--classes", "1000000", "--workers"]
        check = measured([*words, "1"], (0, 1), runs)
        # With more than 1,000 top servers a query has more walks than are written.
        ask = measured([groot, "ask", meta, tops[0], "A"], (0, 4) if given.all_top else (0,), runs)
        if check is None or ask is None:
            print(f"{given.title:>18} the program ended in another way")
            return
        taken[given.title] = check.processor
        line = f"{given.title:>18} check {told(check.processor, given.seconds, digits=3)} s, {told(check.memory, given.memory)} MiB"
        line += f"; ask {told(ask.processor, given.seconds, digits=3)} s, ratio {told(ratio(check.processor, ask.processor), given.ask)}"
        for name, stock_words in stock_checkers(given.origin, os.path.join(folder, "own.zone")):
            stock = measured(stock_words, (0,), runs)
            most = given.stock if name == "kzonecheck" else None
            if stock:
                line += f"; {name} {stock.processor:.3f} s {stock.memory:.0f} MiB, ratio {told(ratio(check.processor, stock.processor), most)}"
        if given.smaller in taken:
            line += f"; growth {told(ratio(check.processor, taken[given.smaller]), given.growth)}"
        print(line, flush=True)
        if given.title in ("registry", "10,000 rows"):
            by_workers(given, words, runs)


def drills(groot, part, runs):
    """Prints what drills take: five times the zones beside the smaller drill."""
    start, small, large = (measured([groot, "drill", str(zones), "--workers", "1"], (0, 1), runs) for zones in (1, 1_000 // part, 5_000 // part))
    if None in (start, small, large):
        print(f"{'drill':>18} the program ended in another way")
        return
    growth = told(ratio(large.processor - start.processor, small.processor), MOST_DRILL)
    print(f"{'drill':>18} {large.processor:.3f} s, {growth} times the smaller one but for its start; {told(large.memory, MOST_MEMORY)} MiB")


def counting(groot, runs):
    """Prints what check, scope and same take where DNAME records make more names than the limit, beside what classes takes with
    the same limit."""
    with tempfile.TemporaryDirectory() as folder:
        rows = make_zone.write_example(make_zone.crossing(), folder)
        meta = metadata(folder, rows, rows[0]["NameServer"])
        for job, limit, operands in (("check", 1_000_000, []), ("check", 100_000, []), ("scope", 100_000, ["."]), ("same", 100_000, [meta])):
            most = ["--classes", str(limit)]
            classes = measured([groot, "classes", meta, *most], (4,), runs)
            own = measured([groot, job, meta, *(most if job == "check" else operands)], (4,), runs)
            if own is None or classes is None:
                print(f"{'names of DNAMEs':>18} the program ended in another way")
                return
            print(
                f"{'names of DNAMEs':>18} {job} of at most {limit:,} {own.processor:.3f} s, {told(own.memory, MOST_MEMORY)} MiB;"
                f" ratio to classes {told(ratio(own.processor, classes.processor), MOST_COUNTING)}",
                flush=True,
            )


def many_states(groot, part, runs):
    """Prints what check takes where a query reaches more pairs of state and type than are looked at, alone and beside aliases from
    which as many are reached. The ending names the first query alone in both."""
    taken = []
    for count in (0, 20 // part):
        with tempfile.TemporaryDirectory() as folder:
            rows = make_zone.write_redirecting(count, folder)
            taken.append(measured([groot, "check", metadata(folder, rows, *make_zone.REDIRECTING), "--workers", "1"], (4,), runs))
    if None in taken:
        print(f"{'many states':>18} the program ended in another way")
        return
    alone, beside = taken
    print(
        f"{'many states':>18} check {alone.processor:.3f} s, {told(alone.memory, MOST_MEMORY)} MiB; beside {20 // part} aliases"
        f" {beside.processor:.3f} s, ratio {told(ratio(beside.processor, alone.processor), MOST_MORE_STATES)}"
    )


def seconds_to_write(path, runs):
    """The processor seconds in which Python's json writes the report of a file, the least of some runs."""
    with open(path) as file:
        report = json.load(file)
    best = None
    for _ in range(runs):
        with open(os.devnull, "w") as into:
            start = time.process_time()
            into.write(json.dumps(report, separators=(",", ":")))
            taken = time.process_time() - start
        best = taken if best is None else min(best, taken)
    return best


def far_aliases(groot, part, runs):
    """Prints what check takes of a chain of aliases nearly each of which leads further than a query may be rewritten, beside what
    Python takes to write the same report."""
    with tempfile.TemporaryDirectory() as folder:
        rows = make_zone.write_example(make_zone.aliases(20_000 // part), folder)
        words = [groot, "check", metadata(folder, rows, rows[0]["NameServer"]), "--rewrites", "64", "--workers", "1"]
        path = os.path.join(folder, "report.json")
        with open(path, "wb") as into:
            subprocess.run(words, stdin=subprocess.DEVNULL, stdout=into, stderr=subprocess.DEVNULL)
        check = measured(words, (1,), runs)
        if check is None:
            print(f"{'far aliases':>18} the program ended in another way")
            return
        size, writing = os.path.getsize(path) / MEBIBYTE, seconds_to_write(path, runs)
    print(
        f"{'far aliases':>18} check {check.processor:.3f} s, {check.memory:.0f} MiB, a report of {size:.0f} MiB;"
        f" ratio to writing it {told(ratio(check.processor, writing), MOST_WRITING)}"
    )


def main():
    words = argparse.ArgumentParser()
    words.add_argument("groot", nargs="?", default=GROOT)
    words.add_argument("--runs", type=int, default=RUNS)
    words.add_argument("--tenth", action="store_true")
    words.add_argument("--only", default="")
    said = words.parse_args()
    groot, part, taken = program(said.groot), 10 if said.tenth else 1, {}
    for given in inputs(part):
        if said.only in given.title:
            check_one(groot, given, taken, said.runs)
    if said.only in "drill":
        drills(groot, part, said.runs)
    if said.only in "names of DNAMEs":
        counting(groot, said.runs)
    if said.only in "many states":
        many_states(groot, part, said.runs)
    if said.only in "far aliases":
        far_aliases(groot, part, said.runs)


if __name__ == "__main__":
    main()
