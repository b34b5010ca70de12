#!/usr/bin/env python3
"""Measures the workers of steal_pool and soaks them: pool.py [RUNS]

It copies the crates that steal_pool stands on into a scratch folder, beside two programs whose texts stand in pool/, and
proves and builds these. speed gives the processor time and the octets of an item whose judging costs nothing, with one
worker, and how much faster two and four workers are than one where judging takes some ten microseconds: by the clock, and
by the processor time of all threads over that of the busiest one, which other work on the machine doesn't change. soak
makes RUNS runs (1,000 if none are given) with 1 to 64 workers over trees of drawn shapes, each of which must give the list
that one thread gives. It is ended after a second a run and a minute.
"""
import os
import subprocess
import sys
import tempfile
import time

from measure import HERE, MEBIBYTE, build, make_scratch, taken, text, write

CRATES = ("dns_data", "io_edges", "pool_core", "verdict_book", "steal_pool")
DEPENDS = "dns_data io_edges verdict_book steal_pool"
PROGRAMS = ("speed", "soak")
FREE_ITEMS, COSTLY_ITEMS = 1_000_000, 200_000
SHAPE = """use Rattle.soak.proofs.one_run.Given as goal

-- the name stands for the given shape
abbrev pub ghosts-run_shape : goal.ghosts-run_shape
ghosts-run_shape g a = record { fan = a.fan; size = a.size; seed = a.seed }
"""


def add_proofs(scratch):
    """The proofs of the two programs."""
    for name in PROGRAMS:
        for file in ("Answers", "Invariants"):
            proof = text(HERE, "pool", f"list_from_{file.lower()}.txt").replace("Rattle.PROGRAM", f"Rattle.{name}")
            write(os.path.join(scratch, "crates", name, "proofs", "list_from", f"{file}.antt"), proof)
    speed = os.path.join(scratch, "crates", "speed")
    write(os.path.join(speed, "specs", "Lib.antt"), "pub mod Trees\n")
    write(os.path.join(speed, "specs", "Trees.antt"), text(HERE, "pool", "trees.txt"))
    soak = os.path.join(scratch, "crates", "soak")
    write(os.path.join(soak, "specs", "Lib.antt"), "pub mod Shapes\n")
    write(os.path.join(soak, "specs", "Shapes.antt"), text(HERE, "pool", "shapes.txt"))
    write(os.path.join(soak, "proofs", "one_run", "Invariants.antt"), SHAPE)


def threads_of(process):
    """The processor ticks of each thread so far, by its number."""
    ticks = {}
    for task in os.listdir(f"/proc/{process}/task"):
        fields = text(f"/proc/{process}/task/{task}/stat").rsplit(")", 1)[1].split()
        ticks[task] = int(fields[11]) + int(fields[12])
    return ticks


def sharing(words):
    """The processor time of all threads over that of the busiest one."""
    last = {}
    child = subprocess.Popen(words)
    while child.poll() is None:
        try:
            last.update(threads_of(child.pid))
        except (FileNotFoundError, ProcessLookupError):
            pass
        time.sleep(0.005)
    return sum(last.values()) / max(last.values())


def measure(program):
    """The costs of an item, and the speed of two and four workers."""
    free = taken([program, "1", "0"])
    print(
        f"free items, 1 worker: {free.processor / FREE_ITEMS * 1e6:.2f} microseconds of processor time"
        f" and {free.memory * MEBIBYTE / FREE_ITEMS:.0f} octets an item"
    )
    turns = 10_000
    turns = int(turns * 10e-6 / (taken([program, "1", str(turns)]).processor / COSTLY_ITEMS))
    one = taken([program, "1", str(turns)])
    for workers in (2, 4):
        words = [program, str(workers), str(turns)]
        many = taken(words)
        print(
            f"{one.processor / COSTLY_ITEMS * 1e6:.1f} microseconds an item, {workers} workers: by the clock {one.clock / many.clock:.2f} times as fast as 1"
            f" (load {os.getloadavg()[0]:.1f} on {os.cpu_count()} processors), by the busiest thread {sharing(words):.2f} times,"
            f" with {many.processor / one.processor:.2f} times the processor time"
        )


def soak(program, runs):
    """So many runs, within a time."""
    start = time.monotonic()
    try:
        ended = subprocess.run([program, str(runs)], timeout=60 + runs)
    except subprocess.TimeoutExpired:
        raise SystemExit(f"soak: {runs} runs did not end within {60 + runs} seconds")
    if ended.returncode:
        raise SystemExit(f"soak: a run gave another list (status {ended.returncode})")
    print(f"soak: {runs} runs with 1 to 64 workers gave the lists of one thread, in {time.monotonic() - start:.1f} seconds")


def main():
    runs = int(sys.argv[1]) if len(sys.argv) > 1 else 1000
    with tempfile.TemporaryDirectory() as scratch:
        make_scratch(scratch, CRATES, dict.fromkeys(PROGRAMS, "pool"), DEPENDS)
        add_proofs(scratch)
        measure(build(scratch, "speed"))
        soak(build(scratch, "soak"), runs)


if __name__ == "__main__":
    main()
