#!/usr/bin/env python3
"""Measures jobs for parts of a network: scope.py [GROOT] [--jobs N] [--runs N] [--tenth]

GROOT is the built program, crates/groot/out/groot if none is given. It makes
- a registry of 100,000 delegations to name servers below them, of which the jobs are the scopes of 20 delegations,
- 400 hosted zones of 100 records on three servers and the zone above them, of which the jobs are the scopes of all zones,
- 400 zones of 100 records, each alone in a configuration of its own, of which the jobs are the checks.

Of each it prints a line of a table, in seconds: by the clock, what one `check` of the whole configuration takes with one
worker and with N, which has no number where there is no such configuration; by the clock, what all jobs take one after the
other, and as separate jobs under GNU parallel, N at a time; and the processor time of one job of them on average, of `check`
with one worker, and of `ask` of one name on the same files (reading and trees). N of --jobs is as many as there are
processors, if none is given. Each is the best of --runs runs, 3 if none are given. With --tenth all inputs are a tenth as
large. It needs GNU parallel.
"""
import argparse
import os
import shutil
import subprocess
import tempfile
import time
from typing import NamedTuple, Optional

import make_zone
from measure import GROOT, measured, metadata, program

SCOPES = 20


class Job(NamedTuple):
    """The jobs of an input: the words of each, with {} for what tells them apart, and that of each; and the metadata file of
    the whole, where it is one configuration."""

    words: list
    parts: list
    whole: Optional[str]


class Spent(NamedTuple):
    """Seconds by the clock, and processor seconds."""

    clock: float
    processor: float


def registry(groot, count, folder):
    """The scopes of some delegations of a registry."""
    meta = metadata(folder, make_zone.write_example(make_zone.registry(count), folder), "ns1.example.")
    names = [f"d{number:06}.example." for number in range(0, count, max(count // SCOPES, 1))]
    return Job([groot, "scope", meta, "{}"], names, meta)


def hosted(groot, count, folder):
    """The scopes of all zones of a host."""
    meta = metadata(folder, make_zone.write_hosted(count, count // 10, 100, folder), "ns1.example.")
    return Job([groot, "scope", meta, "{}"], [f"customer{number}.example." for number in range(count)], meta)


def apart(groot, count, folder):
    """The checks of zones that have nothing to do with each other."""
    parts = []
    for number, row in enumerate(make_zone.write_many(count, 100, folder)):
        parts.append(os.path.join(folder, f"{number}.json"))
        os.replace(metadata(folder, [row], row["NameServer"]), parts[-1])
    return Job([groot, "check", "{}", "--workers", "1"], parts, None)


INPUTS = [
    ("registry of {:,} delegations", registry, 100_000),
    ("{:,} hosted zones of 100 records", hosted, 400),
    ("{:,} zones of 100 records, a configuration each", apart, 400),
]


def spent(run):
    """What a run of this process's children takes."""
    start, before = time.monotonic(), os.times()
    run()
    after = os.times()
    own = after.children_user + after.children_system - before.children_user - before.children_system
    return Spent(time.monotonic() - start, own)


def ended(status, words):
    """Ends where a job ended in another way than with a report."""
    if status not in (0, 1):
        raise SystemExit(f"{' '.join(words)}: it ended with status {status}")


def in_turn(job):
    """Runs the jobs one after the other."""
    for part in job.parts:
        words = [word.replace("{}", part) for word in job.words]
        ended(subprocess.run(words, stdin=subprocess.DEVNULL, stdout=subprocess.DEVNULL).returncode, words)


def under_parallel(job, at_a_time):
    """Runs the jobs under GNU parallel, whose log has the status of each."""
    with tempfile.NamedTemporaryFile("r") as log:
        words = ["parallel", "--will-cite", "--jobs", str(at_a_time), "--joblog", log.name, *job.words]
        subprocess.run(words, input="\n".join(job.parts) + "\n", text=True, stdout=subprocess.DEVNULL)
        rows = [line.rstrip("\n").split("\t") for line in log][1:]
    if len(rows) != len(job.parts):
        raise SystemExit(f"{len(rows)} of {len(job.parts)} jobs ended")
    for row in rows:
        ended(int(row[6]), row[8:])


def best(run, runs):
    """The least that some runs take."""
    return Spent(*map(min, zip(*(spent(run) for _ in range(runs)))))


def told(taken, of=lambda taken: taken.clock):
    """A number of the table, or none."""
    return f"{of(taken):.3f}" if taken else "none"


def main():
    words = argparse.ArgumentParser()
    words.add_argument("groot", nargs="?", default=GROOT)
    words.add_argument("--jobs", type=int, default=os.cpu_count())
    words.add_argument("--runs", type=int, default=3)
    words.add_argument("--tenth", action="store_true")
    said = words.parse_args()
    groot = program(os.path.abspath(said.groot))
    if not shutil.which("parallel"):
        raise SystemExit("bench/scope.py: needs GNU parallel")
    print(f"| Input | Jobs | One check | With {said.jobs} workers | Jobs in turn | {said.jobs} at a time | Processor: a job | One check | ask |")
    print("|---|---|---|---|---|---|---|---|---|")
    for title, make, size in INPUTS:
        with tempfile.TemporaryDirectory() as folder:
            count = size // 10 if said.tenth else size
            job = make(groot, count, folder)
            one = ask = many = None
            if job.whole:
                check = [groot, "check", job.whole, "--classes", "1000000", "--workers"]
                one, many = (measured([*check, str(workers)], (0, 1), said.runs) for workers in (1, said.jobs))
                ask = measured([groot, "ask", job.whole, "ns1.example.", "A"], (0,), said.runs)
            turn = best(lambda: in_turn(job), said.runs)
            beside = best(lambda: under_parallel(job, said.jobs), said.runs)
            processor = lambda taken: taken.processor
            numbers = [told(one), told(many), told(turn), told(beside), f"{turn.processor / len(job.parts):.3f}", told(one, processor), told(ask, processor)]
            print(f"| {title.format(count)} | {len(job.parts)} | {' | '.join(numbers)} |", flush=True)


if __name__ == "__main__":
    main()
