#!/usr/bin/env python3
"""Runs checks again and again with different numbers of workers: soak.py [GROOT] [--folders FOLDER] [--times N]
[--workers N,N,..] [--seconds N] [--minutes N] [--large N]

GROOT is the built program, crates/groot/out/groot if none is given. Each configuration is checked with each number of
workers (1, 2, 3, 8 and 64) so many times (10), and status, out and err have to be the same every time, within so many
seconds for a run (120). The configurations are those of the folders right in FOLDER that hold a metadata.json or a
meta.json, examples/ if none is given, and N large ones (3), for which a million names are allowed: a registry of 10,000
delegations, 1,000 hosted zones, and 2,000 DNAME records. It ends with status 1 at the first run that differs or doesn't
end, and says which; also where it found no configuration, or hasn't tried all of them after so many minutes (180).
"""
import argparse
import os
import subprocess
import tempfile
import time

import checking
import make_zone
from measure import GROOT, TOP, metadata, program

LARGE = [
    ("registry", checking.one_zone(make_zone.registry, 10_000)),
    ("hosted zones", checking.hosted(1_000, 111, 89)),
    ("DNAME records", checking.one_zone(make_zone.redirected, 2_000)),
]


def outcome(words, seconds):
    """The status, out and err of a run, or None where it doesn't end."""
    try:
        run = subprocess.run(words, stdin=subprocess.DEVNULL, capture_output=True, timeout=seconds)
        return run.returncode, run.stdout, run.stderr
    except subprocess.TimeoutExpired:
        return None


def soak(said, title, meta, end, options=()):
    """Checks one configuration with each number of workers and these options so many times; gives how many runs there were."""
    words = [said.groot, "check", meta, *options, "--workers"]
    first, runs = None, 0
    for turn in range(said.times):
        for workers in said.workers:
            if time.monotonic() > end:
                raise SystemExit(f"soak.py: {title}: not all runs were made within {said.minutes} minutes")
            got = outcome([*words, str(workers)], said.seconds)
            runs += 1
            if got is None:
                raise SystemExit(f"soak.py: {title}, {workers} workers, run {turn + 1}: it doesn't end within {said.seconds} seconds")
            first = first or got
            if got != first:
                raise SystemExit(f"soak.py: {title}, {workers} workers, run {turn + 1}: status {got[0]} and {len(got[1])} octets, and not {first[0]} and {len(first[1])}")
    return runs


def configurations(folders):
    """The metadata files of the folders right in this one, in order of their names."""
    for folder in sorted(os.listdir(folders)):
        for name in ("metadata.json", "meta.json"):
            path = os.path.join(folders, folder, name)
            if os.path.exists(path):
                yield folder, path


def main():
    words = argparse.ArgumentParser()
    words.add_argument("groot", nargs="?", default=GROOT)
    words.add_argument("--folders", default=os.path.join(TOP, "examples"))
    words.add_argument("--times", type=int, default=10)
    words.add_argument("--workers", type=lambda text: [int(word) for word in text.split(",")], default=[1, 2, 3, 8, 64])
    words.add_argument("--seconds", type=int, default=120)
    words.add_argument("--minutes", type=int, default=180)
    words.add_argument("--large", type=int, default=len(LARGE))
    said = words.parse_args()
    program(said.groot)
    begin = time.monotonic()
    end = begin + 60 * said.minutes
    counts = [soak(said, title, meta, end) for title, meta in configurations(said.folders)]
    for title, write in LARGE[: said.large]:
        with tempfile.TemporaryDirectory() as folder:
            counts.append(soak(said, title, metadata(folder, write(folder), "ns1.example."), end, ["--classes", "1000000"]))
    if not counts:
        raise SystemExit("soak.py: no configuration")
    print(f"{len(counts)} configurations, {sum(counts)} runs in {time.monotonic() - begin:.0f} seconds, all ended, each of one configuration with the same status and the same octets")


if __name__ == "__main__":
    main()
