#!/usr/bin/env python3
"""Measures runs that a customer's small files once made dear: growth.py [--program GROOT] [--map GROOT_MAP] [--tenth] [--keep] [--only WORD]

Each row has an input of make_growth.py, whose files take some kilobytes, and a command over it. Printed are the processor
seconds, the peak memory and the length of what was written, beside what is wanted. A run may take eight GiB of memory, and one
minute; else it is told that it took more.

With --tenth the inputs are smaller, and their instructions are counted by valgrind, which are the same on every machine.
growth.json keeps the instructions and the peak memory of each row; where one of them is more than 1.2 times what is kept, and
memory also a MiB more, the script ends with status 1. With --keep it writes them there instead.
"""
import argparse
import json
import os
import re
import resource
import subprocess
import tempfile
from typing import Callable, Dict, List, NamedTuple, Optional, Tuple

import make_growth as make
import make_zone
from measure import GROOT, HERE, MEBIBYTE, TOP, begun, metadata, program, waited

KEPT = os.path.join(HERE, "growth.json")
GROOT_MAP = os.path.join(TOP, "crates", "groot_map", "out", "groot_map")
MOST_TIMES = 1.2
MOST_MORE = 1.0  # MiB: two builds of one program differ in how many of their own pages a run touches
MOST_OCTETS = 8 << 30
MOST_SECONDS = 60
MOST_CLASSES = ["--classes", "1000000", "--workers", "1"]
REPEATED = 317


class Row(NamedTuple):
    """A command over an input: its title, what writes the input of a size, both sizes, what gives the command's words for the
    metadata, and the seconds and MiB that are wanted of the whole one. Where the small size is 0 there is no small one."""

    title: str
    write: Callable[[int, str], str]
    size: int
    small: int
    words: Callable[["Programs", str], List[str]]
    seconds: float
    memory: float


class Programs(NamedTuple):
    """The programs that are measured."""

    groot: str
    map: str


class Taken(NamedTuple):
    """What a run took: processor seconds or instructions, MiB at its peak, and octets written."""

    cost: float
    memory: float
    written: int


def check(programs: Programs, meta: str) -> List[str]:
    return [programs.groot, "check", meta, *MOST_CLASSES]


def scope(programs: Programs, meta: str) -> List[str]:
    return [programs.groot, "scope", meta, "."]


def same(programs: Programs, meta: str) -> List[str]:
    return [programs.groot, "same", meta, meta]


def ask(programs: Programs, meta: str) -> List[str]:
    return [programs.groot, "ask", meta, "n.z0.", "A"]


def classes(programs: Programs, meta: str) -> List[str]:
    return [programs.groot, "classes", meta, "--classes", "1000000"]


def targets(programs: Programs, meta: str) -> List[str]:
    return [programs.map, "targets", meta]


def own_report(programs: Programs, meta: str) -> str:
    """The path of the report of these files."""
    path = os.path.join(os.path.dirname(meta), "report.json")
    with open(path, "wb") as into:
        subprocess.run(check(programs, meta), stdin=subprocess.DEVNULL, stdout=into, stderr=subprocess.DEVNULL, check=False)
    return path


def recheck(programs: Programs, meta: str) -> List[str]:
    return [programs.groot, "recheck", meta, own_report(programs, meta)]


def recheck_repeated(programs: Programs, meta: str) -> List[str]:
    """A recheck of a report that has one entry many times."""
    path = own_report(programs, meta)
    with open(path, encoding="utf-8") as file:
        report = json.load(file)
    report["faults"] = report["faults"][:1] * REPEATED
    with open(path, "w", encoding="utf-8") as into:
        json.dump(report, into, separators=(",", ":"))
    return [programs.groot, "recheck", meta, path]


def crossing(_size: int, folder: str) -> str:
    """Four redirections that make more names than are looked at."""
    rows = make_zone.write_example(make_zone.crossing(), folder)
    return metadata(folder, rows, rows[0]["NameServer"])


ROWS = [
    Row("redirected servers", make.redirected_servers, 1_000, 10, check, 3, 100),
    Row("aliased servers", make.aliased_servers, 1_000, 40, check, 1, 60),
    Row("aliased servers, four times", make.aliased_servers, 4_000, 0, check, 8, 200),
    Row("servers aliased away", make.servers_aliased_away, 2_000, 400, check, 1, 60),
    Row("laden cut", make.laden_cut, 2_000, 100, check, 2, 100),
    Row("forgotten name server", make.forgotten_server, 20_000, 20, check, 1, 60),
    Row("forgotten name server, five times", make.forgotten_server, 95_000, 0, check, 5, 250),
    Row("long report", make.long_report, 9, 4, check, 8, 1_500),
    Row("redirected names", make.redirected_names, 1_000, 100, check, 4, 150),
    Row("redirected names, scope", make.redirected_names, 1_000, 100, scope, 5, 150),
    Row("redirected names, same", make.redirected_names, 1_000, 2, same, 8, 150),
    Row("redirections at tops", make.redirections_at_tops, 300, 15, check, 3, 150),
    Row("redirections at tops, scope", make.redirections_at_tops, 300, 15, scope, 4, 150),
    Row("redirections at tops, same", make.redirections_at_tops, 300, 15, same, 5, 150),
    Row("servers in turn, recheck", make.servers_in_turn, 20, 1, recheck, 8, 150),
    Row("servers in turn, one entry often", make.servers_in_turn, 20, 1, recheck_repeated, 1, 150),
    Row("redirected targets", make.redirected_targets, 1_194, 20, targets, 5, 150),
    Row("ladder, recheck", make.ladder, 60, 6, recheck, 6, 150),
    Row("chained servers, ask", make.chained_servers, 1_400, 70, ask, 0.5, 30),
    Row("names of redirections", crossing, 1, 0, classes, 2, 30),
]


def bounded() -> None:
    """Bounds a run."""
    resource.setrlimit(resource.RLIMIT_AS, (MOST_OCTETS, MOST_OCTETS))
    resource.setrlimit(resource.RLIMIT_CPU, (MOST_SECONDS, MOST_SECONDS))


def run(words: List[str]) -> Optional[Taken]:
    """What a run takes, or None where it is ended or ends without its answer."""
    with tempfile.TemporaryFile() as out:
        status, usage = waited(begun(words, out, bounded))
        written = out.seek(0, os.SEEK_END)
    if status not in (0, 1, 4):
        return None
    return Taken(usage.ru_utime + usage.ru_stime, usage.ru_maxrss / 1024, written)


def instructions(words: List[str]) -> int:
    """How many instructions a run takes."""
    counting = ["valgrind", "--tool=none", "--quiet", "/bin/true"]
    if subprocess.run(counting, check=False, stderr=subprocess.DEVNULL).returncode:
        raise SystemExit("bench/growth.py: needs valgrind")
    counting = ["valgrind", "--tool=callgrind", "--callgrind-out-file=/dev/null", *words]
    ended = subprocess.run(counting, stdin=subprocess.DEVNULL, stdout=subprocess.DEVNULL, stderr=subprocess.PIPE, text=True, check=False)
    told = re.search(r"Collected : (\d+)", ended.stderr)
    if not told:
        raise SystemExit(f"{' '.join(words)}: it ended with {ended.returncode}\n{ended.stderr[-400:]}")
    return int(told[1])


def whole(row: Row, programs: Programs) -> None:
    """Prints what a row takes of its whole input."""
    with tempfile.TemporaryDirectory() as folder:
        words = row.words(programs, row.write(row.size, folder))
        taken = run(words)
    if taken is None:
        told = f"more than {MOST_OCTETS >> 30} GiB or {MOST_SECONDS} s"
    else:
        told = f"{taken.cost:.2f} s (at most {row.seconds:g}), {taken.memory:,.0f} MiB (at most {row.memory:,g}), {taken.written / MEBIBYTE:,.2f} MiB written"
    print(f"{row.title:>34} {row.size:>7,}: {told}", flush=True)


def tenth(row: Row, programs: Programs, kept: Dict[str, List[float]]) -> Tuple[List[float], bool]:
    """The instructions and the MiB that a row takes of its small input, and whether they are more than what is kept allows."""
    with tempfile.TemporaryDirectory() as folder:
        words = row.words(programs, row.write(row.small, folder))
        taken = run(words)
        if taken is None:
            raise SystemExit(f"{' '.join(words)}: it ended in another way")
        now = [instructions(words), round(taken.memory, 1)]
    before = kept.get(row.title)
    times = [new / old for new, old in zip(now, before)] if before else []
    told = ", ".join(f"{one:.2f}" for one in times) or "none are kept"
    print(f"{row.title:>34} {row.small:>7,}: {now[0] / 1e6:,.1f} M instructions, {now[1]:.1f} MiB; times those kept: {told}", flush=True)
    return now, not before or times[0] > MOST_TIMES or (times[1] > MOST_TIMES and now[1] - before[1] > MOST_MORE)


def main() -> None:
    words = argparse.ArgumentParser(description=__doc__, formatter_class=argparse.RawDescriptionHelpFormatter)
    words.add_argument("--program", default=GROOT)
    words.add_argument("--map", default=GROOT_MAP)
    words.add_argument("--tenth", action="store_true")
    words.add_argument("--keep", action="store_true")
    words.add_argument("--only", default="")
    given = words.parse_args()
    programs = Programs(program(os.path.abspath(given.program)), program(os.path.abspath(given.map)))
    kept: Dict[str, List[float]] = {}
    if os.path.exists(KEPT):
        with open(KEPT, encoding="utf-8") as file:
            kept = json.load(file)
    slipped = []
    for row in ROWS:
        if given.only not in row.title or (given.tenth and not row.small):
            continue
        if not given.tenth:
            whole(row, programs)
            continue
        now, more = tenth(row, programs, kept)
        if more:
            slipped.append(row.title)
        kept[row.title] = now
    if given.keep:
        with open(KEPT, "w", encoding="utf-8") as into:
            json.dump(kept, into, indent=4)
            into.write("\n")
    elif slipped:
        raise SystemExit(f"bench/growth.py: more than {MOST_TIMES} times what bench/growth.json keeps, or none is kept: {'; '.join(slipped)}")


if __name__ == "__main__":
    main()
