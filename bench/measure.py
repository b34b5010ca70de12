"""What the scripts here share: the built program, runs that are measured, and programs that are proved and built in a
scratch folder."""
import ctypes
import json
import os
import re
import shutil
import signal
import subprocess
import tempfile
import threading
import time
from typing import NamedTuple

HERE = os.path.dirname(os.path.abspath(__file__))
TOP = os.path.dirname(HERE)
GROOT = os.path.join(TOP, "crates", "groot", "out", "groot")
MEBIBYTE = 1 << 20
RUNS = 5
SECONDS = 1800
PR_SET_CHILD_SUBREAPER = 36  # of prctl(2)


class Taken(NamedTuple):
    """What a run takes: processor seconds, seconds by the clock, and MiB at its peak."""

    processor: float
    clock: float
    memory: float


def program(path):
    """The path of the built program; it ends where there is none."""
    if not os.access(path, os.X_OK):
        raise SystemExit(f"no program at {path}; cases/run.py builds it")
    return path


def begun(words, out=subprocess.DEVNULL, bound=None):
    """The number of a process that runs the words, for which this script can wait. A small shell begins it and ends: begun by
    this script it would be its copy at first, and its peak would be that of the script. It runs once the shell has ended.
    `bound` is called in the shell before."""
    ctypes.CDLL(None).prctl(PR_SET_CHILD_SUBREAPER, 1, 0, 0, 0)
    shell = ["sh", "-c", 'exec 3<&0; { read -r _; exec "$@" </dev/null 3<&-; } <&3 2>/dev/null & echo $! >&2', "sh", *words]
    ready, tell = os.pipe()
    with os.fdopen(ready), os.fdopen(tell, "w") as go:
        told = subprocess.run(shell, stdin=ready, stdout=out, stderr=subprocess.PIPE, preexec_fn=bound, check=True)
        go.write("\n")
    return int(told.stderr)


def waited(process):
    """How a process ended, and what it used."""
    _, status, usage = os.wait4(process, 0)
    return os.waitstatus_to_exitcode(status), usage


def measured(words, statuses=(0,), runs=RUNS):
    """The least that some runs take, or None where one of them ends with another status, or not within half an hour."""
    best = None
    for _ in range(runs):
        start = time.monotonic()
        process = begun(words)
        end = threading.Timer(SECONDS, os.kill, (process, signal.SIGKILL))
        end.start()
        status, usage = waited(process)
        end.cancel()
        clock = time.monotonic() - start
        if status not in statuses:
            return None
        now = Taken(usage.ru_utime + usage.ru_stime, clock, usage.ru_maxrss / 1024)
        best = now if best is None else Taken(*map(min, best, now))
    return best


def taken(words):
    """What runs of a program take that ends with status 0, as each of them must."""
    best = measured(words)
    if best is None:
        raise SystemExit(f"{' '.join(words)}: it ended with another status than 0")
    return best


def stock_checkers(origin, path):
    """Each stock checker of master files that is installed, with its words for the zone of a file; none where there is no origin."""
    checkers = [
        ("kzonecheck", ["kzonecheck", "-o", origin, path]),
        ("nsd-checkzone", ["nsd-checkzone", origin, path]),
        ("named-checkzone", ["named-checkzone", "-i", "none", origin, path]),
    ]
    return [one for one in checkers if origin and shutil.which(one[0])]


def ratio(own, other):
    """How many times as much, of what may be nothing."""
    return own / max(other, 1e-3)


def metadata(folder, rows, *tops):
    """The name of a metadata file of these rows, which is written to the folder, with these top servers."""
    path = os.path.join(folder, "m.json")
    with open(path, "w") as into:
        json.dump({"TopNameServers": tops, "ZoneFiles": rows}, into)
    return path


def write(path, text):
    """Writes a file, and the folders that it stands in."""
    os.makedirs(os.path.dirname(path), exist_ok=True)
    with open(path, "w", encoding="utf-8") as into:
        into.write(text)


def text(*parts):
    """The text of a file."""
    with open(os.path.join(*parts), encoding="utf-8") as of:
        return of.read()


def make_scratch(scratch, crates, programs, depends):
    """Copies crates into a folder, beside programs on some of them; the text of each is a file of one of the folders here."""
    for crate in crates:
        shutil.copytree(os.path.join(TOP, "crates", crate), os.path.join(scratch, "crates", crate), ignore=shutil.ignore_patterns("out"))
    shutil.copy(os.path.join(TOP, "HANDLES"), scratch)
    lines = [line for line in text(TOP, "crates.txt").splitlines() if line.split(":")[0] in crates]
    write(os.path.join(scratch, "crates.txt"), "\n".join([*lines, *(f"{name}: {depends}" for name in programs), ""]))
    for name, folder in programs.items():
        own = os.path.join(scratch, "crates", name)
        write(os.path.join(own, "src", "main.rt"), text(HERE, folder, f"{name}.txt"))
        write(os.path.join(own, "stdin"), "")
        write(os.path.join(own, "stdout"), "")


def build(scratch, name):
    """Proves and builds a program, and gives its path. Run without words it does nothing."""
    folder = os.path.join(scratch, "crates", name)
    ended = subprocess.run(["rt", "run"], cwd=folder, capture_output=True, text=True)
    if ended.returncode:
        raise SystemExit(ended.stdout[-2000:] + ended.stderr[-2000:])
    return os.path.join(folder, "out", name)


def with_program(path, name, crates, depends, measure):
    """Measures the program of a path, or where there is none that of a name, which is built beside crates."""
    if path:
        return measure(path)
    with tempfile.TemporaryDirectory() as scratch:
        make_scratch(scratch, crates, {name: name}, depends)
        measure(build(scratch, name))


def printed(words):
    """The words that a run prints."""
    return subprocess.run(words, capture_output=True, text=True, check=True).stdout.split()


def allocations(words):
    """How many allocations a run makes, as valgrind counts them."""
    ended = subprocess.run(["valgrind", *words], capture_output=True, text=True)
    return int(re.search(r"total heap usage: ([0-9,]+) allocs", ended.stderr).group(1).replace(",", ""))
