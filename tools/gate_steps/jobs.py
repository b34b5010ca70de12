"""The programs that a script runs beside each other, and what a terminal shows while they run."""
import contextlib
import os
import subprocess
import tempfile
import time
from typing import Dict, IO, Iterator, List, NamedTuple, Sequence

from .children import end
from .terminal import script

BETWEEN = 0.1  # seconds from one look at the programs to the next, if a terminal shows them


class Done(NamedTuple):
    """How a program ended, above 128 by a signal; what it said on the standard error, a line each; and what it printed."""

    status: int
    said: List[str]
    out: IO[bytes]


class Running(NamedTuple):
    """A program that runs, and the files to which it writes."""

    child: "subprocess.Popen[bytes]"
    out: IO[bytes]
    said: IO[bytes]


@contextlib.contextmanager
def outputs(commands: Dict[str, Sequence[str]], folder: str, at_once: int) -> Iterator[Dict[str, Done]]:
    """Runs the programs, so many of them at once, and gives what came of each, by its name. They get no standard input, and what they print
    goes to files without a name in the folder. None of them runs on where this is broken off."""
    with contextlib.ExitStack() as files:
        running: Dict[str, Running] = {}
        done: Dict[str, Done] = {}
        try:
            begun = time.monotonic()
            for name, command in commands.items():
                while len(running) >= at_once:
                    done.update(ended(running, begun))
                running[name] = started(command, folder, files)
            while running:
                done.update(ended(running, begun))
        finally:
            show("")
            for one in running.values():
                end(one.child)
        yield done


def started(command: Sequence[str], folder: str, files: contextlib.ExitStack) -> Running:
    """Starts a program."""
    out = files.enter_context(tempfile.TemporaryFile(dir=folder))
    said = files.enter_context(tempfile.TemporaryFile(dir=folder))
    return Running(subprocess.Popen(command, stdin=subprocess.DEVNULL, stdout=out, stderr=said), out, said)


def ended(running: Dict[str, Running], begun: float) -> Dict[str, Done]:
    """Waits for a while, or until a program ends, and takes out those that ended."""
    if os.isatty(2):
        held = sum(memory(one.child.pid) for one in running.values())
        show(f"{time.monotonic() - begun:.0f} s, {held} MiB: {', '.join(running)}")
        time.sleep(BETWEEN)
    else:
        os.waitid(os.P_ALL, 0, os.WEXITED | os.WNOWAIT)
    found: Dict[str, Done] = {}
    for name, one in list(running.items()):
        status = one.child.poll()
        if status is not None:
            del running[name]
            one.out.seek(0)
            one.said.seek(0)
            said = [line.decode("utf-8", "surrogateescape") for line in one.said.read().splitlines()]
            found[name] = Done(status if status >= 0 else 128 - status, said, one.out)
    return found


def memory(pid: int) -> int:
    """How much memory a program holds, in MiB, as the system says; 0 if it has ended."""
    with contextlib.suppress(OSError, ValueError), open(f"/proc/{pid}/status", encoding="ascii", errors="replace") as file:
        return sum(int(line.split()[1]) for line in file if line.startswith("VmRSS:")) // 1024
    return 0


def show(text: str) -> None:
    """Writes a line on a terminal over the one before; an empty one takes it away. Elsewhere nothing is written."""
    with contextlib.suppress(OSError):
        if os.isatty(2):
            width = os.get_terminal_size(2).columns or 80
            os.write(2, b"\r\x1b[K" + (f"{script()}: {text}"[:width - 1].encode() if text else b""))
