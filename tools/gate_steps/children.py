"""The programs that a script runs: they get no standard input, and end where the script is told to end."""
import os
import shutil
import signal
import subprocess
import tempfile
from types import FrameType
from typing import IO, List, NoReturn, Optional, Sequence, Tuple

PATIENCE = 5  # seconds for a program that is told to end


class Ended(Exception):
    """The status with which a script ends before its time, and why, in a line."""

    def __init__(self, status: int, why: str) -> None:
        super().__init__(status, why)
        self.status, self.why = status, why


class Stopped(BaseException):
    """A signal told the script to end."""

    def __init__(self, number: int) -> None:
        super().__init__(number)
        self.number = number


def stop_by_signals() -> None:
    """From now on a signal to end is a Stopped, so that what is under way is taken back."""
    for number in (signal.SIGINT, signal.SIGTERM, signal.SIGHUP):
        if signal.getsignal(number) is not signal.SIG_IGN:
            signal.signal(number, stopped)


def stopped(number: int, _frame: Optional[FrameType]) -> NoReturn:
    """Breaks off what is under way."""
    raise Stopped(number)


def end_by(number: int) -> NoReturn:
    """Ends the script by a signal, as if it had not been taken."""
    signal.signal(number, signal.SIG_DFL)
    os.kill(os.getpid(), number)
    raise SystemExit(128 + number)


def is_there(program: str) -> bool:
    """Whether a program is on the path."""
    return shutil.which(program) is not None


def run(command: Sequence[str], out: Optional[IO[bytes]] = None) -> Tuple[int, List[str]]:
    """Runs a program, and returns its status and the lines that it wrote on the standard error. Its output goes to the file,
    if there is one. The status of one that a signal ended is above 128."""
    with tempfile.TemporaryFile() as said:
        with subprocess.Popen(command, stdin=subprocess.DEVNULL, stdout=out or subprocess.DEVNULL, stderr=said) as child:
            try:
                status = child.wait()
            except BaseException:
                end(child)
                raise
        said.seek(0)
        lines = [line.decode("utf-8", "surrogateescape") for line in said.read().splitlines()]
    return (status if status >= 0 else 128 - status), lines


def how_it_ended(status: int) -> str:
    """The status of a program in words."""
    return f"was ended by signal {status - 128}" if status > 128 else f"ended with status {status}"


def end(child: "subprocess.Popen[bytes]") -> None:
    """Ends a program: it is asked first."""
    child.terminate()
    try:
        child.wait(PATIENCE)
    except subprocess.TimeoutExpired:
        child.kill()
