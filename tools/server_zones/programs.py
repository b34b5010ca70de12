"""What the servers' tools print."""
import os
import shlex
import subprocess
from typing import List, Tuple

from .held import NoMetadata

SYSTEM_PATH = ":/usr/sbin:/sbin"


def output_of(command: List[str], who: str) -> str:
    """What a tool prints, as text in which no octet is lost. Where it fails, or can't be run, NoMetadata says so."""
    return os.fsdecode(octets_of(command, who))


def octets_of(command: List[str], who: str) -> bytes:
    """What a tool prints. Where it fails, or can't be run, NoMetadata says so."""
    return both_of(command, who)[0]


def both_of(command: List[str], who: str) -> Tuple[bytes, str]:
    """What a tool prints, and what it says on its standard error; it gets no input. Where it fails, or can't be run, NoMetadata
    says so, with the tool's own lines."""
    environment = {**os.environ, "PATH": os.environ.get("PATH", "") + SYSTEM_PATH}
    try:
        run = subprocess.run(command, stdin=subprocess.DEVNULL, stdout=subprocess.PIPE, stderr=subprocess.PIPE, check=False,
                             env=environment)
    except FileNotFoundError:
        raise NoMetadata(f"{who}: {command[0]} isn't installed") from None
    except OSError as fault:
        raise NoMetadata(f"{who}: {command[0]} can't be run: {fault.strerror}") from None
    if run.returncode:
        raise NoMetadata(f"{who}: {shlex.join(command)}: {ended(run.returncode)}", os.fsdecode(run.stderr or run.stdout).strip())
    return run.stdout, os.fsdecode(run.stderr)


def ended(status: int) -> str:
    """How a program ended."""
    return f"status {status}" if status > 0 else f"ended by signal {-status}"
