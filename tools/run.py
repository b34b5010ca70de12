#!/usr/bin/env python3
"""Runs tools/metadata over tools/cases, with the servers' own tools where they are installed.

  tools/run.py [--need-all] [WORD ..]

With WORDs, the cases alone whose path has one of them. A folder of cases whose tools aren't installed is passed over, with a
line that says so; with --need-all that is a failure. A case is a file of parts:

  == args WORDS       the words of the command line, as a shell reads them
  == file PATH        a file of the case; @HERE@ stands for the folder of the case, here and below, @PORT@, @OTHER@ and @THIRD@ for
                      ports that are free, and @METADATA@ for the script; programs in bin/ come first on the path
  == serve            lines for a shell that runs servers, which are ended after the case
  == run              lines for a shell, which make other files before, and may wait for the servers
  == out              the standard output, which is empty if this part is missing
  == err              the standard error, in which a line of three dots stands for any lines
  == written PATH     the lines of a file that was written, in which blanks are told apart by their places alone
  == then             lines for a shell that must succeed afterwards
  == status N         the exit status, 0 if this part is missing
"""
import argparse
import concurrent.futures
import contextlib
import glob
import os
import re
import shlex
import shutil
import signal
import socket
import subprocess
import sys
import tempfile
from typing import Dict, Iterator, List, Optional, Tuple

TOOLS = os.path.dirname(os.path.abspath(__file__))
CASES = os.path.join(TOOLS, "cases")
METADATA = os.path.join(TOOLS, "metadata")
BIND, NSD, KNOT, MAP = ["named-checkconf", "named-compilezone"], ["nsd-checkconf"], ["knotc"], "groot-map"
PDNS_BIND = "pdns/libbindbackend.so"
SERVED = BIND + ["named", "dig", "nsupdate", "rndc"]
NEEDED: Dict[str, List[str]] = {
    "above": [], "folders": [], "printed": [], "whole": [],
    "bind": BIND, "nsd": NSD, "knot": KNOT, "several": BIND + NSD + KNOT, "plain": BIND + ["named-rrchecker"],
    "served_bind": SERVED, "served_knot": KNOT + ["knotd", "dig"], "transfers": SERVED, "powerdns": ["pdnsutil", PDNS_BIND],
    "served_others": ["nsd", "knotd", "pdns_server", PDNS_BIND, "dig", "named-compilezone"],
    "mapped": [f"{MAP} records"], "reached": [f"{MAP} reached"],
}
PACKAGES = {
    "bind9": ["named", "named-rrchecker"], "bind9-utils": ["named-checkconf", "named-compilezone", "rndc"],
    "bind9-dnsutils": ["dig", "nsupdate"], "nsd": NSD + ["nsd"], "knot": ["knotc", "knotd"], "pdns-server": ["pdnsutil", "pdns_server"],
    "pdns-backend-bind": [PDNS_BIND],
}
SOURCES = {**{tool: f"Debian: {package}" for package, tools in PACKAGES.items() for tool in tools},
           f"{MAP} records": "a program of this repository", f"{MAP} reached": "a program of this repository"}
SECONDS = 120

# The title of a part of a case, the rest of its line, and the lines below it.
Part = Tuple[str, str, str]


def main() -> None:
    """Ends with status 1 if a case doesn't hold, or with --need-all if one isn't run."""
    parser = argparse.ArgumentParser(description=str(__doc__).split("\n", maxsplit=1)[0])
    parser.add_argument("--need-all", action="store_true", help="fail where a tool isn't installed")
    parser.add_argument("words", nargs="*", metavar="WORD")
    line = parser.parse_args()
    os.environ["PATH"] += ":/usr/sbin:/sbin"
    failed = False
    for folder in sorted(os.listdir(CASES)):
        missing = [tool for tool in NEEDED[folder] if not is_there(*tool.split())]
        if missing:
            sources = "; ".join(sorted({SOURCES[tool] for tool in missing}))
            print(f"tools/cases/{folder}: not run, not on the path: {', '.join(missing)} ({sources})")
            failed |= line.need_all
            continue
        paths = [os.path.join(folder, name) for name in sorted(os.listdir(os.path.join(CASES, folder)))]
        chosen = [path for path in paths if not line.words or any(word in path for word in line.words)]
        with concurrent.futures.ThreadPoolExecutor(max_workers=os.cpu_count()) as pool:
            faults = [fault for found in pool.map(lambda path: list(differences(path)), chosen) for fault in found]
        print("\n".join(faults + [f"tools/cases/{folder}: {len(chosen)} cases" + (", which don't all hold" if faults else "")]))
        failed |= bool(faults)
    sys.exit(int(failed))


def is_there(tool: str, word: str = "") -> bool:
    """Whether a tool is on the path, and its usage line has the word; a name with a slash is that of a library."""
    if "/" in tool:
        return bool(glob.glob(f"/usr/lib/{tool}") + glob.glob(f"/usr/lib/*/{tool}"))
    if not shutil.which(tool):
        return False
    return not word or word in subprocess.run([tool], capture_output=True, text=True, check=False).stderr.split()


def differences(path: str) -> Iterator[str]:
    """Runs one case, and gives a line for each thing in which it isn't as it has to be."""
    with contextlib.ExitStack() as stack:
        here = os.path.realpath(tempfile.mkdtemp())
        # a server that ends may still write into it
        stack.callback(shutil.rmtree, here, ignore_errors=True)
        parts = parts_of(filled(path, here))
        environment = {**os.environ, "PATH": path_of(os.path.dirname(path), here)}
        try:
            prepare(here, parts, environment, stack)
        except (subprocess.CalledProcessError, subprocess.TimeoutExpired) as fault:
            yield f"{path}: what comes before the run failed: {fault}"
            return
        words = shlex.split(next(rest for title, rest, _ in parts if title == "args"))
        run = subprocess.run([sys.executable, METADATA, *words], cwd=here, env=environment, capture_output=True, text=True,
                             errors="surrogateescape", check=False)
        told = {title: text for title, _, text in parts}
        status = next((int(rest) for title, rest, _ in parts if title == "status"), 0)
        if run.returncode != status:
            yield f"{path}: status {run.returncode}, not {status}"
        if run.stdout != told.get("out", ""):
            yield f"{path}: the output is\n{run.stdout}"
        if not fits(run.stderr, told.get("err", "")):
            yield f"{path}: the standard error is\n{run.stderr.replace(here, '@HERE@')}"
        if any(name.startswith(".") for name in os.listdir(here)):
            yield f"{path}: a file that was made for a while is left"
        yield from after(path, here, parts, environment)


def after(path: str, here: str, parts: List[Part], environment: Dict[str, str]) -> Iterator[str]:
    """Lines on what a run left that isn't as it has to be."""
    for title, name, text in parts:
        if title == "written" and by_words(os.path.join(here, name)) != [line.split() for line in text.splitlines()]:
            yield f"{path}: {name} differs, or isn't there"
        elif title == "then":
            run = subprocess.run(["sh", "-e", "-c", text], cwd=here, env=environment, capture_output=True, text=True, check=False,
                                 timeout=SECONDS)
            if run.returncode:
                yield f"{path}: what comes after the run ends with status {run.returncode}\n{run.stdout}{run.stderr}"


def filled(path: str, here: str) -> str:
    """The text of a case, with what stands for its folder, free ports, and the script."""
    with open(os.path.join(CASES, path), encoding="utf-8") as file:
        text = file.read()
    values = {"@HERE@": here, "@METADATA@": shlex.join([sys.executable, METADATA])}
    with contextlib.ExitStack() as stack:
        for word in ("@PORT@", "@OTHER@", "@THIRD@"):
            held = stack.enter_context(socket.socket())
            held.bind(("127.0.0.1", 0))
            values[word] = str(held.getsockname()[1])
    return re.sub("|".join(values), lambda found: values[found[0]], text)


def path_of(folder: str, here: str) -> str:
    """The path on which a case finds programs: without groot-map, unless its folder is for that or the case brings one."""
    found = os.environ["PATH"].split(":")
    if not any(tool.startswith(MAP) for tool in NEEDED[folder]):
        found = [place for place in found if not os.path.exists(os.path.join(place, MAP))]
    return ":".join([os.path.join(here, "bin"), *found])


def parts_of(text: str) -> List[Part]:
    """The parts of a case, each as its title, the rest of its line, and the lines below it."""
    found = re.findall(r"^== (\w+) ?(.*)\n((?:(?!== ).*\n)*)", text, re.M)
    return [(title, rest, body) for title, rest, body in found]


def prepare(here: str, parts: List[Part], environment: Dict[str, str], stack: contextlib.ExitStack) -> None:
    """Writes the files of a case, starts its servers, and runs what makes other files."""
    for title, name, text in parts:
        path = os.path.join(here, name)
        if title == "file":
            os.makedirs(os.path.dirname(path), exist_ok=True)
            with open(path, "w", encoding="utf-8") as file:
                file.write(text)
        elif title == "serve":
            server = subprocess.Popen(["sh", "-e", "-c", text], cwd=here, env=environment, start_new_session=True,
                                      stdin=subprocess.DEVNULL, stdout=subprocess.DEVNULL, stderr=subprocess.DEVNULL)
            stack.callback(ended, server)
        elif title == "run":
            subprocess.run(["sh", "-e", "-c", text], cwd=here, env=environment, check=True, stdout=subprocess.DEVNULL,
                           timeout=SECONDS)


def ended(server: "subprocess.Popen[bytes]") -> None:
    """Ends servers that a case started: the processes of their own session."""
    for number in (signal.SIGTERM, signal.SIGKILL):
        with contextlib.suppress(ProcessLookupError):
            os.killpg(server.pid, number)
        with contextlib.suppress(subprocess.TimeoutExpired):
            server.wait(timeout=10)
            return


def fits(said: str, wanted: str) -> bool:
    """Whether what was said is what is wanted, where a line of three dots stands for any lines."""
    form = "".join("(?:.*\n)*" if line == "..." else re.escape(line + "\n") for line in wanted.splitlines())
    return re.fullmatch(form, said) is not None


def by_words(path: str) -> Optional[List[List[str]]]:
    """The words of each line of a file, or None where it can't be read."""
    try:
        with open(path, encoding="utf-8") as file:
            return [line.split() for line in file]
    except OSError:
        return None


if __name__ == "__main__":
    main()
