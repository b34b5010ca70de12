#!/usr/bin/env python3
"""Tries ./install in scratch folders: installed.py PROGRAM [MAP [LARGE [PARTS]]].

What it installs runs and reads, and a removal leaves no file, also after an install that failed on the way. No file of others is
replaced. MAP is groot-map; without it, that on the path. LARGE is groot-large, and PARTS groot-parts; without one, PROGRAM
stands in for it. With dpkg and dpkg-deb the Debian package is installed and removed in a
scratch root; with lintian, mandoc, zsh and systemd-analyze it, the manual pages, the completion for zsh and the units are looked
through; what isn't there is said. The status is 0 if all holds.
"""
import gzip
import os
import pathlib
import re
import shutil
import subprocess
import sys
import tempfile
from typing import Dict, List, Optional, Sequence, Union

TOP = pathlib.Path(__file__).resolve().parent.parent
BASH = "bash"
PROGRAMS = ("groot", "groot-map", "groot-large", "groot-parts", "groot-metadata", "groot-gate", "groot-changed", "groot-changes",
            "groot-split", "groot-jobs")
Word = Union[str, pathlib.Path]


def main() -> None:
    """Ends with status 1 if something doesn't hold."""
    program, groot_map = sys.argv[1], sys.argv[2] if len(sys.argv) > 2 else shutil.which("groot-map")
    if not groot_map:
        sys.exit("./install: needs groot-map on the path, or as the second word (./build makes it)")
    large, parts = (sys.argv[place] if len(sys.argv) > place else program for place in (3, 4))
    options = ["--program", program, "--map", groot_map, "--large", large, "--parts", parts]
    with tempfile.TemporaryDirectory() as name:
        scratch = pathlib.Path(name)
        faults = plain(options, scratch / "plain") + staged(options, scratch) + of_others(options, scratch / "others")
        faults += cut_short(options, scratch / "short") + without_map(program, scratch)
        if shutil.which("mandoc"):
            faults += wanted("mandoc finds nothing in the manual pages", ["mandoc", "-T", "lint", "-W", "warning", *pages()])
        else:
            print("the manual pages: not looked through, mandoc isn't installed")
        if not shutil.which("zsh"):
            print("the completion for zsh: its options are compared, and it isn't run, since zsh isn't installed")
        if not shutil.which("systemd-analyze"):
            print("the units of systemd: not looked through, systemd-analyze isn't installed (Debian: systemd)")
        if shutil.which("dpkg-deb") and shutil.which("dpkg"):
            faults += debian(options, scratch / "debian")
        else:
            print("./install --deb: passed over, dpkg isn't installed")
    print("\n".join(faults) or "./install: what it installs runs, and a removal leaves nothing")
    sys.exit(bool(faults))


def wanted(what: str, command: Sequence[Word], status: int = 0, says: str = "", more: Optional[Dict[str, str]] = None) -> List[str]:
    """A line on what doesn't hold, if the command ends with another status, prints to the standard error without a fault, or
    doesn't say there what it should, or has a traceback."""
    try:
        run = subprocess.run([str(word) for word in command], stdin=subprocess.DEVNULL, capture_output=True, text=True, check=False,
                             env={**os.environ, **(more or {})})
    except OSError as fault:
        return [f"{what}: {fault.filename}: {fault.strerror}"]
    holds = run.returncode == status and (status or not run.stderr) and says in run.stderr and "Traceback" not in run.stderr
    return [] if holds else [f"{what}: status {run.returncode}, not {status}\n{run.stdout}{run.stderr}"]


def runs(prefix: pathlib.Path) -> List[str]:
    """Whether what is installed under a prefix runs and reads."""
    helps = [fault for name in PROGRAMS[4:] for fault in wanted(f"{name} gives its help", [prefix / "bin" / name, "--help"])]
    return (
        helps
        + wanted("the program gives its usage", [prefix / "bin/groot"], 2)
        + wanted("groot-map gives its usage", [prefix / "bin/groot-map"], 2)
        + wanted("groot-large gives its usage", [prefix / "bin/groot-large"], 2)
        + wanted("groot-parts gives its usage", [prefix / "bin/groot-parts"], 2)
        + wanted("bash reads the completion", [BASH, "-n", prefix / "share/bash-completion/completions/groot"])
        + [fault for name in PROGRAMS for fault in untold(prefix, name)]
        + completed_in_zsh(prefix)
        + of_the_units(prefix)
        + [f"{name} has another version" for name in PROGRAMS[4:]
           if output([prefix / "bin" / name, "--version"]) != f"{name} {(prefix / 'share/groot/version').read_text()}"]
    )


def pages() -> List[pathlib.Path]:
    """The manual pages of the repository."""
    return sorted((TOP / "docs").glob("*.1"))


def untold(prefix: pathlib.Path, name: str) -> List[str]:
    """A line for each command and option of a program that its manual page or a completion doesn't know."""
    page = manual(prefix, name)
    if not page:
        return [f"no manual page {name}"]
    faults = []
    bash = re.findall(r"[\w-]+", (prefix / "share/bash-completion/completions/groot").read_text())
    zsh = re.findall(r"[\w-]+", zsh_completion(prefix).read_text())
    for word in words_of(prefix, name):
        if word not in bash:
            faults.append(f"{name}: {word} isn't completed in bash")
        if word not in zsh:
            faults.append(f"{name}: {word} isn't completed in zsh")
        told = rf"Fl {re.escape(word[1:])}(?![\w-])" if word.startswith("--") else rf"Cm (?:[a-z| ]*[ |])?{word}(?![\w-])"
        if not re.search(told, page) and name != "groot-large":
            faults.append(f"{name}.1: {word} isn't told")
    return faults


def words_of(prefix: pathlib.Path, name: str) -> List[str]:
    """The commands and options of a program: of a script those of its help, of another program those of its usage line."""
    if name in PROGRAMS[4:]:
        text = output([prefix / "bin" / name, "--help"])
        return sorted(set(re.findall(r"(?<![\w-])--[a-z][a-z-]*", text)))
    usage = subprocess.run([str(prefix / "bin" / name)], stdin=subprocess.DEVNULL, capture_output=True, text=True, check=False).stderr
    if name == "groot-parts" and not usage.startswith("usage: groot-parts "):
        return []  # another program stands in for it
    return sorted(set(re.findall(r"--[a-z]+", usage)) | set(re.findall(rf"(?:usage: {name}(?:-[a-z]+)? |\| )([a-z]+)", usage)))


def manual(prefix: pathlib.Path, name: str) -> str:
    """The text of an installed manual page, or "" if there is none."""
    page = prefix / f"share/man/man1/{name}.1"
    if page.is_file():
        return page.read_text()
    packed = page.with_name(page.name + ".gz")
    return gzip.decompress(packed.read_bytes()).decode() if packed.is_file() else ""


def zsh_completion(prefix: pathlib.Path) -> pathlib.Path:
    """The installed completion for zsh: of a package in the folder of packages."""
    site, vendor = (prefix / f"share/zsh/{folder}/_groot" for folder in ("site-functions", "vendor-completions"))
    return site if site.is_file() else vendor


def completed_in_zsh(prefix: pathlib.Path) -> List[str]:
    """What zsh completes, as its functions are asked for it, if zsh is there."""
    if not shutil.which("zsh"):
        return []
    faults = []
    for service, line, wish in (("groot-map", "groot-map", "servers"), ("groot-parts", "groot-parts", "merge"), ("groot", "groot ask meta", "CAA"), ("groot", "groot check", "--classes"),
                                ("groot-large", "groot-large scope", "metadata"), ("groot-gate", "groot-gate", "--published"),
                                ("groot-metadata", "groot-metadata", "--catalog"), ("groot-changed", "groot-changed", "--since"),
                                ("groot-changes", "groot-changes", "--below"), ("groot-split", "groot-split", "--records"),
                                ("groot-jobs", "groot-jobs", "--engine")):
        command: List[Word] = ["zsh", "-f", TOP / ".ci/completed.zsh", zsh_completion(prefix), service, *line.split()]
        if wish not in output(command):
            faults.append(f"zsh: after `{line}` nothing with {wish} is completed")
        faults += wanted(f"zsh reads the completion for `{line}`", command)
    return faults


def of_the_units(prefix: pathlib.Path) -> List[str]:
    """What systemd finds in the units that are installed, if it is there: also a program that isn't where they say."""
    if not shutil.which("systemd-analyze"):
        return []
    units = [str(path) for path in sorted((prefix / "share/groot/pipelines").glob("groot*.*")) if path.suffix in (".service", ".timer")]
    faults = [] if len(units) == 3 else [f"the units of systemd are {units}"]
    if any(str(prefix) not in pathlib.Path(unit).read_text() for unit in units if unit.endswith("groot.service")):
        return faults  # those of a package speak of /usr, and it is below another folder here
    return faults + [fault for unit in units for fault in wanted(f"systemd takes {unit}", ["systemd-analyze", "--man=no", "verify", unit])]


def checks(prefix: pathlib.Path) -> List[str]:
    """Whether the installed gate finds the installed programs and views, where jq is there."""
    if not shutil.which("jq"):
        print("groot-gate: not run, jq isn't installed")
        return []
    path = {"PATH": f"{prefix / 'bin'}:{os.environ['PATH']}"}
    with tempfile.TemporaryDirectory() as into:
        gate: List[Word] = [prefix / "bin/groot-gate", "--into", into, TOP / "examples/blackhole/metadata.json"]
        return wanted("groot-gate finds the fault of an example", gate, 1, more=path)


def leaves_nothing(folder: pathlib.Path) -> List[str]:
    """Whether no file is left below a folder."""
    left = [str(path) for path in folder.rglob("*") if not path.is_dir()]
    return [f"a removal leaves {', '.join(left)}"] if left else []


def plain(options: List[str], prefix: pathlib.Path) -> List[str]:
    """An install, a second one over it, and a removal."""
    install: List[Word] = [TOP / "install", prefix, *options]
    faults = wanted("an install", install) + wanted("an install over another", install)
    faults += runs(prefix) + checks(prefix) + wanted("a removal", [TOP / "install", "--remove", prefix])
    faults += wanted("an install whose output fails", [BASH, "-c", f'"$@" >{full()}', "-", *install], 1, "the output: No space left on device")
    faults += wanted("an install without output", [BASH, "-c", '"$@" >&-', "-", *install])
    faults += wanted("an install whose output breaks", [BASH, "-c", '{ "$@"; echo "status $?" >&2; } | true; exit 9', "-", *install], 9, "status 1")
    return faults + wanted("a removal after that", [TOP / "install", "--remove", prefix]) + leaves_nothing(prefix)


def full() -> str:
    """The device that is always full."""
    if not pathlib.Path("/dev/full").is_char_device():
        sys.exit("/dev/full is no device here, so nothing that it is for can be tried: make it anew (mknod -m 666 /dev/full c 1 7)")
    return "/dev/full"


def staged(options: List[str], scratch: pathlib.Path) -> List[str]:
    """An install below DESTDIR, whose manual page speaks of the prefix."""
    there = {"DESTDIR": str(scratch / "stage")}
    faults = wanted("an install below DESTDIR", [TOP / "install", "/opt/groot", *options], more=there)
    page = scratch / "stage/opt/groot/share/man/man1/groot.1"
    if not page.is_file() or "/opt/groot/share" not in page.read_text() or str(scratch) in page.read_text():
        faults.append("an install below DESTDIR: its manual page has other paths")
    faults += wanted("a removal below DESTDIR", [TOP / "install", "--remove", "/opt/groot"], more=there)
    return faults + leaves_nothing(scratch / "stage")


def of_others(options: List[str], prefix: pathlib.Path) -> List[str]:
    """A program of others stays, and nothing is installed beside it."""
    program = prefix / "bin/groot"
    program.parent.mkdir(parents=True)
    program.write_text("of others")
    faults = wanted("an install over a program of others", [TOP / "install", prefix, *options], 1, "no ./install wrote it")
    if [path for path in prefix.rglob("*") if path.is_file()] != [program] or program.read_text() != "of others":
        faults.append("an install over a program of others: it writes")
    return faults


def cut_short(options: List[str], prefix: pathlib.Path) -> List[str]:
    """What an install leaves that can write no file above 40 kB, a removal finds."""
    install: List[Word] = [TOP / "install", prefix, *options[2:], "--program", prefix.parent / "large"]
    (prefix.parent / "large").write_bytes(b"x" * 200_000)
    (prefix.parent / "large").chmod(0o755)
    faults = wanted("an install on a full disk", [BASH, "-c", 'ulimit -f 40; exec "$@"', "-", *install], 1, "File too large")
    faults += wanted("a removal after a full disk", [TOP / "install", "--remove", prefix])
    return faults + leaves_nothing(prefix)


def without_map(program: str, scratch: pathlib.Path) -> List[str]:
    """Without groot-map there is no install and no package, unless that is said."""
    without: List[Word] = ["--program", program, "--map", "/nowhere"]
    faults = wanted("an install without groot-map", [TOP / "install", scratch / "none", *without], 1, "--without-map does without")
    faults += wanted("a package without groot-map", [TOP / "install", "--deb", scratch / "none.deb", *without], 1, "/nowhere isn't there")
    faults += [f"without groot-map: {name} is made" for name in ("none", "none.deb") if (scratch / name).exists()]
    install: List[Word] = [TOP / "install", scratch / "none", "--program", program, "--without-map"]
    return faults + wanted("an install without groot-map, on purpose", install)


def debian(options: List[str], root: pathlib.Path) -> List[str]:
    """The Debian package, installed and removed in a scratch root."""
    (root / "db/info").mkdir(parents=True)
    (root / "db/updates").mkdir()
    (root / "db/status").touch()
    tree, file, link = root / "tree", root / "groot.deb", root / "link.deb"
    tree.mkdir()
    link.symlink_to(file)
    dpkg = ["dpkg", f"--instdir={tree}", f"--admindir={root / 'db'}", "--force-not-root", "--force-depends", "--force-bad-path"]
    if pathlib.Path(options[1]).read_bytes()[:4] != b"\x7fELF":
        print("./install --deb: passed over, the program is no ELF file")
        return wanted("a package of a script", [TOP / "install", "--deb", file, *options], 1, "isn't a program of a 64-bit Linux")
    faults = wanted("a package is made where a link leads", [TOP / "install", "--deb", link, *options],
                    more={"DEBFULLNAME": "groot", "DEBEMAIL": "maintainers@groot.example"})
    faults += [] if link.is_symlink() else ["a link is replaced by a package"]
    faults += told(file, options)
    subprocess.run([*dpkg, f"--log={root / 'log'}", "-i", file], stdin=subprocess.DEVNULL, capture_output=True, check=False)
    faults += runs(tree / "usr")
    faults += wanted("the package goes", [*dpkg, f"--log={root / 'log'}", "-r", "groot"])
    return faults + leaves_nothing(tree)


def told(file: pathlib.Path, options: List[str]) -> List[str]:
    """Whether a package says what it is: its version, what it needs of the C library, its copyright and its changes."""
    control = output(["dpkg-deb", "-f", file])
    faults = [] if re.search(r"^Version: [0-9.]+\+[0-9]{14}\.[0-9a-f]+$", control, re.M) else [f"the version of the package:\n{control}"]
    if shutil.which("objdump"):
        used = re.findall(r"GLIBC_([0-9.]+)", "".join(output(["objdump", "-p", path]) for path in options[1::2]))
        highest = max(used, key=lambda number: [int(part) for part in number.split(".")], default="")
        if f"Depends: libc6 (>= {highest})\n" not in control and highest:
            faults.append(f"the package needs another C library than its programs, {highest}:\n{control}")
    else:
        print("./install --deb: what it needs isn't compared, objdump isn't installed (Debian: binutils)")
    if shutil.which("lintian"):
        faults += [f"lintian: {line}" for line in output(["lintian", "--allow-root", file]).splitlines() if line.startswith(("E:", "W:"))]
    else:
        print("./install --deb: not looked through, lintian isn't installed")
    return faults


def output(command: Sequence[Word]) -> str:
    """What a program prints."""
    return subprocess.run([str(word) for word in command], stdin=subprocess.DEVNULL, capture_output=True, text=True, check=False).stdout


if __name__ == "__main__":
    main()
