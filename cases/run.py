#!/usr/bin/env python3
"""Runs groot, groot-large, groot-map and groot-parts on all cases and examples: run.py [--program GROOT] [--large GROOT-LARGE] [--map GROOT-MAP] [--parts GROOT-PARTS] [WORD ..]

It builds each program once, with `rt run` in its crate, unless it is given. With words it runs those cases and
examples alone whose subject is one of them, or whose name has one in it. For each that goes another way than it says, it prints a line and a diff,
and at last the counts. It ends with status 1 where one is wrong, or where none was found. cases/README.md says how a
case is written.
"""
import copy
import difflib
import json
import os
import pathlib
import shlex
import subprocess
import sys
import tempfile

HERE = os.path.dirname(os.path.abspath(__file__))
TOP = os.path.dirname(HERE)
SECONDS = 60


def contents(*path):
    """The octets of a file of the repository."""
    with open(os.path.join(TOP, *path), "rb") as file:
        return file.read()


HEAD = contents("cases", "head.zone")
METADATA = contents("cases", "metadata.json")
USAGE = {"groot": contents("cases", "usage.txt"), "groot_large": contents("cases", "usage-large.txt"), "groot_map": contents("cases", "usage-map.txt"), "groot_parts": contents("cases", "usage-parts.txt")}
PROGRAMS = {"--program": "groot", "--large": "groot_large", "--map": "groot_map", "--parts": "groot_parts"}


class Case:
    """The words and files of a run, and what it must print and end with. With a folder it runs there, over its files."""

    def __init__(self, name):
        self.name = name
        self.program = "groot"
        self.words = ["check", "metadata.json"]
        self.files = {"metadata.json": METADATA, "t.zone": HEAD}
        self.folder = None
        self.output = None
        self.cuts = None
        self.wanted = {}

    def want(self, what, value):
        if what in self.wanted:
            raise SystemExit(f"{self.name}: {what} is said twice")
        self.wanted[what] = value

    def expected(self):
        """Status, out and err: nothing is printed unless it is said, and a line on err is a refusal's."""
        if not self.wanted:
            raise SystemExit(f"{self.name}: it says nothing of what it expects")
        out, err = self.wanted.get("out", b""), self.wanted.get("err", b"")
        return self.wanted.get("status", 3 if err else 0), out, err


def octets(value):
    return value.encode() if isinstance(value, str) else value


def made(text, name):
    """The value of a Python expression over the head of a zone, the metadata that most cases have, and files beside."""
    value = eval(text, {"HEAD": HEAD, "METADATA": METADATA, "beside": lambda file: contents("cases", file)})
    if name == "files":
        return {file: octets(text) for file, text in value.items()}
    return [octets(word) for word in value] if name == "args" else octets(value)


def put(case, key, name, text):
    """Takes a part of a case: its key, what stands behind that on the line, and the lines below."""
    if key == "lines":
        case.files["t.zone"] = HEAD + octets(name + "\n" if name else text)
    elif key == "zone":
        case.files["t.zone"] = octets(text)
    elif key == "metadata":
        case.files["metadata.json"] = octets(name + "\n" if name else text)
    elif key == "file":
        case.files[name] = octets(text)
    elif key == "made" and name == "args":
        case.words = made(text, name)
    elif key == "made" and name == "files":
        case.files.update(made(text, name))
    elif key == "made" and name == "out":
        case.want("out", made(text, name))
    elif key == "made":
        case.files[name] = made(text, name)
    elif key == "without":
        del case.files[name]
    elif key == "cut":
        case.cuts = (name, text)
    elif key == "args":
        case.words = shlex.split(name)
    elif key == "large":
        case.program, case.words = "groot_large", shlex.split(name)
    elif key == "map":
        case.program, case.words = "groot_map", shlex.split(name)
    elif key == "parts":
        case.program, case.words = "groot_parts", shlex.split(name)
    elif key == "output":
        case.output = name
    elif key == "usage":
        case.want("err", USAGE[case.program])
        case.want("status", 2)
    elif key == "status":
        case.want("status", int(name))
    elif key in ("out", "err"):
        case.want(key, octets(name + "\n" if name else text))
    else:
        raise SystemExit(f"{case.name}: no part of a case is called {key}")


def cases_of(path):
    """The cases of a file, in order."""
    subject = os.path.splitext(os.path.basename(path))[0]
    blocks = ("\n" + contents(path).decode()).split("\n== ")
    for block in blocks[1:]:
        title, _, parts = block.rstrip("\n").partition("\n")
        case = Case(f"{subject}/{title.strip()}")
        for part in ("\n" + parts).split("\n-- ")[1:]:
            first, _, text = part.partition("\n")
            key, _, name = first.partition(" ")
            put(case, key, name, text + "\n" if text else "")
        yield from cut(case)


def cut(case):
    """The case, or one for each length to which it cuts a file off, from none to all of its octets."""
    if not case.cuts:
        yield case
        return
    name, text = case.cuts
    whole, length = case.files[name], 0
    for line in text.splitlines():
        lengths, _, said = line.partition(" ")
        first, _, last = lengths.partition("-")
        if int(first) != length:
            raise SystemExit(f"{case.name}: nothing is said of {name} at {length} octets")
        for length in range(length, int(last or first) + 1):
            one = copy.deepcopy(case)
            one.name += f" {length}"
            one.files[name] = whole[:length]
            one.want(*cut_off(said))
            yield one
        length += 1
    if length != len(whole) + 1:
        raise SystemExit(f"{case.name}: nothing is said of {name} at {length} octets")


def cut_off(said):
    """What a case wants of a file that was cut off: a report without faults with so many names, or a line on err."""
    word, _, count = said.partition(" ")
    if word != "names":
        return "err", octets(said + "\n")
    return "out", octets(f'{{"classes":{2 * int(count)},"faults":[],"names":{count},"rewrites":12}}\n')


def example(name):
    """An example: its report, what checks find, what it says on out or on err, and its status, where it isn't the one of the report."""
    folder = os.path.join("examples", name)
    case = Case(folder)
    case.folder = os.path.join(TOP, folder)
    beside = lambda file: os.path.exists(os.path.join(case.folder, file))
    if beside("args"):
        case.words = contents(folder, "args").decode().splitlines()
    if beside("report.json"):
        report = contents(folder, "report.json")
        case.want("out", report)
        case.want("status", 0 if b'"faults":[]' in report else 1)
    if beside("findings.json"):
        case.want("out", contents(folder, "findings.json"))
    if beside("out"):
        case.want("out", contents(folder, "out"))
    if beside("err"):
        case.want("err", contents(folder, "err"))
    if beside("status"):
        case.wanted["status"] = int(contents(folder, "status"))
    return case


def rechecked(name):
    """The report of an example is right, entry by entry."""
    folder = os.path.join("examples", name)
    if not os.path.exists(os.path.join(TOP, folder, "report.json")):
        return
    case = Case(f"{folder} rechecked")
    case.folder = os.path.join(TOP, folder)
    case.words = ["recheck", "metadata.json", "report.json"]
    entries = len(json.loads(contents(folder, "report.json"))["faults"])
    case.want("out", octets(f"recheck: entries {entries}, right\n"))
    yield case


def mapped(name):
    """What groot-map says of an example: the words behind it, what it prints and its status."""
    folder = os.path.join("examples", name)
    if not os.path.exists(os.path.join(TOP, folder, "map")):
        return
    case = Case(f"{folder} mapped")
    case.folder = os.path.join(TOP, folder)
    case.program, case.words = "groot_map", contents(folder, "map").decode().splitlines()
    case.want("out", contents(folder, "map-out"))
    case.want("status", int(contents(folder, "map-status")))
    yield case


def all_cases():
    for name in sorted(os.listdir(HERE)):
        if name.endswith(".cases"):
            yield from cases_of(os.path.join("cases", name))
    for name in sorted(os.listdir(os.path.join(TOP, "examples"))):
        if os.path.isdir(os.path.join(TOP, "examples", name)):
            yield example(name)
            yield from rechecked(name)
            yield from mapped(name)


def is_asked_for(case, words):
    subject, _, name = case.name.partition("/")
    return not words or any(word == subject or word in name for word in words)


def lay(case, folder):
    """Puts the files of a case into a folder."""
    for name, text in case.files.items():
        path = os.path.join(folder, name)
        os.makedirs(os.path.dirname(path), exist_ok=True)
        with open(path, "wb") as file:
            file.write(text)


def run_in(folder, program, case):
    """Status, out and err of the program in a folder."""
    out = open(case.output, "wb") if case.output else subprocess.PIPE
    ended = subprocess.run([program, *case.words], cwd=folder, stdin=subprocess.DEVNULL, stdout=out, stderr=subprocess.PIPE, timeout=SECONDS)
    return ended.returncode, ended.stdout or b"", ended.stderr


def run(program, case):
    if case.folder:
        return run_in(case.folder, program, case)
    with tempfile.TemporaryDirectory() as folder:
        lay(case, folder)
        return run_in(folder, program, case)


def differences(expected, got):
    """A line for each way in which a run differs from what is expected of it."""
    lines = [] if expected[0] == got[0] else [f"status {got[0]} where {expected[0]} is right"]
    for what, right, own in zip(("out", "err"), expected[1:], got[1:]):
        right, own = (text.decode(errors="backslashreplace").splitlines(keepends=True) for text in (right, own))
        for line in difflib.unified_diff(right, own, f"{what} expected", what, n=1):
            lines.append(line if line.endswith("\n") else line + "\n\\ no line feed at its end")
    return [line.rstrip("\n")[:2000] for line in lines]


def ways_it_is_wrong(program, case):
    """A line for each way in which a run of the program goes another way than the case says."""
    try:
        return differences(case.expected(), run(program, case))
    except subprocess.TimeoutExpired:
        return [f"it didn't end within {SECONDS} seconds"]


def check_the_checker():
    """A case that is made wrong in its status, on out or on err is told."""
    right = (1, b"a\n", b"b\n")
    wrong = [(0, b"a\n", b"b\n"), (1, b"a", b"b\n"), (1, b"", b"b\n"), (1, b"a\n", b"c\n"), (1, b"a\n", b"b\nb\n")]
    if differences(right, right) or not all(differences(right, other) for other in wrong):
        raise SystemExit("run.py: it doesn't tell a wrong case")


def build(name):
    """Proves and builds a program, and gives its path. Run without words it prints its usage line."""
    crate = os.path.join(TOP, "crates", name)
    built = os.path.join(crate, "out", name)
    ended = subprocess.run(["rt", "run"], cwd=crate, stdin=subprocess.DEVNULL, capture_output=True)
    if USAGE[name] not in ended.stderr or not os.access(built, os.X_OK):
        sys.stdout.write((ended.stdout + ended.stderr).decode(errors="replace")[-3000:])
        raise SystemExit(f"run.py: {name} isn't built")
    return built


def check_devices(cases):
    """Refuses to run cases that write to a device which a file has replaced."""
    for output in sorted({case.output for case in cases if case.output}):
        if output.startswith("/dev/") and not pathlib.Path(output).is_char_device():
            raise SystemExit(f"{output} is no device here, so the cases that write to it say nothing: make it anew (mknod)")


def main(words):
    check_the_checker()
    programs = {}
    while len(words) > 1 and words[0] in PROGRAMS:
        programs[PROGRAMS[words[0]]] = os.path.abspath(words[1])
        words = words[2:]
    cases = [case for case in all_cases() if is_asked_for(case, words)]
    for name in sorted({case.program for case in cases} - set(programs)):
        programs[name] = build(name)
    names = [case.name for case in cases]
    wrong = len(names) - len(set(names))
    if wrong:
        print(f"two cases have one name: {sorted(name for name in set(names) if names.count(name) > 1)}")
    check_devices(cases)
    for case in cases:
        lines = ways_it_is_wrong(programs[case.program], case)
        if lines:
            wrong += 1
            print(f"WRONG {case.name}: {shlex.join(os.fsdecode(word) for word in case.words)}")
            print("".join(f"    {line}\n" for line in lines), end="")
    print(f"cases and examples: {len(cases) - wrong} right, {wrong} wrong")
    return 0 if cases and not wrong else 1


if __name__ == "__main__":
    sys.exit(main(sys.argv[1:]))
