#!/usr/bin/env python3
"""Tries the mutants: wrong bodies that the prover must refuse and that the gate doesn't try each time.

mutants/run.py [NAME ..]     tries those of these crates, or of all that have some
mutants/run.py --fits        only looks whether each mutant can be put in; proves nothing

A mutant is a file mutants/NAME/the_bug.edit in the form of a must-fail edit (CONTRIBUTING.md). The script copies the
repository, puts the mutants in the place of the crates' own must-fail edits, and has `rt must-fail` try them there. What
`rt check` and ./build kept of the crates is used; a crate without it is proved first. The status is 0 if each mutant was
refused, 1 if one wasn't or couldn't be put in, and 2 for a faulty command line.
"""
import os
import pathlib
import re
import shutil
import subprocess
import sys
import tempfile
import time

TOP = pathlib.Path(__file__).resolve().parent.parent
MUTANTS = TOP / "mutants"


def crates_with_mutants():
    return sorted(folder.name for folder in MUTANTS.iterdir() if any(folder.glob("*.edit")))


def changed_files(edit, crate):
    """Yields each (file, old text, new text) of an edit, in order."""
    path = old = None
    for line in edit.read_text(encoding="utf-8").split("\n"):
        if line.startswith("file: "):
            path = crate / line[len("file: "):].strip()
        elif line.startswith("old: "):
            old = line[len("old: "):]
        elif line.startswith("new:"):
            yield path, old, line[len("new:"):].removeprefix(" ")


def why_it_does_not_fit(edit, crate):
    """Says why an edit can't be put into a crate, or returns None."""
    texts = {}
    for path, old, new in changed_files(edit, crate):
        if not path or not old:
            return "a 'new:' line stands before any 'file:' or 'old:' line"
        if not path.is_file():
            return f"there is no file {path.relative_to(TOP)}"
        text = texts.get(path, path.read_text(encoding="utf-8"))
        if text.count(old) != 1:
            return f"its 'old:' text stands {text.count(old)} times in {path.relative_to(TOP)}"
        texts[path] = text.replace(old, new)
    if all(path.read_text(encoding="utf-8") == text for path, text in texts.items()):
        return "it changes nothing"
    return None


def fit():
    """Looks whether each mutant and each must-fail edit can be put in."""
    bad = number = 0
    for edit in sorted([*MUTANTS.glob("*/*.edit"), *TOP.glob("crates/*/must-fail/*.edit")]):
        name = edit.relative_to(TOP).parts[1]
        number += 1
        why = why_it_does_not_fit(edit, TOP / "crates" / name)
        if why:
            bad += 1
            print(f"{edit.relative_to(TOP)}: {why}")
    print(f"edits: {number} looked at, {bad} that can't be put in")
    return 1 if bad else 0


def link_or_copy(source, target):
    """Kept work is linked where it can be: a check replaces such files and changes none."""
    try:
        os.link(source, target)
    except OSError:
        shutil.copy2(source, target)


def copy_with_mutants(room, names):
    """Copies the repository to a folder, with the mutants of these crates as the only edits."""
    for part in ("crates.txt", "HANDLES"):
        shutil.copy2(TOP / part, room / part)
    for crate in sorted((TOP / "crates").iterdir()):
        to = room / "crates" / crate.name
        shutil.copytree(crate, to, ignore=shutil.ignore_patterns("must-fail", "out"))
        if (crate / "out").is_dir():
            shutil.copytree(crate / "out", to / "out", copy_function=link_or_copy, symlinks=True)
        if crate.name in names:
            shutil.copytree(MUTANTS / crate.name, to / "must-fail")


def try_them(names):
    began = time.monotonic()
    with tempfile.TemporaryDirectory(prefix="mutants-") as folder:
        copy_with_mutants(pathlib.Path(folder), names)
        ran = subprocess.Popen(
            ["rt", "must-fail", *names], cwd=folder, stdin=subprocess.DEVNULL, stdout=subprocess.PIPE, stderr=subprocess.STDOUT, text=True, errors="replace"
        )
        refused = 0
        for line in ran.stdout:
            refused += bool(re.search(r"must-fail \S+: refused, as it must be", line))
            print(line, end="", flush=True)
        status = ran.wait()
    number = sum(len(list((MUTANTS / name).glob("*.edit"))) for name in names)
    minutes = (time.monotonic() - began) / 60
    print(f"mutants: {number} of {len(names)} crates, {refused} refused in this run, {minutes:.0f} minutes")
    return 1 if status or refused < number else 0


def main(words):
    if words == ["--fits"]:
        return fit()
    known = crates_with_mutants()
    odd = [word for word in words if word not in known]
    if odd:
        print(f"mutants/run.py: no mutants of {odd[0]}; there are some of {' '.join(known)}", file=sys.stderr)
        return 2
    return try_them(words or known)


if __name__ == "__main__":
    sys.exit(main(sys.argv[1:]))
