#!/usr/bin/env python3
"""Counts the pages that people read.

A page has at most so many words, CHANGELOG.md for each version, and none but docs/DEFINITIONS.md has a sentence of more than
36 words. Links between pages lead to files and headings that are there. The table of docs/ARCHITECTURE.md has the crates of
crates.txt, and each manual page the version of CHANGELOG.md. A line names each fault, and the status is 1 if there is one.
"""
import pathlib
import re
import sys

TOP = pathlib.Path(__file__).resolve().parent.parent
MOST_WORDS = {
    "README.md": 1800,
    "docs/BELIEVE.md": 700,
    "docs/ARCHITECTURE.md": 2500,
    "docs/PROGRAMS.md": 1300,
    "docs/PROMISES.md": 4370,
    "docs/WORDS.md": 1600,
    "docs/CHANGES.md": 1000,
    "CONTRIBUTING.md": 2000,
    "CHANGELOG.md": 600,
}
SHORT_SENTENCES = ["README.md", "CONTRIBUTING.md", "CHANGELOG.md", "bench/RESULTS.md", "cases/README.md", "examples/README.md", *(f"docs/{page}.md" for page in (
    "ARCHITECTURE", "BELIEVE", "CHANGES", "CLAIMS", "COMMANDS", "CONTRACTS", "DECISIONS", "FORMATS", "METADATA", "PARTS",
    "PIPELINES", "PROGRAMS", "PROMISES", "SITE", "TRUST", "VIEWS", "WORDS"))]
MOST_IN_A_SENTENCE = 36
ROW = re.compile(r"^\| ([\w ]*) \| \[(\w+)\]\(\.\./crates/(\w+)\) \|", re.M)


def main():
    faults = [] if crates_told() == crates() else ["docs/ARCHITECTURE.md: its table has other crates than crates.txt, or in another order"]
    for name, most in MOST_WORDS.items():
        number = max(len(part.split()) for part in parts(name, (TOP / name).read_text()))
        if number > most:
            faults.append(f"{name}: {number} words, more than {most}")
    for name in SHORT_SENTENCES:
        faults += [f"{name}: {len(it.split())} words in a sentence: {it[:60]} .." for it in sentences((TOP / name).read_text())
                   if len(it.split()) > MOST_IN_A_SENTENCE]
    for path in [*TOP.glob("*.md"), *TOP.glob("docs/*.md"), *TOP.glob("bench/*.md"), *TOP.glob("cases/*.md"), *TOP.glob("examples/*.md")]:
        faults += [f"{path.relative_to(TOP)}: no {link}" for link in links(path.read_text()) if not leads(path, link)]
    for page in sorted(TOP.glob("docs/*.1")):
        if version("CHANGELOG.md", r"^## \[(\d[\d.]*)\]") != version(page, r"^This is the page of version (.*)\.$"):
            faults.append(f"docs/{page.name}: its version isn't that of CHANGELOG.md")
    print("\n".join(faults) or "pages: as long as they may be")
    return int(bool(faults))


def crates():
    """The crates by group, as crates.txt has them."""
    found, group = [], ""
    for line in (TOP / "crates.txt").read_text().splitlines()[1:]:
        if line.startswith("# "):
            group = line[2:]
        elif ":" in line:
            found.append((group, line.partition(":")[0].split()[0]))
            group = ""
    return found


def parts(name, text):
    """What is counted by itself of a page: of the list of changes each version, else the page."""
    return text.split("\n## ")[1:] if name == "CHANGELOG.md" else [text]


def crates_told():
    """The crates by group, as the table of docs/ARCHITECTURE.md has them."""
    found = ROW.findall((TOP / "docs/ARCHITECTURE.md").read_text())
    return [(group.strip(), name) for group, name, link in found if name == link]


def version(name, pattern):
    """The version that a page has, at the first place where the pattern finds one."""
    found = re.search(pattern, (TOP / name).read_text(), re.M)
    return found and found.group(1)


def sentences(text):
    """The sentences of a page: of its paragraphs, its points and the cells of its tables, but not of blocks of code. A word in
    backquotes is a word, and ends no sentence."""
    text = re.sub(r"^```.*?^```$", "", text, flags=re.S | re.M)
    text = re.sub(r"\]\([^)]*\)", "]", text)
    text = re.sub(r"`[^`\n]*`", lambda found: re.sub(r"\S+", "`", found[0]), text)
    for line in text.splitlines():
        for cell in line.split("|"):
            yield from re.split(r"(?<=[.?!])\s", cell)


def links(text):
    text = re.sub(r"^```.*?^```$", "", text, flags=re.S | re.M)
    return [link for link in re.findall(r"\]\(([^)\s]+)\)", text) if not re.match(r"[a-z]+:", link)]


def leads(page, link):
    """Whether a link of a page leads to a file, and to a heading there."""
    file, _, heading = link.partition("#")
    path = (page.parent / file) if file else page
    if not path.exists():
        return False
    if not heading or path.suffix != ".md":
        return True
    headings = re.findall(r"^#+ (.*)$", path.read_text(), re.M)
    return heading in [re.sub(r"[^\w\- ]", "", it.lower()).replace(" ", "-") for it in headings]


if __name__ == "__main__":
    sys.exit(main())
