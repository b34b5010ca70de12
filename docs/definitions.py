#!/usr/bin/env python3
"""The definitions of the repository, each with the sentence that stands over it.

definitions.py [WORD ..]        prints all, or those in whose crate, file, name or sentence each word is found
definitions.py --of CLAUSE      prints the page of those on which a clause of groot_with_sites rests
definitions.py --count NAME     prints how many these are, of a clause or of a definition of specs/
definitions.py --lemmas CALL    prints the tree of a function's proof: the lemmas that it cites, and the calls on which it rests
definitions.py --renew          writes docs/DEFINITIONS.md, as --of headline prints it, and the numbers of docs/BELIEVE.md
definitions.py --stale          status 1 if --renew would change a page

A clause rests on a definition if one of its words names it, or a word of a definition or type on which it rests. Words are
looked up as the imports of their file say. A variable that has the name of a definition counts too, so there may be too many and not too few. Types
of the code are counted as the values that contracts see, and so are traits of which a clause names a ghost value. What the
kit's libraries define isn't counted. `--of` says on standard error which definitions have no sentence.

The page runs from the clause down: the crates of crates.txt from the last to the first, and in a crate each file before those
that it imports.
"""
import collections
import functools
import os
import re
import sys

import lemmas

TOP = os.path.dirname(os.path.dirname(os.path.abspath(__file__)))
TOP_CALL = ("groot_run", "run.rt", "groot_with_sites")
# the parts of the headline, as docs/BELIEVE.md has them, and the file in which they stand
PARTS = ("HasFaults", "HasEntries", "IsWritten")
PARTS_FILE = ("outcome_laws", "Parts")
DEFINED = re.compile(r"(?:abbrev |unfoldable )?pub (?:record |data )?([^\s:({]+)")
TYPE = re.compile(r"pub(?:\([a-z]+\))? (struct|enum|trait|type) (\w+)")
IMPORT = re.compile(r"^(?:ghost |pub )?use Rattle\.(\w+)\.specs\.([\w.]+?)(?:\.\{(.*)\})?(?: as (\w+))?;?$")
CODE_IMPORT = re.compile(r"^(?:pub(?:\([a-z]+\))? )?use (\w+)(?:::([\w:]*?))?(?:::)?(?:\{([^}]*)\}|(\w+));$", re.M)
SECTION = re.compile(r"RFC (\d+(?: sections? [\d.]+(?:(?:, (?:and )?| and )[\d.]+)*)?(?:, step \w+)?)")
LAST_SECTIONS = re.compile(r"\s*\(RFC \d[^()]*\)\.?$")

# what a definition is: where it stands, its sentence, and the text below it; `kind` is empty for one of specs/
Definition = collections.namedtuple("Definition", "crate file line name kind sentence text")


@functools.cache
def lines_of(*path):
    with open(os.path.join(TOP, *path), encoding="utf-8") as file:
        return file.read().splitlines()


@functools.cache
def crates():
    found = []
    for line in lines_of("crates.txt"):
        name, colon, _ = line.partition(":")
        if colon and not name.startswith("#"):
            found.append(name.split()[0])
    return found


def files(crate):
    """The files of a crate's specs, by their names without ending."""
    if os.path.isdir(os.path.join(TOP, "crates", crate, "specs")):
        for line in lines_of("crates", crate, "specs", "Lib.antt"):
            if line.startswith("pub mod "):
                yield line.split()[2]


@functools.cache
def definitions(crate, file):
    """The definitions of a file of specs."""
    found, sentence, text, mutual = [], [], [], False
    for at, line in enumerate(lines_of("crates", crate, "specs", file + ".antt")):
        if line and not line.startswith(" "):
            mutual = line.endswith("mutual")
        if mutual:
            line = line.removeprefix("  ")
        start = DEFINED.match(line)
        if line.startswith("--"):
            sentence.append(line[2:].strip())
        elif start and not line.startswith(("pub use", "pub mod")):
            text = [line]
            found.append(Definition(crate, f"specs/{file}.antt", at, start.group(1), "", " ".join(sentence), text))
            sentence = []
        elif line.startswith(("infix", "syntax")):
            pass
        elif not line or line.startswith("use "):
            sentence = []
        else:
            text.append(line)
            if not line.startswith(" "):
                sentence = []
    return [it._replace(text="\n".join(it.text)) for it in found]


# ---- what a word means

@functools.cache
def specs_of(crate):
    """The definitions of a crate's specs, by file and name; a constructor stands for its data."""
    found = {}
    for file in files(crate):
        for it in definitions(crate, file):
            found[file, it.name] = it
            if re.match(r"(?:abbrev )?pub data", it.text):
                for line in it.text.splitlines()[1:]:
                    found.setdefault((file, line.split()[0]), it)
    return found


@functools.cache
def code_of(crate):
    """The types and traits of a crate's code, by name."""
    found = {}
    top = os.path.join(TOP, "crates", crate, "src")
    for folder, _, names in sorted(os.walk(top)):
        for name in sorted(names):
            if name.endswith(".rt"):
                path = os.path.relpath(os.path.join(folder, name), os.path.join(TOP, "crates", crate))
                for it in types_in(crate, path):
                    found.setdefault(it.name, it)
    return found


def types_in(crate, path):
    lines = lines_of("crates", crate, *path.split("/"))
    sentence, model = [], {}
    for at, line in enumerate(lines):
        seen = re.match(r"impl(?:<[^{]*>)? Model for (\w+)", line)
        if seen:
            model[seen.group(1)] = value_in(block(lines, at))
    for at, line in enumerate(lines):
        found = TYPE.match(line)
        if line.startswith("///"):
            sentence.append(line[3:].strip())
        elif found:
            text = model.get(found.group(2)) or block(lines, at)
            yield Definition(crate, path, at, found.group(2), found.group(1), " ".join(sentence), text)
            sentence = []
        elif not line.startswith("#["):
            sentence = []


def value_in(model):
    """The value as which contracts see a type, from the `impl` that says so."""
    return re.search(r"^    ghost Value = .*?;$", model, re.S | re.M).group()


def block(lines, at):
    """A block of code from its first line to the brace that closes it, without what is told of it in comments."""
    found = []
    for line in lines[at:]:
        if not line.strip().startswith("//"):
            found.append(line)
        if line.startswith("}") or (line == lines[at] and line.endswith(";")):
            break
    return "\n".join(found)


@functools.cache
def words_of(crate, path):
    """What the words of a file mean by its imports: a definition or a type each; and its names of whole files."""
    text = "\n".join(lines_of("crates", crate, *path.split("/")))
    words, aliases = {}, {}
    for line in text.splitlines():
        found = IMPORT.match(line.strip())
        if not found or found.group(1) not in crates():
            continue
        other, place, names, alias = found.groups()
        *_, last = parts = place.split(".")
        if parts[0] == "declared":
            own = code_of(other).get(parts[-2] if last == "TheVariants" else last)
            if alias:
                aliases[alias] = (own,)
            for name in split(names):
                words[name[1]] = own
        else:
            if alias or names is None:
                aliases[alias or last] = (other, last)
            for name, as_name in split(names):
                words[as_name] = specs_of(other).get((last, name))
    if path.endswith(".antt"):
        file = os.path.basename(path)[:-5]
        for (place, name), it in specs_of(crate).items():
            if place == file:
                words[name] = it
    else:
        for other, _, names, name in CODE_IMPORT.findall(text):
            for _, as_name in split(names or name):
                own = code_of(crate if other == "crate" else other).get(as_name) if other in (*crates(), "crate") else None
                if own:
                    words.setdefault(as_name, own)
        for it in types_in(crate, path):
            words.setdefault(it.name, it)
    return words, aliases


def split(names):
    """The names of an import, each with the name under which it is known in the file."""
    for name in filter(str.strip, (names or "").split(",")):
        first, *more = name.split()
        yield first, more[-1] if more else first


def cited(it):
    """The definitions and types that the text of one names."""
    return meant(re.sub(r'"[^"]*"', '""', it.text), *words_of(it.crate, it.file))


def meant(text, words, aliases):
    """What the words of a text mean."""
    for first, second in re.findall(r"(?<![\w.])([^\W\d][\w']*)(?:\.(\w+))?", text):
        if first in aliases and second:
            place = aliases[first]
            yield place[0] if len(place) == 1 else specs_of(place[0]).get((place[1], second))
        elif first in words:
            yield words[first]
    for name, it in words.items():
        parts = [part for part in name.split("◌") if part]
        if "◌" in name and all(f" {part} " in f" {text} ".replace("\n", " ") for part in parts):
            yield it
        if name == "◌>>=◌" and "←" in text:
            yield it


# ---- on which definitions a clause rests

def clause_text(clause):
    """The text of a clause of the top call, and the traits of its type parameters of which it names ghost values."""
    crate, file, function = TOP_CALL
    text = "\n".join(lines_of("crates", crate, "src", file))
    text = text[text.index(f"pub fn {function}<"):]
    text = text[:text.index("\n{\n")]
    found = re.search(rf"ensures {clause} \{{(.*?)\}}\n", text, re.S)
    if not found:
        sys.exit(f"definitions.py: {function} has no clause {clause}")
    bounds = dict(re.findall(r"(\w): (\w+)", text[:text.index("(")]))
    return found.group(1), [bounds[it] for it in re.findall(r"\b([A-Z])\.", found.group(1))]


@functools.cache
def rests_on(clause):
    """The definitions and types on which a clause rests, from the clause down."""
    crate, file, _ = TOP_CALL
    words, aliases = words_of(crate, f"src/{file}")
    text, traits = clause_text(clause)
    return below([*meant(text, words, aliases), *(words[it] for it in traits)])


@functools.cache
def definition_rests_on(name):
    """The definitions and types on which each definition of this name rests, and itself."""
    return below([it for crate in crates() for (_, own), it in specs_of(crate).items() if own == name])


def below(left):
    """These definitions, and those on which they rest, from above down."""
    found = set()
    while left:
        it = left.pop()
        if it and it not in found:
            found.add(it)
            left += cited(it)
    return sorted(found, key=place_of, reverse=True)


def place_of(it):
    return crates().index(it.crate), file_order(it.crate).index(it.file), it.line


@functools.cache
def file_order(crate):
    """The files of a crate: those of code, then those of specs, each after those that it imports."""
    done = []

    def add(path):
        if path in done or path in under_way:
            return
        under_way.add(path)
        for line in lines_of("crates", crate, *path.split("/")):
            found = IMPORT.match(line)
            if found and found.group(1) == crate and not found.group(2).startswith("declared"):
                add(f"specs/{found.group(2).split('.')[-1]}.antt")
        done.append(path)

    under_way = set()
    for path in sorted({it.file for it in code_of(crate).values()}):
        done.append(path)
    for file in files(crate):
        add(f"specs/{file}.antt")
    return done


def number_of_lines(it):
    return len(it.text.splitlines())


def count(name):
    """How many definitions, types, lines, files and crates a clause or a definition rests on."""
    found = definition_rests_on(name) or rests_on(name)
    own = [it for it in found if not it.kind]
    return (f"{len(own)} definitions and {len(found) - len(own)} types and traits, {sum(map(number_of_lines, found)):,} lines in "
            f"{len({(it.crate, it.file) for it in found})} files of {len({it.crate for it in found})} crates")


def page(clause):
    """The page of a clause."""
    found = rests_on(clause)
    yield "# Definitions"
    yield ""
    yield (f"On what the clause `{clause}` of the top call ([run.rt](../crates/groot_run/src/run.rt)) rests: {count(clause)}. "
           "This page is made by [definitions.py](definitions.py) from the sentences over the definitions, from the clause down to "
           f"names and octets: `docs/definitions.py --of {clause}`. [BELIEVE.md](BELIEVE.md) says what the clause means.")
    yield ""
    yield ("Most definitions compute a truth value, a list, an option or a text. The others are relations; their names begin "
           "with a capital letter, mostly with `Is` or `Are`. Types of the code are seen as plain values: octets as numbers below "
           "256, a text as a list of octets, a name as a list of labels with the top label first. Examples of definitions are "
           "theorems in `proofs/Worked` and `proofs/Drawn` of net_model, plain_words, rdata_forms and master_read.")
    yield ""
    yield ("What other clauses say is found in the same way (`docs/definitions.py --of complete` has all commands), and "
           "`docs/definitions.py WORD` finds any definition by a word.")
    crate = None
    for it in found:
        if it.crate != crate:
            crate = it.crate
            yield from ("", f"## {crate}", "", "| Definition | In words | RFC | File |", "|---|---|---|---|")
        sentence = LAST_SECTIONS.sub("", it.sentence).replace("|", "\\|").removesuffix(".")
        sections = "; ".join(SECTION.findall(it.sentence))
        file = it.file.removeprefix("specs/")
        yield f"| `{it.name}` | {sentence} | {sections} | [{file}](../crates/{crate}/{it.file}) |"
    for it in found:
        if not it.sentence:
            print(f"no sentence over {it.name} in {it.crate}/{it.file}", file=sys.stderr)


# ---- the command line

def search(words):
    for crate in crates():
        for file in files(crate):
            place = f"{crate}/specs/{file}.antt"
            shown = [it for it in definitions(crate, file) if all(word.lower() in f"{place} {it.name} {it.sentence}".lower() for word in words)]
            if shown:
                print(f"\n{place}")
            for it in shown:
                print(f"  {it.name}: {it.sentence}" if it.sentence else f"  {it.name}")


def renewed():
    """The two pages as they have to be."""
    return {
        "DEFINITIONS.md": "\n".join(page("headline")) + "\n",
        "BELIEVE.md": with_parts(re.sub(r"\d+ definitions and .* crates(?= \()", count("headline"), text_of("BELIEVE.md"))),
    }


def with_parts(text):
    """The page with how many lines each part of the headline adds to those on which the parts above it rest."""
    crate, file = PARTS_FILE
    seen = set()
    for name in PARTS:
        found = set(below([specs_of(crate)[file, name]])) - seen
        seen |= found
        text = re.sub(rf"(\| `{name}` \|.*\| )[^|]*( \|)$", rf"\g<1>{sum(map(number_of_lines, found)):,}\2", text, flags=re.M)
    return text


def renew():
    for name, text in renewed().items():
        with open(os.path.join(TOP, "docs", name), "w", encoding="utf-8") as file:
            file.write(text)


def stale():
    """Says which page isn't what the definitions say, and returns the status."""
    faults = [f"docs/{name} is stale: run docs/definitions.py --renew" for name, text in renewed().items() if text_of(name) != text]
    print("\n".join(faults) or "docs/DEFINITIONS.md, docs/BELIEVE.md: as the definitions say")
    return int(bool(faults))


def text_of(name):
    with open(os.path.join(TOP, "docs", name), encoding="utf-8") as file:
        return file.read()


def main(words):
    if words[:1] == ["--of"] and len(words) == 2:
        print("\n".join(page(words[1])))
    elif words[:1] == ["--count"] and len(words) == 2:
        print(count(words[1]))
    elif words[:1] == ["--lemmas"] and len(words) == 2:
        print("\n".join(lemmas.lines_of_tree(words[1])))
    elif words == ["--renew"]:
        renew()
    elif words == ["--stale"]:
        return stale()
    else:
        search(words)
    return 0


if __name__ == "__main__":
    sys.exit(main(sys.argv[1:]))
