#!/usr/bin/env python3
"""Lists what the house doesn't allow in the crates' code: lints.py [--drop]

- `export`: a function, a constant or a method that a crate exports and no other crate calls, tests not counted. The name of a
  function counts only in a file that names its crate, that of a method in one that names its crate or its type. A law, in a
  module `laws`, is there for its contract.
- `door`: an item that is `pub` in a private module, or a method that is `pub` at a type, where the crate doesn't export it:
  `pub(crate)` says so.
- `parameters`: a function of more than seven parameters, `self` counted.
- `number`: a bare number in an expression, other than 0, 1, 2 and the numbers of the field in OF_THE_FIELD. A constant, a
  pattern, the arms of a table and a contract may have any.
- `import`: a name that a file of src imports and doesn't write again, outside comments. A trait may be there for its methods.
- `long`: a line of a comment of more than 124 characters, in src, specs or proofs.

.ci/lints_allowed.txt has the exceptions, a line each: the lint, the crate, the name, and the reason. Of an import the name is
the file without its end, and the names behind it, with commas between. A line that nothing needs is listed too; with --drop it
is taken out of the file. The status is 1 if something is listed.
"""
import pathlib
import re
import sys

TOP = pathlib.Path(__file__).resolve().parent.parent
ALLOWED = TOP / ".ci" / "lints_allowed.txt"
MOST_PARAMETERS = 7
MOST_IN_A_LINE = 124
# Decimal digits; octets of a label, of a name without and with its root label, and of an octet's and a field's range.
OF_THE_FIELD = {10, 100, 63, 254, 255, 256, 65535}
CODE = re.compile(r"//[^\n]*|\"(?:\\.|[^\"\\])*\"|b?'(?:\\[^\n]{1,3}|[^\\\n])'|\bghost use [^;]*;|#!?\[[^\]\n]*\]")
ITEM = re.compile(r"^(pub(?:\(\w+\))? )?(?:const |unsafe )*(fn|struct|enum|trait|const|type) (\w+)", re.M)
METHOD = re.compile(r"^    (pub(?:\(\w+\))? )?(?:const |unsafe )*fn (\w+)", re.M)
IMPL = re.compile(r"^impl\b(?:<(?:[^<>]|<[^<>]*>)*>)?\s*([^{]*)\{", re.M)
FUNCTION = re.compile(r"\bfn (\w+)(?:<(?:[^<>]|<[^<>]*>)*>)?\(")
IMPORT = re.compile(r"^ *(pub(?:\(\w+\))? )?(ghost )?use ([^;]*);", re.M)
NO_WORD = re.compile(r"//[^\n]*|\"(?:\\.|[^\"\\])*\"|^ *(?:pub(?:\(\w+\))? )?(?:ghost )?use [^;]*;", re.M)
COMMENT = re.compile(r"^ *((?://|--).*)$", re.M)
TRAIT = re.compile(r"\btrait (\w+)")
# Traits of the kit that are imported for their methods.
TRAITS = {"Digest", "Hasher", "Write"}
NUMBER = re.compile(r"(?<![\w.])(?<!=> )(\d[\d_]*)(?:_?[iu](?:8|16|32|64|size))?\b(?!\s*(?:\.\.=?[^;{}]*)?=>)")


def blank(match):
    """What is no code, as spaces and line ends."""
    return re.sub(r"[^\n]", " ", match.group())


def closing(text, at, pair):
    """The place of the bracket that closes the one at this place."""
    depth = 0
    for place in range(at, len(text)):
        depth += (text[place] == pair[0]) - (text[place] == pair[1])
        if depth == 0:
            return place
    return len(text)


class Text:
    """A file of a crate."""

    def __init__(self, path):
        self.path = path
        self.text = path.read_text()

    def line(self, place):
        return self.text.count("\n", 0, place) + 1


class Source(Text):
    """A file of code: besides its text its code, without comments, texts and attributes."""

    def __init__(self, path):
        super().__init__(path)
        self.code = CODE.sub(blank, self.text)
        self.impls = [(at.start(), closing(self.code, at.end() - 1, "{}"), at.group(1)) for at in IMPL.finditer(self.code)]

    def type_at(self, place):
        """The type at which a method stands, or None in an `impl` of a trait, where the trait says who may call it."""
        for start, end, head in self.impls:
            if start < place < end:
                return None if " for " in head else re.match(r"\w+", head).group()
        return None

    def bodies(self):
        """The places of the function bodies: behind the contract, at the line that is an opening bracket alone or ends with it."""
        for at in FUNCTION.finditer(self.code):
            end = closing(self.code, at.end() - 1, "()")
            found = re.compile(r"^ *\{$|\)[^\n{};]*\{$", re.M).search(self.code, end)
            if found:
                begin = found.end() - 1
                yield at, end, begin, closing(self.code, begin, "{}")


class Crate:
    """A crate: its files, and the names that its lib.rt exports."""

    def __init__(self, folder):
        self.folder = folder
        self.name = folder.name
        self.files = [Source(path) for path in sorted((folder / "src").rglob("*.rt"))]
        lib = folder / "src" / "lib.rt"
        text = CODE.sub(blank, lib.read_text()) if lib.exists() else ""
        self.open_modules = set(re.findall(r"^pub mod (\w+);", text, re.M))
        named = re.findall(r"^pub use (?:\w+::)+(\{[^}]*\}|\w+);", text, re.M)
        self.exported = {name.strip().split(" as ")[0] for names in named for name in names.strip("{}").split(",") if name.strip()}
        self.lib = lib

    def modules(self):
        """Its files in private modules."""
        for file in self.files:
            module = file.path.relative_to(self.lib.parent).parts[0].removesuffix(".rt")
            if file.path != self.lib and module not in self.open_modules:
                yield file


def doors(crate):
    for file in crate.modules():
        for at in ITEM.finditer(file.code):
            if at.group(1) == "pub " and at.group(3) not in crate.exported:
                yield "door", crate.name, at.group(3), file, at.start()
        for at in METHOD.finditer(file.code):
            owner = file.type_at(at.start())
            if at.group(1) == "pub " and owner and owner not in crate.exported:
                yield "door", crate.name, f"{owner}::{at.group(2)}", file, at.start()


def exports(crate, others):
    """The exported calls that no other crate names: a name only counts in a file that names the crate, or a method's type."""
    files = [file.code for other in others for file in other.files]

    def naming(*words):
        return "\n".join(code for code in files if re.search(rf"\b(?:{'|'.join(words)})\b", code))

    of_crate = naming(crate.name)
    of_types = {}
    for file in crate.modules():
        if file.path.name == "laws.rt":
            continue
        for at in ITEM.finditer(file.code):
            name = at.group(3)
            if at.group(1) == "pub " and at.group(2) in ("fn", "const") and name in crate.exported and not re.search(rf"\b{name}\b", of_crate):
                yield "export", crate.name, name, file, at.start()
        for at in METHOD.finditer(file.code):
            owner, name = file.type_at(at.start()), at.group(2)
            if at.group(1) != "pub " or owner not in crate.exported:
                continue
            if owner not in of_types:
                of_types[owner] = naming(crate.name, owner)
            if not re.search(rf"[.:]{name}\b", of_types[owner]):
                yield "export", crate.name, f"{owner}::{name}", file, at.start()


def parameters(crate):
    for file in crate.files:
        for at, end, _, _ in file.bodies():
            inside = file.code[at.end():end]
            depth = commas = 0
            for sign in inside:
                depth += (sign in "(<[") - (sign in ")>]")
                commas += sign == "," and depth == 0
            count = commas + (0 if not inside.strip() else 0 if inside.rstrip().endswith(",") else 1)
            if count > MOST_PARAMETERS:
                yield "parameters", crate.name, at.group(1), file, at.start()


def numbers(crate):
    for file in crate.files:
        for at, _, begin, end in file.bodies():
            for found in NUMBER.finditer(file.code, begin, end):
                if (value := int(found.group(1).replace("_", ""))) > 2 and value not in OF_THE_FIELD:
                    yield "number", crate.name, f"{at.group(1)} {found.group(1)}", file, found.start()


def imported(tree):
    """The names that the tree of an import brings."""
    head, opened, inner = tree.strip().partition("{")
    if opened:
        for part in split(inner[:inner.rindex("}")]):
            yield from imported(head.rstrip(":.") if part == "self" else part)
    else:
        yield re.split(r"::|(?<=\w)\.(?=[\w◌\[])| as ", head.strip())[-1].strip()


def split(text):
    """The parts of a text between commas that stand in no bracket."""
    depth, parts = 0, [""]
    for sign in text:
        depth += (sign == "{") - (sign == "}")
        if sign == "," and depth == 0:
            parts.append("")
        else:
            parts[-1] += sign
    return [part.strip() for part in parts if part.strip()]


def is_written(name, text):
    """Whether a text has a name; of an operator each of its signs."""
    words = [re.escape(part) for part in name.split("◌") if part]
    return all(re.search(word if re.fullmatch(r"\W+", word) else rf"(?<![\w']){word}(?![\w'])", text) for word in words)


def imports(crate, traits):
    for file in crate.files:
        written = NO_WORD.sub("", file.text)
        module = file.path.relative_to(crate.lib.parent).with_suffix("")
        for at in IMPORT.finditer(file.text):
            for name in () if at.group(1) else imported(at.group(3)):
                if not is_written(name, written) and (at.group(2) or name not in traits):
                    yield "import", crate.name, f"{module} {name}", file, at.start()


def long_lines(crate):
    for path in sorted(path for part in ("src", "specs", "proofs") for path in (crate.folder / part).rglob("*.*t")):
        file = Text(path)
        for at in COMMENT.finditer(file.text):
            if len(at.group()) > MOST_IN_A_LINE:
                yield "long", crate.name, " ".join(re.findall(r"\w+", at.group(1))[:6]), file, at.start()


def allowances(line):
    """What a line of the exceptions allows: the lint, the crate and the name; of imports each name."""
    if not line.strip() or line.startswith("#"):
        return []
    lint, crate, name, _ = (part.strip() for part in line.split(":", 3))
    file, _, names = name.partition(" ")
    return [(lint, crate, f"{file} {one}") for one in split(names)] if lint == "import" else [(lint, crate, name.replace("/", "::"))]


def needed(line, used):
    """The line of the exceptions without what nothing needs, or none."""
    allowed = allowances(line)
    if not allowed or used.issuperset(allowed):
        return [line]
    kept = [name.split(" ")[1] for lint, crate, name in allowed if (lint, crate, name) in used]
    head, name, reason = line.rsplit(": ", 2)
    return [f"{head}: {name.split(' ')[0]} {', '.join(kept)}: {reason}"] if kept else []


def main():
    crates = [Crate(folder) for folder in sorted((TOP / "crates").iterdir()) if (folder / "src").is_dir()]
    checked = [crate for crate in crates if crate.name != "call_tests"]
    traits = TRAITS.union(*(TRAIT.findall(file.code) for crate in crates for file in crate.files))
    lines = ALLOWED.read_text().splitlines()
    allowed = {one for line in lines for one in allowances(line)}
    used, bad = set(), 0
    for crate in crates:
        others = [other for other in checked if other is not crate]
        found = [*imports(crate, traits), *long_lines(crate)]
        if crate in checked:
            found += [*doors(crate), *exports(crate, others), *parameters(crate), *numbers(crate)]
        for lint, where, name, file, place in found:
            if (lint, where, name) in allowed:
                used.add((lint, where, name))
                continue
            bad += 1
            print(f"{file.path.relative_to(TOP)}:{file.line(place)}: {lint}: {name}")
    if "--drop" in sys.argv:
        ALLOWED.write_text("".join(f"{kept}\n" for line in lines for kept in needed(line, used)))
        allowed = used
    for lint, crate, name in sorted(allowed - used):
        bad += 1
        print(f".ci/lints_allowed.txt: nothing needs this: {lint}: {crate}: {name}")
    print(f"lints: {bad} found, {len(used)} allowed")
    return 1 if bad else 0


sys.exit(main())
