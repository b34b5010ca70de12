#!/usr/bin/env python3
"""Lists the public calls that can run out of memory and that nothing runs: unrun_calls.py [TOP]

A contract that allows want of memory is met by a body that answers nothing else. So a test, or code to which `main` comes,
is to make each such call with ample memory. A line `file:line: name` names each that none makes, and the status is 1.

Such a call is a `pub fn`, free or of a type, that a crate's lib.rt names or that stands in one of its public modules, and
whose result names `NoMemory` or an enum with a variant of that name. Methods of traits aren't asked for.

A function is reached where `main` or a reached one names it. A test reaches what it names itself, and no more; but of a call
to which no `main` comes, as those that are there for other programs, also all to which that comes. HANDED_ON has the calls
that only hand on to one that is reached.
- A free function is named by `name(` in its crate, or where it is imported; a function of a type by `Type::name`.
- A method is named by `.name(`, where the receiver may be of its type. The text before the point decides that: a field,
  a call's result, `self`, or a variable by its parameter, its `let`, its `for` or its pattern. Types are known by name
  only: a field is of each type that some field of this name has. If nothing is known, the receiver may be of any type
  that the function itself names, or that a field of one of those has. So a copy of a record's name is none of the record.
- The methods of an `impl TRAIT for TYPE` are reached where a reached function names the type.

Where it errs: a call in a branch that no run takes counts as reached, and so does each of several types that a receiver
may have. One that `main` makes with some values alone counts as reached with all: only the tests of names with an open tail
show that `find_sym` and `build` are run with such names. Methods of one name in two `impl` blocks of a type are one. A
function handed on by its bare name isn't reached.
"""
import glob
import os
import re
import sys
from collections import defaultdict

TOP = sys.argv[1] if len(sys.argv) > 1 else os.path.join(os.path.dirname(os.path.abspath(__file__)), "..")
NO_CODE = re.compile(r"//[^\n]*|\"(?:\\.|[^\"\\])*\"|b?'(?:\\[^\n]{1,3}|[^\\\n])'|\bghost use [^;]*;")
BLOCK = re.compile(r"^(?:pub(?:\([a-z]+\))? )?(impl|struct|enum|trait)\b([^{;]*)\{", re.M)
FUNCTION = re.compile(r"(pub(?:\([a-z]+\))? )?(?:const |unsafe )*\bfn (\w+)")
STATED = re.compile(r"\b([a-z_]\w*): ((?:[^,{}()<>]|<[^{}]*?>|\([^)]*\))*)")
VARIANT = re.compile(r"^    ([A-Z]\w*)\s*(?:\(([^;]*?)\)|\{([^{}]*)\})?,", re.M)
NAMED = re.compile(r"(\.\s*)?\b((?:\w+::(?:<[\w, ]*>::)?)*)(\w+)(?:::<[^()]*>)?\(|\b([A-Z]\w*)::(\w+)")
CALLED = re.compile(r"(?:\b([A-Z]\w*)::(?:<[^()]*>::)?)?(\w*)(?:::<[^()]*>)?$")
NO_TYPE = {"Option", "Result", "Some", "None", "Ok", "Err", "Self", "Box"}
# `scope` has the report from the judge that a ScopeJudge wraps; the programs say how much they take.
# `check` and `scope` keep the texts of a report's entries in place of them: `kept_report` with texts for entries.
HANDED_ON = {("ScopeJudge", "report"): ("Judge", "kept_report"), ("Judge", "report"): ("Judge", "kept_report"),
             ("NameJudge", "report"): ("NameJudge", "kept_report"), (None, "read_metadata"): (None, "read_metadata_within"),
             (None, "read_words"): (None, "read_words_of")}


def closing(text, at, pair):
    """The place behind the bracket that closes the one at this place."""
    depth = 0
    for place in range(at, len(text)):
        depth += (text[place] == pair[0]) - (text[place] == pair[1] and text[place - 1:place + 1] not in ("->", "=>"))
        if depth == 0:
            return place + 1
    raise SystemExit(f"a bracket isn't closed: {text[at:at + 60]!r}")


def before(text, pair):
    """The text before the bracket that its last one closes."""
    return text[:len(text) - closing(text[::-1], 0, pair[::-1])]


class File:
    """A source file: its crate, its code without comments and texts, and the crate from which each imported name comes."""

    def __init__(self, path):
        self.path = os.path.relpath(path, TOP)
        self.crate = self.path.split(os.sep)[1]
        self.words = re.split(r"[/.]", self.path)
        with open(path, encoding="utf-8") as source:
            text = NO_CODE.sub(lambda match: re.sub(r"[^\n]", " ", match.group()), source.read())
        self.text = re.sub(r";(?=\s*\w+\])", ",", text)
        self.imports = {}
        for crate, names in re.findall(r"\buse (\w+)::([^;]*);", self.text):
            for name in re.findall(r"\w+", re.sub(r"\w+ as |\w+::", "", names)):
                self.imports[name] = self.crate if crate in ("crate", "super", "self") else crate

    def types(self, text):
        """The types that a text of this file names, each with its crate."""
        names = set(re.findall(r"\b[A-Z]\w+", text or "")) - NO_TYPE
        return {(self.imports.get(name, self.crate), name) for name in names}


class Function:
    """A function: its crate and the type that it stands in, whether that is for a trait, its result, and its code."""

    def __init__(self, file, match, home, of_trait):
        text = file.text
        self.file, self.name, self.home, self.of_trait = file, match.group(2), home, of_trait
        self.is_public, self.line = match.group(1) == "pub ", text.count("\n", 0, match.end()) + 1
        at = closing(text, match.end(), "<>") if text[match.end()] == "<" else match.end()
        at = end = closing(text, at, "()")
        heads = ["requires"]
        while re.search(r"\b(requires|ensures)\b", heads[-1]):
            start = end + re.match(r"[^{;]*", text[end:]).end()
            heads.append(text[end:start])
            end = closing(text, start, "{}") if text[start] == "{" else start
        self.result, self.body = re.split(r"\b(?:where|requires|ensures)\b", heads[1])[0], text[start:end]
        self.gives = file.types(self.result) | ({home} if "Self" in self.result else set())
        self.types = file.types(text[match.end():at] + self.result + self.body) | {home}
        self.stated = {name: file.types(kind) for name, kind in STATED.findall(text[match.end():at] + self.body)}
        self.stated["self"] = {home}


class Sources:
    """All functions and types of the crates."""

    def __init__(self):
        self.files, self.functions, self.wanting = [], [], {"NoMemory"}
        self.by_name, self.of_types = defaultdict(list), defaultdict(list)
        self.fields, self.parts, self.variants = defaultdict(set), defaultdict(set), defaultdict(set)
        for path in sorted(glob.glob(os.path.join(TOP, "crates", "*", "src", "**", "*.rt"), recursive=True)):
            self.files.append(File(path))
            self.read(self.files[-1])
        self.crates = {file.crate for file in self.files}

    def read(self, file):
        blocks = []
        for match in BLOCK.finditer(file.text):
            kind, head, end = match.group(1), match.group(2), closing(file.text, match.end() - 1, "{}")
            of_trait, _, name = (head[closing(head, 0, "<>"):] if head[0] == "<" else head).rpartition(" for ")
            # A trait may be of the unit type, which has no word.
            name, inside = (re.search(r"\w+", name) or re.search(".*", name)).group(), file.text[match.end():end]
            home = (file.imports.get(name, file.crate), name)
            blocks.append((match.start(), end, home, bool(of_trait)))
            if kind in ("struct", "enum"):
                self.parts[home] |= file.types(inside)
                for field, stated in STATED.findall(inside):
                    self.fields[field] |= file.types(stated)
                for variant, items, fields in VARIANT.findall(inside if kind == "enum" else ""):
                    self.variants[variant] |= file.types(items + fields)
                    self.wanting |= {name} if variant == "NoMemory" else set()
        for match in FUNCTION.finditer(file.text):
            around = [block[2:] for block in blocks if block[0] < match.start() < block[1]]
            function = Function(file, match, *(around[0] if around else ((file.crate, None), False)))
            self.functions.append(function)
            self.by_name[function.name].append(function)
            self.of_types[function.home] += [function] if function.of_trait else []

    def kinds(self, function, text, passed=()):
        """The types that the expression at the end of a text may have: none where nothing is told."""
        text = re.sub(r"(?:[?\s]|\belse)+$", "", text)
        if text.endswith("]"):
            return self.kinds(function, before(text, "[]"), passed)
        if text.endswith(")"):
            called = CALLED.search(before(text, "()"))
            ahead = text[:called.start()].rstrip()
            homes = self.kinds(function, ahead[:-1], passed) if ahead.endswith(".") else function.file.types(called.group(1))
            others = [other for other in self.by_name[called.group(2)] if not homes or other.home in homes]
            given = set().union(*(other.gives for other in others))
            return given if given and (homes or len({other.home for other in others}) == 1) else homes
        point, name = (re.search(r"(\.\s*)?(\w+)$", text) or re.match("()()", "")).groups()
        if point or not name:
            return self.fields[name]
        if name in function.stated:
            return function.stated[name]
        pattern = re.search(rf"\b[A-Z]\w*::(\w+)\s*[({{][^(){{}};=]*\b{name}\b[^(){{}};=]*[)}}]+\s*(?:=|\||if)", function.body)
        if pattern or name in passed:
            return self.variants[pattern.group(1)] if pattern else set()
        bound = re.search(rf"\b(?:let (?:mut )?(?:(?:Some|Ok)\()?(?:mut )?{name}\)? =|for {name} in)([^;{{]*)", function.body)
        bound = bound or re.search(rf"\bmatch ([^{{;]*)\{{(?:(?!\bmatch\b).)*?\b(?:Some|Ok)\({name}\) =>", function.body, re.S)
        return self.kinds(function, bound.group(1), (*passed, name)) if bound else set()

    def named_by(self, function):
        """The functions that a function names."""
        for match in NAMED.finditer(function.body):
            point, path, name, kind, member = match.groups()
            kind, name = kind or (re.match(r"[A-Z]\w*", path) or [None])[0], member or name
            if point:
                homes = self.kinds(function, function.body[:match.start()])
                homes = homes or function.types | set().union(*(self.parts[kind] for kind in function.types))
            elif kind:
                homes = {function.home} if kind == "Self" else function.file.types(kind)
            else:
                root = path.split("::")[0]
                homes = {(root if root in self.crates else function.file.imports.get(root or name, function.file.crate), None)}
            yield from (other for other in self.by_name[name] if other.home in homes)

    def reached(self):
        """What the `main` of each program reaches, what the tests name, and what those reach of it to which no `main` comes."""
        named = {other for test in self.functions if "tests" in test.file.words for other in self.named_by(test)}
        mains = [function for function in self.by_name["main"] if function.file.crate in ("groot", "groot_map", "groot_parts")]
        met = self.followed(mains, set())
        reached = self.followed(named - met, set(met)) | named
        handed = {(function.home[1], function.name) for function in reached}
        return reached | {
            function for function in self.functions if HANDED_ON.get((function.home[1], function.name)) in handed
        }

    def followed(self, left, met):
        """The functions that were met, with these and all that they reach."""
        left = list(left)
        while left:
            function = left.pop()
            if function not in met:
                met.add(function)
                left += self.named_by(function)
                left += [other for kind in function.types for other in self.of_types[kind]]
        return met

    def asked(self):
        """The public calls that may answer want of memory."""
        for lib in (file for file in self.files if file.words[3:] == ["lib", "rt"]):
            modules = re.findall(r"^pub mod (\w+);", lib.text, re.M)
            names = re.findall(r"\w+", " ".join(re.findall(r"^pub use ([^;]*);", lib.text, re.M)))
            for function in (other for other in self.functions if other.is_public and other.file.crate == lib.crate):
                is_named = (function.home[1] or function.name) in names
                wants = self.wanting & set(re.findall(r"\w+", function.result))
                if wants and (is_named or function.file.words[3] in modules):
                    yield function


if __name__ == "__main__":
    sources = Sources()
    asked, reached = list(sources.asked()), sources.reached()
    unrun = [function for function in asked if function not in reached]
    for function in unrun:
        print(f"{function.file.path}:{function.line}: " + "::".join(filter(None, (function.home[1], function.name))))
    print(f"{len(asked)} public calls can run out of memory, and nothing runs {len(unrun)} of them")
    sys.exit(1 if unrun else 0)
