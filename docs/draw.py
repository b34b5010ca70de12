#!/usr/bin/env python3
"""Works out the values in proofs/Drawn once more, and draws others: draw.py [DEFINITION [--count N] [--seed N]]

Without words it looks through each fact `name : definition arguments ≡ value` of the files in proofs/Drawn, and each
`name : IsX arguments` or `name : ShowsIn arguments`, works it out by rules in plain Python, and names each that differs. The rules
are those of plain_rules.py, plain_files.py and plain_faults.py. It says how many facts are of definitions without such rules. The
status is 1 if a value differs.

With a definition, it prints facts of it, with arguments drawn by random numbers from the seed, for a file of proofs/Drawn. The
prover computes each and refuses one whose value is another.
"""
import argparse
import collections
import pathlib
import random
import re
import sys
from typing import Dict, Iterator, List, Tuple

import plain_faults
import plain_files
import plain_rules
from plain_rules import Rule, Term, record

TOP = pathlib.Path(__file__).resolve().parent.parent
RULES: Dict[str, Rule] = {**plain_rules.RULES, **plain_files.RULES, **plain_faults.RULES}
SIGN = re.compile(r'\s*(?:("(?:\\.|[^"\\])*")|([()∷{};])|(\[\])|([^\s()∷"{};]+))')
FACT = re.compile(r"^(?!abbrev\b|use\b|--)(\w+) :\s+(\w+) ((?:.|\n(?=    ))*?)\s+≡ ((?:.|\n(?=    ))*)$", re.M)
STATEMENT = re.compile(r"^(\w+) :\s+(Is\w+|ShowsIn) ((?:.|\n(?=    ))*)$", re.M)
NAMED = re.compile(r"^abbrev (\w+) : \w+\n\1 =\n?((?:.+\n)+)", re.M)
# What a definition's facts unfold, if it isn't unfolded by itself.
OF_RECORDS = "record_of owner_of front_in one_more type_said data_behind made_of type_word type_numbered class_word is_some_word"
UNFOLDED = {
    "type_word": "type_word type_numbered is_some_word",
    "class_word": "class_word is_some_word",
    "directive_of": "directive_of origin_directive ttl_directive include_directive is_utf8 chars lib.Utf8.encode",
    "record_of": OF_RECORDS,
    "alone": f"zone_text with_rest with_entries with_entry effect_of {OF_RECORDS} directive_of origin_directive ttl_directive",
}
# What takes a text as it stands, and not its octets.
OF_TEXTS = ("token", "in_quotes", "includes_file")
# Octets that a text may have besides those from 32 to 126, as they are written there, and how any octet is written.
WRITTEN = {9: "\\t", 10: "\\n", 34: '\\"', 92: "\\\\"}
READ = {"t": "\t", "n": "\n"}


class Reader:
    """Reads a term: texts, numbers, lists and constructors with what they hold. Names stand for what was named before."""

    def __init__(self, text: str, named: Dict[str, Term]) -> None:
        self.signs = [next(sign for sign in found if sign) for found in SIGN.findall(text)]
        self.named = named
        self.at = 0

    def sign(self) -> str:
        return str(self.signs[self.at]) if self.at < len(self.signs) else ""

    def list_or_term(self) -> Term:
        """One term, or those of a list with `∷` between."""
        first = self.applied()
        if self.sign() != "∷":
            return first
        self.at += 1
        return (first, *self.list_or_term())

    def applied(self) -> Term:
        """A term with the arguments behind it."""
        terms = []
        while self.sign() not in ("", ")", "∷", ";", "}"):
            terms.append(self.single())
        head = terms[0]
        if isinstance(head, tuple) and len(head) == 1 and isinstance(head[0], str):
            return applied(head[0], terms[1:])
        if len(terms) > 1:
            raise ValueError("a term that isn't known here")
        return head

    def arguments(self) -> List[Term]:
        """The terms behind one another."""
        terms = []
        while self.sign():
            terms.append(self.single())
        return terms

    def single(self) -> Term:
        """A term that needs no brackets."""
        sign = self.sign()
        self.at += 1
        if sign == "(":
            inner = self.list_or_term()
            self.at += 1
            return inner
        if sign == "record":
            return self.fields()
        if sign == "[]":
            return ()
        if sign.startswith('"'):
            return tuple(map(ord, re.sub(r"\\(.)", lambda it: READ.get(it[1], it[1]), sign[1:-1])))
        if sign.isdigit():
            return int(sign)
        return self.named.get(sign, {"true": True, "false": False}.get(sign, (sign,)))

    def fields(self) -> Term:
        """A record: names and terms between brackets."""
        found = {}
        while self.sign() != "}":
            self.at += 1  # an opening bracket, or a semicolon, which may also stand behind the last field
            if self.sign() != "}":
                name = self.sign()
                self.at += 2
                found[name] = self.list_or_term()
        self.at += 1
        return record(**found)


def applied(head: str, arguments: List[Term]) -> Term:
    """A constructor with its arguments; the octets of a text; or so many of one octet."""
    if head == "replicate":
        return (arguments[1],) * arguments[0]
    return arguments[0] if head == "codes" else (head, *arguments)


def written(term: Term, is_argument: bool = True) -> str:
    """A term as text."""
    if isinstance(term, int):
        return str(term)
    if term == ():
        return "[]"
    if isinstance(term[0], str):
        first = [quoted(term[1])] if term[0] in OF_TEXTS else []
        text = " ".join([term[0], *first, *map(written, term[1 + len(first):])])
        return f"({text})" if is_argument and len(term) > 1 else text
    if all(isinstance(one, int) and (32 <= one < 127 or one in WRITTEN) for one in term) and not is_address(term):
        return f"(codes {quoted(term)})" if is_argument else f"codes {quoted(term)}"
    text = " ∷ ".join([*(written(one, False) for one in term), "[]"])
    return f"({text})" if is_argument else text


def quoted(octets: Term) -> str:
    """Octets as a text in quotes."""
    return '"' + "".join(WRITTEN.get(octet, chr(octet)) for octet in octets) + '"'


def is_address(term: Term) -> bool:
    return len(term) in (4, 16) and any(one > 126 or one < 32 for one in term)


def facts(path: pathlib.Path) -> Iterator[Tuple[str, str, List[Term], Term]]:
    """The facts of a file of definitions that have rules: name, definition, arguments and value. Others have no arguments."""
    text = path.read_text(encoding="utf-8")
    named: Dict[str, Term] = {}
    for name, term in NAMED.findall(text):
        try:
            named[name] = Reader(term, named).list_or_term()
        except (ValueError, IndexError):
            continue
    for name, definition, arguments, value in FACT.findall(text):
        if definition in RULES:
            yield name, definition, Reader(arguments, named).arguments(), Reader(value, named).list_or_term()
        else:
            yield name, definition, [], ()
    for name, definition, arguments in STATEMENT.findall(text):
        yield name, definition, Reader(arguments, named).arguments() if definition in RULES else [], True


def worked_out(term: Term) -> Term:
    """What a term comes to that is a definition with its arguments, or the term."""
    return RULES[term[0]].value(*term[1:]) if isinstance(term, tuple) and term and term[0] in RULES else term


def check() -> int:
    """Compares all facts, and returns how many differ."""
    compared: Dict[str, int] = collections.Counter()
    passed: Dict[str, int] = collections.Counter()
    wrong = 0
    for path in sorted(TOP.glob("crates/*/proofs/Drawn/*.antt")):
        for name, definition, arguments, value in facts(path):
            if definition not in RULES:
                passed[definition] += 1
                continue
            compared[definition] += 1
            own = RULES[definition].value(*map(worked_out, arguments))
            if own != worked_out(value):
                wrong += 1
                print(f"{path.relative_to(TOP)}: {name}: {written(value, False)}, and by the plain rules {written(own, False)}")
    print(f"drawn: {sum(compared.values())} values of {len(compared)} definitions, {wrong} wrong; {sum(passed.values())} more of {len(passed)} without plain rules")
    return wrong


def draw(definition: str, count: int, seed: int) -> None:
    """Prints facts of a definition."""
    rule, rng = RULES[definition], random.Random(seed)
    assert rule.draw
    for number in range(count):
        arguments = rule.draw(rng)
        print(f"{definition}_{number} : {definition} {' '.join(map(written, arguments))} ≡ {written(rule.value(*arguments), False)}")
        print(f"unfolding {UNFOLDED[definition]}\n" if definition in UNFOLDED else "", end="")
        print(f"{definition}_{number} = refl\n")


def main() -> None:
    line = argparse.ArgumentParser(description=(__doc__ or "").split("\n", maxsplit=1)[0])
    line.add_argument("definition", nargs="?", choices=[name for name, rule in RULES.items() if rule.draw])
    line.add_argument("--count", type=int, default=10)
    line.add_argument("--seed", type=int, default=1)
    asked = line.parse_args()
    if asked.definition:
        draw(asked.definition, asked.count, asked.seed)
    else:
        sys.exit(1 if check() else 0)


if __name__ == "__main__":
    main()
