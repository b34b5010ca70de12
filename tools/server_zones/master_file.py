"""The entries of a master file, cut as groot cuts them (docs/FORMATS.md, section 8)."""
import re
from typing import Iterator, List, NamedTuple, Tuple

LEXEME = re.compile(
    rb'([ \t\r]+)|(\n)|;[^\n]*|([()])|"((?:[^"\\\n]|\\[^\n])*)"|((?:[^ \t\r\n;()"\\]|\\[^\n])+)')
BLANKS, FEED, BRACKET, QUOTED, PLAIN = 1, 2, 3, 4, 5
# What Windows writes in front of the TTL of a record that a client registered.
AGE = re.compile(rb"\[AGE:[0-9]+\]", re.I)
CLASS = re.compile(rb"(?:IN|CH|CS|HS|CLASS[0-9]{1,5})", re.I)


class NotCut(ValueError):
    """The text can't be cut into entries, from this line on."""


class Token(NamedTuple):
    """A token, as it is written but for the quotes around it."""

    text: bytes
    quoted: bool


class Entry(NamedTuple):
    """An entry: its first and last line, whether it begins with a blank, and its tokens."""

    first: int
    last: int
    blank: bool
    tokens: Tuple[Token, ...]


class Parts(NamedTuple):
    """The parts of a record: its owner, TTL and class as they are written, its type in upper case, its data, and whether Windows
    has marked its age."""

    owner: bytes
    ttl: bytes
    rclass: bytes
    rtype: bytes
    data: Tuple[Token, ...]
    aged: bool


def entries(text: bytes) -> Iterator[Entry]:
    """The entries of a text in their order. What can't be cut is NotCut, with its line."""
    line, depth, first, start, position = 1, 0, 0, 0, 0
    tokens: List[Token] = []
    for found in LEXEME.finditer(text):
        kind = found.lastindex
        if found.start() != position:
            break
        position = found.end()
        if kind == FEED:
            line += 1
            if not depth:
                if tokens:
                    yield entry_of(text, first, line - 1, start, tokens)
                tokens, first = [], 0
        elif kind in (BRACKET, QUOTED, PLAIN):
            if not first:
                first, start = line, text.rfind(b"\n", 0, found.start()) + 1
            if kind == BRACKET:
                depth += 1 if found[BRACKET] == b"(" else -1
            else:
                tokens.append(Token(found[kind], kind == QUOTED))
        if depth < 0:
            break
    if position != len(text) or depth:
        raise NotCut(first or line)
    if tokens:
        yield entry_of(text, first, line, start, tokens)


def entry_of(text: bytes, first: int, last: int, start: int, tokens: List[Token]) -> Entry:
    """An entry of a text whose first line begins at a place."""
    return Entry(first, last, text[start:start + 1] in (b" ", b"\t"), tuple(tokens))


def directive_of(entry: Entry) -> bytes:
    """The word of a directive in upper case; of a record, nothing."""
    word = entry.tokens[0]
    return word.text.upper() if word.text.startswith(b"$") and not word.quoted and not entry.blank else b""


def parts_of(entry: Entry) -> Parts:
    """The parts of a record. Where it ends before a type, the type is empty."""
    rest = list(entry.tokens)
    owner = b"" if entry.blank else rest.pop(0).text
    ttl = rclass = b""
    aged = False
    while rest and not rest[0].quoted:
        if not aged and AGE.fullmatch(rest[0].text):
            aged = rest.pop(0) is not None
        elif not ttl and rest[0].text[:1].isdigit():
            ttl = rest.pop(0).text
        elif not rclass and CLASS.fullmatch(rest[0].text):
            rclass = rest.pop(0).text
        else:
            break
    rtype = rest.pop(0).text.upper() if rest else b""
    return Parts(owner, ttl, rclass, rtype, tuple(rest), aged)


def written(token: Token) -> bytes:
    """A token with the quotes around it."""
    return b'"' + token.text + b'"' if token.quoted else token.text
