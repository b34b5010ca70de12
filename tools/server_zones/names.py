"""Domain names as groot reads and prints them (docs/FORMATS.md, section 7)."""
import functools
import os
import re
from typing import List

MOST_OCTETS = 255
HOST = re.compile(r"[A-Za-z0-9_-]{1,63}(?:\.[A-Za-z0-9_-]{1,63})*\.?", re.A)
PIECE = re.compile(rb"\\([0-9]{3})|\\([^0-9])|(\.)|([^\\.])|(\\)", re.S)
LABEL = re.compile(r"(?:[^\\.]|\\.)+")
ESCAPED = '.\\"();@$'
# Control characters, those that turn the direction of what follows, separators of lines, and octets that aren't UTF-8.
UNSEEN = re.compile("[\x00-\x1f\x7f-\x9f\u061c\u200b-\u200f\u2028-\u202e\u2060-\u2069\ufeff\ud800-\udfff]")


class NotAName(ValueError):
    """The text is no name."""


@functools.lru_cache(maxsize=1 << 16)
def canonical(text: str) -> str:
    """The name that the text is below the root, as groot prints it."""
    if text in (".", "@"):
        return "."
    if HOST.fullmatch(text) and len(text) < MOST_OCTETS - 1:
        return text.lower() if text.endswith(".") else text.lower() + "."
    labels = [b""]
    for piece in PIECE.finditer(os.fsencode(text)):
        number, escaped, dot, plain, stray = piece.groups()
        if stray or (number and int(number) > 255):
            raise NotAName(text)
        if dot:
            labels.append(b"")
        else:
            labels[-1] += bytes([int(number)]) if number else escaped or plain
    if len(labels) > 1 and not labels[-1]:
        labels.pop()
    if not all(0 < len(label) < 64 for label in labels) or sum(len(label) + 1 for label in labels) >= MOST_OCTETS:
        raise NotAName(text)
    return "".join("".join(map(printed_octet, label.lower())) + "." for label in labels)


def printed_octet(octet: int) -> str:
    """An octet of a label as it is printed."""
    if chr(octet) in ESCAPED:
        return "\\" + chr(octet)
    return chr(octet) if 33 <= octet <= 126 else f"\\{octet:03}"


def labels_of(name: str) -> List[str]:
    """The printed labels of a printed name, the lowest first."""
    return LABEL.findall(name)


def below(text: str, origin: str) -> str:
    """The name that a text of a zone file is below an origin."""
    if text == "@":
        return origin
    name = canonical(text)
    front = text[:-1]
    if text.endswith(".") and (len(front) - len(front.rstrip("\\"))) % 2 == 0:
        return name
    return canonical(name + (origin if origin != "." else ""))


def names_above(name: str) -> List[str]:
    """The names above a name, the nearest first, with the root."""
    labels = labels_of(name)
    return ["".join(label + "." for label in labels[at:]) or "." for at in range(1, len(labels) + 1)]


def at_or_below(name: str, other: str) -> bool:
    """Whether a name is the other one, or stands below it."""
    return name == other or other in names_above(name)


def by_label(name: str) -> List[str]:
    """The labels of a name from the top label down: names are listed in this order."""
    return labels_of(name)[::-1]


def shown(text: str) -> str:
    """A text as a terminal and a log may get it: in one line, each character that isn't seen as its number."""
    return UNSEEN.sub(lambda found: number_of(ord(found[0])), text.replace("\t", " "))


def number_of(character: int) -> str:
    """A character that isn't seen, as Python and JSON write it; an octet that isn't UTF-8 by its own number."""
    if 0xDC80 <= character <= 0xDCFF:
        return f"\\x{character - 0xDC00:02x}"
    return f"\\x{character:02x}" if character < 256 else f"\\u{character:04x}"
