"""The records that a $GENERATE of BIND stands for, as named reads it (BIND 9 Administrator Reference Manual, $GENERATE)."""
import re
from typing import List, Match

from .master_file import Entry, Token, parts_of

MOST_RECORDS = 1_000_000
RANGE = re.compile(rb"(\d{1,9})-(\d{1,9})(?:/(\d{1,9}))?")
PLACE = re.compile(rb"\$\$|\$\{(-?\d{1,9})(?:,(\d{1,3})(?:,([doxXnN]))?)?\}|(\$\{)|\$|\\.", re.S)


class NotGenerated(ValueError):
    """Why the lines of a $GENERATE can't be written out."""


def generated(entry: Entry) -> List[bytes]:
    """The lines that a $GENERATE stands for, a record in each."""
    if len(entry.tokens) < 5:
        raise NotGenerated("it wants a range, an owner, a type and one text for the data")
    record = parts_of(entry._replace(tokens=entry.tokens[2:]))
    if len(record.data) != 1 or entry.tokens[2].quoted:
        raise NotGenerated("its data aren't one text; put a text with spaces in quotes")
    middle = b" ".join(part for part in (record.ttl, record.rclass, record.rtype) if part)
    data = unquoted(record.data[0])
    return [b"%s %s %s" % (protected(filled(record.owner, number)), middle, filled(data, number))
            for number in numbers(entry.tokens[1].text)]


def numbers(text: bytes) -> range:
    """The numbers of a range, FIRST-LAST or FIRST-LAST/STEP."""
    found = RANGE.fullmatch(text)
    if not found or int(found[2]) < int(found[1]) or found[3] in (b"0", b"00"):
        raise NotGenerated(f"{text.decode(errors='replace')} is no range")
    counted = range(int(found[1]), int(found[2]) + 1, int(found[3] or 1))
    if len(counted) > MOST_RECORDS:
        raise NotGenerated(f"it writes {len(counted)} records, and groot takes {MOST_RECORDS}")
    return counted


def filled(text: bytes, number: int) -> bytes:
    """A text with the number in the place of each $ that isn't escaped."""

    def put(found: Match[bytes]) -> bytes:
        if found[4]:
            raise NotGenerated(f"{text.decode(errors='replace')}: what stands in braces isn't known here")
        if found[0] == b"$$":
            return b"$"
        if found[0].startswith(b"\\"):
            return found[0]
        return formatted(number + int(found[1] or 0), int(found[2] or 0), (found[3] or b"d").decode())

    return PLACE.sub(put, text)


def formatted(number: int, width: int, base: str) -> bytes:
    """A number as a modifier has it: decimal, octal or hexadecimal, or its hexadecimal digits as labels, the last one first."""
    if number < 0 and base != "d":
        raise NotGenerated(f"{number} has no form in the base {base}")
    if base not in "nN":
        return b"%s" % format(number, f"0{width}{base}" if width else base).encode()
    digits = format(number, "x" if base == "n" else "X")[::-1]
    labels = ".".join(digits)
    while len(labels) < width - 1:
        labels += ".0"
    return labels.encode() + (b"." if len(labels) < width else b"")


def unquoted(token: Token) -> bytes:
    """The text of the data: in quotes, an escaped quote is a quote."""
    return token.text.replace(b'\\"', b'"') if token.quoted else token.text


def protected(owner: bytes) -> bytes:
    """An owner, which at the beginning of a line isn't taken for a directive."""
    return b"\\" + owner if owner.startswith(b"$") else owner
