"""The text of a zone as groot reads it: its files put together, each $GENERATE written out, and types that groot doesn't know by
number. All other lines stay as they are, so that each line has a place in the operator's files."""
import os
from typing import Callable, Dict, List, NamedTuple, Optional, Tuple

from .generate import NotGenerated, generated
from .held import NoMetadata
from .line_map import Run
from .master_file import Entry, NotCut, Parts, directive_of, entries, parts_of, written
from .names import NotAName, below
from .rtypes import APEX_ALIAS, OWN, NotWritten, by_number, is_unknown

MOST_INCLUDE_DEPTH = 8


class Plain(NamedTuple):
    """The text of a zone, from where its lines come, the files that were read, and of each type that a server has for itself the
    places of its records."""

    octets: bytes
    runs: List[Run]
    files: List[str]
    own: Dict[str, List[str]]


class Writer:
    """Writes the text of one zone. `meant` gives the file that a name stands for, where a file includes it. A CNAME record of the
    owner `apex` counts as one of a server's own type."""

    def __init__(self, origin: str, meant: Callable[[str, str], str], apex: str = "") -> None:
        self.origin, self.meant, self.apex = origin, meant, apex
        self.owner: Optional[Tuple[bytes, str]] = None
        self.owner_hidden = False
        self.lines: List[bytes] = []
        self.plain = Plain(b"", [], [], {})

    def result(self) -> Plain:
        """What was written."""
        return self.plain._replace(octets=b"".join(line + b"\n" for line in self.lines))

    def put_file(self, path: str, octets: bytes, depth: int = 0) -> None:
        """Writes the entries of a file."""
        if depth > MOST_INCLUDE_DEPTH:
            raise NoMetadata(f"{path} is included more than {MOST_INCLUDE_DEPTH} deep")
        self.plain.files.append(path)
        lines = octets.removesuffix(b"\n").split(b"\n")
        done, at = 0, 0
        try:
            for entry in entries(octets):
                at = entry.first
                if not self.stays(entry):
                    self.put(lines[done:at - 1], path, done + 1, 1)
                    self.put_entry(entry, lines, path, depth)
                    done = entry.last
        except NotCut as fault:
            raise NoMetadata(f"{path}:{fault}: a quote, a bracket or an escape without its other half") from None
        except NotAName as fault:
            raise NoMetadata(f"{path}:{at}: {fault}: not a name") from None
        except (NotGenerated, NotWritten) as fault:
            raise NoMetadata(f"{path}:{at}: {fault}") from None
        self.put(lines[done:], path, done + 1, 1)

    def stays(self, entry: Entry) -> bool:
        """Whether an entry is written as it stands. What it says for the entries behind it is kept."""
        word = directive_of(entry)
        if word:
            if word == b"$ORIGIN" and len(entry.tokens) > 1:
                self.origin = below(os.fsdecode(entry.tokens[1].text), self.origin)
            return word not in (b"$INCLUDE", b"$GENERATE")
        if not entry.blank:
            self.owner, self.owner_hidden = (entry.tokens[0].text, self.origin), False
        parts = self.parts_of(entry)
        return not self.owner_hidden and not parts.aged and not is_unknown(parts.rtype)

    def parts_of(self, entry: Entry) -> Parts:
        """The parts of a record."""
        parts = parts_of(entry)
        is_alias = self.apex and self.owner and parts.rtype == b"CNAME"
        return parts._replace(rtype=APEX_ALIAS) if is_alias and self.last_owner() == self.apex else parts

    def last_owner(self) -> str:
        """The owner of the last record that has one."""
        return below(os.fsdecode(self.owner[0]), self.owner[1]) if self.owner else ""

    def put(self, lines: List[bytes], path: str, line: int, step: int) -> None:
        """Writes lines, the first of which comes from a line of a file."""
        if lines:
            first = len(self.lines) + 1
            self.lines += lines
            self.plain.runs.append(Run(first, len(self.lines), line, step, path))

    def put_entry(self, entry: Entry, lines: List[bytes], path: str, depth: int) -> None:
        """Writes an entry that doesn't stay as it stands."""
        word = directive_of(entry)
        if word == b"$INCLUDE":
            self.put_included(entry, path, depth)
        elif word:
            self.put(generated(entry), path, entry.first, 0)
            self.owner_hidden = True
        elif self.parts_of(entry).aged or is_unknown(self.parts_of(entry).rtype):
            self.put([self.anew(entry, path)], path, entry.first, 0)
        else:
            own = lines[entry.first - 1:entry.last]
            self.put([self.hidden_owner() + own[0], *own[1:]], path, entry.first, 1)

    def put_included(self, entry: Entry, path: str, depth: int) -> None:
        """Writes the entries of an included file, between lines that set its origin and the one behind it."""
        if len(entry.tokens) < 2:
            raise NotGenerated("$INCLUDE wants a file")
        file = self.meant(path, unescaped(entry.tokens[1].text))
        before, owner = self.origin, self.owner
        if len(entry.tokens) > 2:
            self.origin = below(os.fsdecode(entry.tokens[2].text), before)
        with open(file, "rb") as included:
            octets = included.read()
        self.put([b"$ORIGIN " + self.origin.encode()], path, entry.first, 0)
        self.put_file(file, octets, depth + 1)
        self.put([b"$ORIGIN " + before.encode()], path, entry.first, 0)
        self.origin, self.owner, self.owner_hidden = before, owner, True

    def anew(self, entry: Entry, path: str) -> bytes:
        """The line of a record without the mark of its age, with a type that groot doesn't know by its number."""
        parts = self.parts_of(entry)
        if parts.rtype in OWN:
            self.plain.own.setdefault(parts.rtype.decode(), []).append(f"{path}:{entry.first}")
        front = [self.hidden_owner() if entry.blank else parts.owner, parts.ttl, parts.rclass]
        data = b" ".join(written(token) for token in parts.data)
        text = by_number(parts.rtype, data, self.origin) if is_unknown(parts.rtype) else parts.rtype + b" " + data
        return b" ".join([front[0], *(part for part in front[1:] if part), text])

    def hidden_owner(self) -> bytes:
        """The owner of an entry that begins with a blank, if the last line that was written has another one; else nothing."""
        if not self.owner_hidden:
            return b""
        if not self.owner:
            raise NotGenerated("a record without an owner, and none before it in this file")
        self.owner_hidden = False
        return self.last_owner().encode()


def unescaped(text: bytes) -> str:
    """The name of an included file, without its escapes."""
    parts, at = [], 0
    while at < len(text):
        at += text[at:at + 1] == b"\\"
        parts.append(text[at:at + 1])
        at += 1
    return os.fsdecode(b"".join(parts))
