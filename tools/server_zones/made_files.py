"""A folder of files that are made for one metadata file, with a list that says from where, when and by which command each is."""
import json
import os
import re
import time
from typing import Any, Dict, List, NamedTuple

from . import line_map, whole_files
from .held import NoMetadata
from .paths import absolute

LIST = "groot-made.json"
# What is made otherwise than before has another number; then all is made anew.
FORM = 1


class Origin(NamedTuple):
    """From where a file is: what it is made of, the command that made it, the files that were read for it, and since when, in
    seconds of the clock of files."""

    source: str
    command: str
    files: List[str]
    since: float


class Folder:
    """A folder, which belongs to the metadata file for which it was made first. The list names that file from the folder on, so
    that both can be moved."""

    def __init__(self, path: str, owner: str) -> None:
        self.path = absolute(path)
        self.owner = os.path.relpath(owner, self.path) if owner.startswith("/") else owner
        self.made: Dict[str, Dict[str, Any]] = {}
        self.changed = False
        self.read()

    def read(self) -> None:
        """Reads the list, where there is one. That of another metadata file is refused."""
        listed = line_map.text_of(os.path.join(self.path, LIST))
        if listed is None:
            return
        try:
            found = json.loads(listed)
            owner, self.made = found["for"], dict(found["files"]) if found["form"] == FORM else {}
        except (ValueError, KeyError, TypeError):
            raise NoMetadata(f"{os.path.join(self.path, LIST)}: not as it was written; remove the folder") from None
        if owner != self.owner:
            other = os.path.normpath(self.place(owner)) if owner.startswith(".") else owner
            raise NoMetadata(f"{self.path} has what was made for {other}; give each metadata file a folder of its own")

    def place(self, name: str) -> str:
        """The path of a file of the folder."""
        return os.path.join(self.path, name)

    def is_as_made(self, name: str, command: str) -> bool:
        """Whether a file stands as it was made, by the same command, and of files that are as they were then."""
        entry = self.made.get(name)
        if not entry or entry.get("command") != command or not entry.get("read"):
            return False
        stands = state_of([self.place(name)] + [path for path in [self.place(name) + line_map.END] if entry.get("lines")])
        return entry["read"] == state_of(list(entry["read"])) and entry.get("made") == stands

    def own(self, name: str) -> Dict[str, List[str]]:
        """Of a file as it was made: the places of records of types that a server has for itself."""
        return dict(self.made[name]["own"])

    def put(self, name: str, octets: bytes, runs: List[line_map.Run], origin: Origin, own: Dict[str, List[str]]) -> str:
        """Writes a file and the map of its lines, if it has one, and gives its path."""
        path = self.place(name)
        os.makedirs(os.path.dirname(path), exist_ok=True)
        read = state_of(origin.files)
        if any(changed >= int(origin.since * 1e9) for changed, _ in read.values()):
            read = {}  # one may have changed after it was read, so the file is made anew the next time
        write_new(path, octets)
        made = [path]
        if runs:
            write_new(path + line_map.END, line_map.lines_of(runs))
            made.append(path + line_map.END)
        elif os.path.exists(path + line_map.END):
            os.unlink(path + line_map.END)
        self.made[name] = {"from": origin.source, "at": time.strftime("%Y-%m-%dT%H:%M:%SZ", time.gmtime()),
                           "command": origin.command, "read": read, "made": state_of(made), "lines": bool(runs), "own": own}
        self.changed = True
        return path

    def close(self) -> None:
        """Writes the list."""
        if self.changed:
            text = json.dumps({"form": FORM, "for": self.owner, "files": self.made}, indent=1, ensure_ascii=True)
            whole_files.write(self.place(LIST), text.encode() + b"\n")


def write_new(path: str, octets: bytes) -> None:
    """Writes a file, unless it has these octets: then it stays as old as it is."""
    if line_map.text_of(path) != octets:
        whole_files.write(path, octets)


def state_of(paths: List[str]) -> Dict[str, List[int]]:
    """When each of the files was changed, in nanoseconds, and how long it is."""
    found = {}
    for path in paths:
        if os.path.exists(path):
            state = os.stat(path)
            found[path] = [state.st_mtime_ns, state.st_size]
    return found


def file_name(name: str) -> str:
    """A name as the name of a file."""
    return re.sub(r"[^a-z0-9._-]", lambda found: f"%{ord(found[0]):02x}", name)
