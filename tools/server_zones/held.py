"""What is known of a zone that a server holds, and what there is to say of it."""
import os
from typing import Iterable, List, NamedTuple, Optional, Set

from .names import NotAName, canonical
from .paths import below

UNKNOWN_FOLDER = "the unknown folder in which the server was started"


class NoMetadata(Exception):
    """Why no metadata can be written, in a line; `said` is what a tool said of it."""

    def __init__(self, line: str, said: str = "") -> None:
        super().__init__(line)
        self.said = said


class Server(NamedTuple):
    """A server as the command line names it: which kind it is, the path that its tool gets, the folder below which the files
    of its configuration stand here ("" on the server's own machine), and whether the path has what the tool printed before. A
    server that is asked for its zones has a file with their names or a catalog, and perhaps a file with a key."""

    name: str
    kind: str
    path: str
    root: str = ""
    elsewhere: bool = False
    names: str = ""
    catalog: str = ""
    key: str = ""


class Printer(NamedTuple):
    """A command that prints the records of a zone: its words, which form its lines have (printed_zones.READERS), and what to do
    where it fails."""

    command: List[str]
    form: str
    remedy: str


class Zone(NamedTuple):
    """A zone that a server holds, with the path of its file on this machine, or the command that prints it. Its role is
    "primary", "secondary", or "" where nothing says it. Relative names of included files are meant from `folder`, or, where it
    is None, from the folder of the file that includes them. `refresh` is the line that has the server write its file anew, and
    `unplaced` says why the zone has no file that can be read. Where the server answers from something else than its configured
    file, `live` is the zone as it answers it, and `why` of that one says so."""

    server: Server
    name: str
    role: str
    file: Optional[str]
    folder: Optional[str] = None
    form: str = "text"
    journal: Optional[str] = None
    refresh: str = ""
    unplaced: str = ""
    printer: Optional[Printer] = None
    why: str = ""
    live: Optional["Zone"] = None
    servers: Iterable[str] = ()


class Findings:
    """Lines on what has no place in the metadata, and on what has one and needs a word; and the names of catalogs."""

    def __init__(self, left_out: Iterable[str] = ()) -> None:
        self.left_out: Set[str] = set(left_out)
        self.catalogs: Set[str] = set()
        self.unplaced: List[str] = []
        self.remarks: List[str] = []

    def leaves_out(self, server: Server, name: str) -> bool:
        """Whether the command line leaves this out, which is then said."""
        try:
            left_out = canonical(name) in self.left_out
        except NotAName:  # a file, whose name is too long for a label
            left_out = False
        if left_out:
            self.remark(server, f"{name}: left out")
        return left_out

    def unplace(self, server: Server, name: str, why: str) -> None:
        """Says that something has no place."""
        line = f"{server.name}: {name}: {why}"
        if line not in self.unplaced:
            self.unplaced.append(line)

    def remark(self, server: Server, text: str) -> None:
        """Says something of what has a place, or of what is passed over."""
        line = f"{server.name}: {text}"
        if line not in self.remarks:
            self.remarks.append(line)


def rooted(server: Server, folder: str, path: str) -> Optional[str]:
    """A path of the server's configuration on this machine, or None where nothing says from which folder it is meant."""
    path = folder if path == "." else os.path.join(folder, path)
    return below(server.root, path) if path.startswith("/") else None


def unprinted(server: Server, command: List[str], sign: str) -> NoMetadata:
    """That a configuration isn't what the server's tool prints, by a sign of that, as an included file: zones may be missing."""
    return NoMetadata(f"{server.name}: {server.path}: {command[0]} doesn't print this: {sign}; "
                      f"give what {' '.join(command)} prints")
