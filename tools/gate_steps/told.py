"""What the programs say that the gate runs: the first lines of it go to the log, and all of it to a file of the folder if there are more."""
from typing import Iterable, List

from .folder import Folder
from .terminal import pass_on, say, shown_line

MOST_SAID = 40
FILE = "said.txt"


class Told:
    """The lines that programs said, in order."""

    def __init__(self, folder: Folder) -> None:
        self.folder = folder
        self.lines: List[str] = []

    def add(self, lines: Iterable[str]) -> None:
        """Passes lines on, as far as the log has room for them."""
        new = list(lines)
        pass_on(new[:max(0, MOST_SAID - len(self.lines))])
        self.lines += new

    def close(self) -> None:
        """Says where the others are, if there are some."""
        if len(self.lines) > MOST_SAID:
            with self.folder.writing(FILE) as file:
                file.write("".join(f"{shown_line(line)}\n" for line in self.lines).encode("utf-8", "replace"))
            say(f".. and {len(self.lines) - MOST_SAID} more lines: {self.folder.at(FILE)}")
