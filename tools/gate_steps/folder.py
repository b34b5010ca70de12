"""The folder into which a run writes: its own files alone, each of them whole or not at all."""
import contextlib
import fcntl
import os
import stat
from typing import IO, Iterator, Sequence

from server_zones.paths import absolute

from .children import Ended

MARK = ".groot-gate"
MARKED = "groot-gate made this folder. Each run removes the files of the run before.\n"
PART = ".part"


class Folder:
    """A folder of results, and the names of the files that a run writes there."""

    def __init__(self, path: str, names: Sequence[str], refused: int) -> None:
        self.path, self.names, self.refused = absolute(path), names, refused

    def at(self, name: str) -> str:
        """The path of one of its files."""
        return os.path.join(self.path, name)

    @contextlib.contextmanager
    def held(self) -> Iterator[None]:
        """Makes the folder where it isn't there, and keeps other runs out of it for a while. A folder with files that no run
        made is refused."""
        os.makedirs(self.path, exist_ok=True)
        if not os.path.isfile(self.at(MARK)) and os.listdir(self.path):
            raise Ended(self.refused, f"--into {self.path}: it has files that groot-gate didn't make; name another folder, or empty it")
        with open(self.at(MARK), "a+", encoding="utf-8") as mark:
            try:
                fcntl.flock(mark, fcntl.LOCK_EX | fcntl.LOCK_NB)
            except BlockingIOError:
                raise Ended(self.refused, f"--into {self.path}: another groot-gate is at work there; name another folder, or wait") from None
            if not mark.tell():
                mark.write(MARKED)
                mark.flush()
            yield

    def empty(self, kept: Sequence[str]) -> None:
        """Removes what an earlier run left. A file that this run reads is refused, and so is what is no regular file."""
        for name in self.names:
            for path in (self.at(name), self.at(name) + PART):
                if os.path.lexists(path):
                    self.check(path, kept)
        for name in self.names:
            for path in (self.at(name), self.at(name) + PART):
                if os.path.lexists(path):
                    os.unlink(path)

    def check(self, path: str, kept: Sequence[str]) -> None:
        """Refuses to remove a file that is to be read, and what is no regular file."""
        for file in kept:
            if os.path.exists(path) and os.path.samefile(path, file):
                raise Ended(self.refused, f"{file}: this run writes over it; copy it to another folder first")
        if not stat.S_ISREG(os.lstat(path).st_mode):
            raise Ended(self.refused, f"{path}: it is no regular file; remove it, or name another folder by --into")

    @contextlib.contextmanager
    def writing(self, name: str) -> Iterator[IO[bytes]]:
        """A file to write. It has its name once it is whole; if something fails on the way, nothing is left of it."""
        part = self.at(name) + PART
        try:
            with open(part, "xb") as file:
                yield file
            os.replace(part, self.at(name))
        except BaseException:
            with contextlib.suppress(OSError):
                os.unlink(part)
            raise
