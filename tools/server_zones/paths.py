"""Paths of files, as they were written and below the folder of a copied server."""
import errno
import os
from typing import List

MOST_LINKS = 40


def absolute(path: str) -> str:
    """A path from the working folder on, without parts that say nothing. What stands before ".." stays: it may be a link."""
    parts = [part for part in os.path.join(os.getcwd(), path).split("/") if part not in ("", ".")]
    return "/" + "/".join(parts)


def below(root: str, path: str) -> str:
    """An absolute path of a server whose files stand below a folder, with each link followed as the server follows it, so that
    none leads out of the folder. Where the folder is "", the path as it is."""
    if not root:
        return path
    found: List[str] = []
    parts, links = path.split("/")[::-1], 0
    while parts:
        part = parts.pop()
        here = "/".join([root, *found, part])
        if part == "..":
            found = found[:-1]
        elif part not in ("", ".") and os.path.islink(here):
            if links == MOST_LINKS:
                raise OSError(errno.ELOOP, os.strerror(errno.ELOOP), here)
            target = os.readlink(here)
            found = [] if target.startswith("/") else found
            parts += target.split("/")[::-1]
            links += 1
        elif part not in ("", "."):
            found.append(part)
    return "/".join([root, *found])
