"""The version of the scripts."""
import os
import re

TOP = os.path.dirname(os.path.dirname(os.path.dirname(os.path.abspath(__file__))))
HEADING = re.compile(r"^## \[(\d[\d.]*)\]", re.M)


def version() -> str:
    """The version that ./install wrote; in a copy of the repository that of its list of changes, which is said."""
    try:
        with open(os.path.join(TOP, "version"), encoding="utf-8") as file:
            return file.read().strip()
    except FileNotFoundError:
        pass
    try:
        with open(os.path.join(TOP, "CHANGELOG.md"), encoding="utf-8") as file:
            found = HEADING.search(file.read())
    except FileNotFoundError:
        found = None
    return f"{found[1]} (a copy of the repository)" if found else "unknown"
