"""The tables of the views, which the scripts share: the kinds of findings, and the lists of groot-map."""
import json
import os
from typing import Any, Dict, List

VIEWS = os.path.join(os.path.dirname(os.path.dirname(os.path.dirname(os.path.realpath(__file__)))), "views")


def table(name: str) -> Dict[str, Any]:
    """What stands between the outermost brackets of a file of the views, which is JSON."""
    with open(os.path.join(VIEWS, name), encoding="utf-8") as file:
        text = file.read()
    found: Dict[str, Any] = json.loads(text[text.index("{"):text.rindex("}") + 1])
    return found


def kinds() -> List[str]:
    """The kinds of findings."""
    return list(table("kinds.jq"))


def columns() -> Dict[str, List[str]]:
    """The names of the columns of each list that the gate makes, by the word of groot-map that prints it."""
    return {word: listed["columns"] for word, listed in table("lists.jq").items()}
