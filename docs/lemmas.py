"""The tree of a call's proof: the files of lemmas that the answers of its goals cite, and so the calls in its body, down to the lowest.

`definitions.py --lemmas CALL` prints it. A call all of whose goals the check answers by itself is left out, and those in its body
stand in its place.
"""
import collections
import functools
import pathlib
import re
from typing import Dict, FrozenSet, Iterator, List, NamedTuple, Set, Tuple

CRATES = pathlib.Path(__file__).resolve().parent.parent / "crates"
CITES = re.compile(r"^use Rattle\.(\w+)\.proofs\.([\w.]+?)(?:\.\{(.*)\})?(?: as \w+)?$", re.M)
FUNCTION = re.compile(r"^( *)(?:pub(?:\(crate\))? )?fn (\w+)", re.M)
CALLED = re.compile(r"(?<!\w)(\w+)(?:::<[^(]*>)?\(")


class Call(NamedTuple):
    """A function of the code: its crate, name, body, the crates that its file uses, and the files of its answers."""

    crate: str
    name: str
    body: str
    uses: FrozenSet[str]
    answers: Tuple[pathlib.Path, ...]


@functools.cache
def calls() -> Dict[str, List[Call]]:
    """The functions of all crates, by their names."""
    found: Dict[str, List[Call]] = collections.defaultdict(list)
    for path in sorted(CRATES.glob("*/src/**/*.rt")):
        text = path.read_text()
        crate = path.relative_to(CRATES).parts[0]
        uses = frozenset(re.findall(r"^use (\w+)", text, re.M))
        for begun in FUNCTION.finditer(text):
            body = text[begun.end():].split(f"\n{begun[1]}}}\n")[0]
            answers = tuple(sorted((CRATES / crate / "proofs").glob(f"{path.stem}/**/{begun[2]}/*.antt")))
            found[begun[2]].append(Call(crate, begun[2], body, uses, answers))
    return found


def lines_of_tree(name: str) -> Iterator[str]:
    """The lines of the trees of the calls of this name."""
    seen: Set[object] = set()
    for call in calls()[name]:
        yield from of_call(call, 0, seen)


def of_call(call: Call, depth: int, seen: Set[object]) -> Iterator[str]:
    """The lines of a call, unless it stands already: itself and the lemmas that its answers cite, if it has some, then those of the calls in its body."""
    if call in seen:
        return
    seen.add(call)
    if call.answers:
        goals = sum(len(re.findall(r"^pub ", path.read_text(), re.M)) for path in call.answers)
        yield f"{'  ' * depth}{call.name} ({call.crate}): {goals} goals answered by hand"
        depth += 1
    for path in call.answers:
        yield from lemmas(path, depth, seen)
    for name in sorted(set(CALLED.findall(call.body))):
        for callee in called(call, name):
            yield from of_call(callee, depth, seen)


def called(call: Call, name: str) -> List[Call]:
    """The functions that may be meant by a name in a call's body: those of its crate, or else the one in a crate that its file uses."""
    own = [it for it in calls().get(name, ()) if it.crate == call.crate]
    others = [it for it in calls().get(name, ()) if it.crate in call.uses]
    return own or (others if len(others) == 1 else [])


def lemmas(path: pathlib.Path, depth: int, seen: Set[object]) -> Iterator[str]:
    """The lines of the files of lemmas that a file cites, each once, with the sentence at its head, and below each what it cites."""
    for crate, module, names in CITES.findall(path.read_text()):
        cited = CRATES / crate / "proofs" / (module.replace(".", "/") + ".antt")
        if cited.exists() and cited not in seen:
            seen.add(cited)
            yield f"{'  ' * depth}{crate}/{module}: {sentence_of(cited)} [{names or 'all'}]"
            yield from lemmas(cited, depth + 1, seen)


def sentence_of(path: pathlib.Path) -> str:
    """The sentence at the head of a file of lemmas."""
    head = re.match(r"(?:-- .*\n)+", path.read_text())
    return re.sub(r"\s*-- ", " ", head[0]).strip() if head else ""
