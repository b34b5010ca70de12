"""The words of groot-gate, of which those of its own may stand before and behind META."""
import argparse
from typing import Dict, Iterator, List, NamedTuple, NoReturn, Optional, Sequence, Tuple

from server_zones.names import NotAName, canonical
from server_zones.version import version

from .children import Ended
from .tables import kinds
from .terminal import put

USAGE = """groot-gate [--old FINDINGS] [--off KIND] [--unasked SERVER] [--into FOLDER]
                  [--classes N] [--rewrites K] [--workers N] [--without-map] META [OPTION OF groot-metadata ..]"""
VALUED = ("--old", "--off", "--unasked", "--into", "--classes", "--rewrites", "--workers")
OLDER = ("--old-targets", "--old-delegations", "--old-copies", "--old-servers")
FLAGS = ("--without-map", "--version", "--help", "-h")
MOST = {"classes": 1_000_000, "rewrites": 64, "workers": 64}
REFUSED = 2


class Words(NamedTuple):
    """What the command line asks for. `off` has the kinds of findings that are left out. `limits` are options of groot check, `options`
    those of groot-metadata, among which `also` has further names of servers, each with the first one."""

    meta: str
    old: Optional[str]
    off: List[str]
    unasked: List[str]
    into: str
    limits: List[str]
    without_map: bool
    options: List[str]
    also: Dict[str, str]


class Parser(argparse.ArgumentParser):
    """A parser whose errors are one line, and whose help goes where output goes."""

    def error(self, message: str) -> NoReturn:
        """Ends the script."""
        raise Ended(REFUSED, f"{message}; groot-gate --help lists the options")


def words(line: Sequence[str]) -> Words:
    """The words of the command line. Asked for help or the version, it prints that and ends the script."""
    own, options = sorted_out(line)
    parser = parser_of()
    if "--help" in own or "-h" in own:
        put(parser.format_help().encode())
        raise SystemExit(0)
    if "--version" in own:
        put(f"groot-gate {version()}\n".encode())
        raise SystemExit(0)
    found = parser.parse_args(own)
    try:
        unasked = [canonical(name) for name in found.unasked]
        also = {canonical(other): canonical(first) for first, other in pairs(options, "--also")}
    except NotAName as fault:
        raise Ended(REFUSED, f"{fault}: not a name, and --unasked and --also want one") from None
    limits = [word for name, most in MOST.items() for word in limit(name, getattr(found, name), most)]
    unknown = sorted(set(found.off) - set(kinds()))
    if unknown:
        raise Ended(REFUSED, f"--off {unknown[0]}: no such kind; there are {', '.join(sorted(kinds()))}")
    return Words(found.meta, found.old, list(dict.fromkeys(found.off)), unasked, found.into, limits, found.without_map, options, also)


def sorted_out(line: Sequence[str]) -> Tuple[List[str], List[str]]:
    """The gate's own words, with META, and those of groot-metadata, which stand behind META."""
    own: List[str] = []
    others: List[str] = []
    meta_met, is_value = False, False
    for word in line:
        name, equals, _ = word.partition("=")
        if name in OLDER:
            raise Ended(REFUSED, f"{name}: --old alone does now, with findings.json of an earlier run")
        if is_value:
            own[-1] += f"={word}"
            is_value = False
        elif name in VALUED or word in FLAGS:
            own.append(word)
            is_value = name in VALUED and not equals
        elif meta_met:
            others.append(word)
        else:
            own.append(word)
            meta_met = not word.startswith("-")
    return own, others


def pairs(options: List[str], option: str) -> Iterator[Tuple[str, str]]:
    """The pairs NAME=OTHER that an option of groot-metadata has."""
    for place, word in enumerate(options):
        text = options[place + 1] if word == option and place + 1 < len(options) else word.partition(f"{option}=")[2]
        first, equals, other = text.partition("=")
        if equals and other:
            yield first, other


def limit(name: str, text: Optional[str], most: int) -> List[str]:
    """The words of groot check for a limit, if one is given."""
    if text is None:
        return []
    if not (text.isascii() and text.isdigit() and 1 <= int(text) <= most):
        raise Ended(REFUSED, f"--{name} {text}: write a number from 1 to {most}")
    return [f"--{name}", text]


def parser_of() -> Parser:
    """The parser of the gate's own words."""
    parser = Parser(prog="groot-gate", usage=USAGE, allow_abbrev=False, add_help=False, description=(
        "Checks a configuration in a pipeline: metadata, the report, what groot-map finds beside it, and what is new in all that. "
        "Options of groot-metadata behind META make META first."))
    parser.add_argument("--old", metavar="FINDINGS", help=(
        "findings.json of an earlier run, or a report of groot check: what they have is known"))
    parser.add_argument("--off", metavar="KIND", action="append", default=[], help="leave a kind of findings out, which is said")
    parser.add_argument("--unasked", metavar="SERVER", action="append", default=[], help=(
        "a server, as a hidden primary, whose rows no query needs to reach"))
    parser.add_argument("--into", metavar="FOLDER", default="groot-report", help="where the files go (groot-report)")
    parser.add_argument("--classes", metavar="N", help="how many names groot check may tell apart (100000)")
    parser.add_argument("--rewrites", metavar="K", help="how many rewrites a query may use (12)")
    parser.add_argument("--workers", metavar="N", help="how many threads judge (4)")
    parser.add_argument("--without-map", action="store_true", help=(
        "do without groot-map: none of its lists, and no file and line of a fault"))
    parser.add_argument("--version", action="store_true", help="print the version")
    parser.add_argument("--help", "-h", action="store_true", help="print this text")
    parser.add_argument("meta", metavar="META", help="the metadata file")
    return parser
