"""Whether groot can read the file of a zone as it stands, and the plain text that is made of it."""
import functools
import os
import re
import shlex
import time
from typing import Dict, List, NamedTuple, Optional, Tuple

from . import made_files, printed_zones, rtypes, same_records
from .held import NoMetadata, Zone
from .journals import has_more
from .master_file import NotCut, directive_of, entries, parts_of
from .paths import below
from .plain_text import MOST_INCLUDE_DEPTH, Plain, Writer
from .programs import octets_of

BINARY_FRONTS = {b"\0\0\0\2": "raw", b"\0\0\0\3": "map"}
DIRECTIVE = re.compile(rb'^\$(GENERATE|INCLUDE)\b[ \t]*(?:"((?:[^"\\\n]|\\.)*)"|((?:[^\s;\\]|\\.)*))', re.I | re.M)
CATALOG = re.compile(rb"^version[. \t][^\n]*\bTXT\b", re.I | re.M)
JUDGE_LITTLE = ["-i", "none", "-k", "ignore", "-n", "ignore"]
JUDGE_NOTHING = JUDGE_LITTLE + [word for option in "mMrSW" for word in ("-" + option, "ignore")]


class Found(NamedTuple):
    """What stands in a file: which binary form it has, if any; else whether it has a $GENERATE, the names that it includes, a
    record of a type that groot doesn't know by its word, and whether it may be that of a catalog."""

    binary: str
    generates: bool
    names: List[str]
    unknown: str
    may_be_catalog: bool


def why_not_plain(zone: Zone, meta_folder: str) -> str:
    """Why groot, with metadata in this folder, can't read the zone's file as it stands; "" where it can."""
    if zone.printer:
        return zone.why
    form = form_of(zone)
    if form != "text":
        return zone.why or f"its file is in the form {form}"
    found = included(zone, str(zone.file))
    for name, meant in found.names:
        if not same_file(os.path.join(meta_folder, name), meant):
            return f"it includes {name}, which is {meant} to its server and {os.path.join(meta_folder, name)} to groot"
    if found.generates:
        return "it uses $GENERATE"
    if found.unknown:
        return f"it has a record of a form that groot doesn't know: {found.unknown}"
    return "it has a CNAME record at its origin, which its server answers otherwise" if has_apex_alias(zone) else ""


def apex_of(zone: Zone) -> str:
    """The origin of a zone in whose file a CNAME record may stand there, as in exports of a provider that answers what it leads
    to; else ""."""
    return zone.name if zone.server.kind == "zones" else ""


def has_apex_alias(zone: Zone) -> bool:
    """Whether a line of such a file begins with the zone's name and seems to have a CNAME record."""
    if not apex_of(zone):
        return False
    with open(str(zone.file), "rb") as file:
        octets = file.read()
    form = rb"^(?:@|%s\.?)[ \t][^\n;]*\bCNAME[ \t]" % re.escape(os.fsencode(zone.name[:-1]))
    return re.search(form, octets, re.M | re.I) is not None


def has_changes(zone: Zone) -> bool:
    """Whether the journal of a zone has changes that its file may not have."""
    return bool(zone.journal and zone.file and os.path.exists(zone.journal)) and has_more(
        str(zone.journal), str(zone.file), form_of(zone))


def form_of(zone: Zone) -> str:
    """The form of a zone's file: what its first octets say, else what the configuration says."""
    return seen(str(zone.file)).binary or zone.form


class Included(NamedTuple):
    """Of a file and all that it includes: whether one has a $GENERATE, each included name with the file that is meant, and the
    first record of a type that groot doesn't know."""

    generates: bool
    names: List[Tuple[str, str]]
    unknown: str


def included(zone: Zone, path: str, depth: int = 0) -> Included:
    """What stands in a file, and in all that it includes."""
    if depth > MOST_INCLUDE_DEPTH:
        raise NoMetadata(f"{path} is included more than {MOST_INCLUDE_DEPTH} deep")
    found = seen(path)
    names = [(name, meant(zone, path, name)) for name in found.names]
    whole = Included(found.generates, names, found.unknown)
    for _, file in names:
        more = included(zone, file, depth + 1)
        whole = Included(whole.generates or more.generates, whole.names + more.names, whole.unknown or more.unknown)
    return whole


def meant(zone: Zone, path: str, name: str) -> str:
    """The file that an included name means to a zone's server, in a file."""
    file = os.path.join(zone.folder or os.path.dirname(path), name)
    return below(zone.server.root, name) if name.startswith("/") else inside(zone, file)


def inside(zone: Zone, file: str) -> str:
    """A file on this machine, with its links followed as the zone's server follows them."""
    root = zone.server.root
    return below(root, file[len(root):]) if root and file.startswith(root + "/") else file


@functools.lru_cache(maxsize=None)
def seen(path: str) -> Found:
    """What stands in one file, which is read once."""
    with open(path, "rb", buffering=0) as file:
        octets = file.read(4)
        if octets in BINARY_FRONTS:
            return Found(BINARY_FRONTS[octets], False, [], "", False)
        octets += file.readall()
    found = DIRECTIVE.findall(octets) if b"$" in octets else []
    names = [re.sub(rb"\\(.)", rb"\1", quoted or plain) for word, quoted, plain in found if word.upper() == b"INCLUDE"]
    return Found("", len(names) < len(found), [os.fsdecode(name) for name in names], unknown_type(path, octets),
                 b"invalid." in octets and CATALOG.search(octets) is not None)


def unknown_type(path: str, octets: bytes) -> str:
    """The first record of a type that groot doesn't know by its word: the word, and the place; "" where there is none."""
    if not rtypes.LIKELY.search(octets.upper()):
        return ""
    try:
        for entry in entries(octets):
            parts = None if directive_of(entry) else parts_of(entry)
            if parts and (parts.aged or rtypes.is_unknown(parts.rtype)):
                return f"{'[AGE:..]' if parts.aged else parts.rtype.decode()} ({path}:{entry.first})"
    except NotCut:
        pass
    return ""


def same_file(one: str, other: str) -> bool:
    """Whether two paths lead to one file."""
    return os.path.realpath(one) == os.path.realpath(other)


def converting(zone: Zone) -> List[str]:
    """The command that prints a zone as plain text with the changes of its journal, and judges nothing."""
    form = form_of(zone)
    journal = ["-j", "-J", zone.journal] if zone.journal and os.path.exists(zone.journal) else []
    folder = ["-w", compile_folder(zone)] if form == "text" else []
    return ["named-compilezone", "-q", *JUDGE_NOTHING, *journal, *folder, "-f", form, "-F", "text", "-s", "full", "-o", "-", "--",
            zone.name, str(zone.file)]


def conversion(zone: Zone) -> str:
    """The line for a shell that writes a zone's binary file as text beside it."""
    return shlex.join(["named-compilezone", *JUDGE_LITTLE, "-f", form_of(zone), "-F", "text", "-o", f"{zone.file}.text", "--",
                       zone.name, str(zone.file)])


def compile_folder(zone: Zone) -> str:
    """The folder in which named-compilezone looks for included files: the server's own, if it is here."""
    return zone.folder if zone.folder and os.path.isdir(zone.folder) else os.path.dirname(str(zone.file))


class Made(NamedTuple):
    """A file that was made of a zone, and of each type that a server has for itself the places of its records."""

    file: str
    own: Dict[str, List[str]]


def flattened(zone: Zone, folder: made_files.Folder, model: Optional[Zone]) -> Made:
    """The plain text file of a zone in a folder. It is made anew if what it is made of isn't as it was. Lines that a tool prints
    have the places that the same records have in the text of a model, as the zone of the primary."""
    name = os.path.join(made_files.file_name(zone.server.name), made_files.file_name(zone.name) + "zone")
    command = command_of(zone)
    words = said_of(zone, command, model)
    if not zone.printer and folder.is_as_made(name, words):
        return Made(folder.place(name), folder.own(name))
    since = time.time()
    plain = text_of(zone)
    if command:
        plain = with_lines(zone, plain, model)
    files = [] if zone.printer else plain.files
    origin = made_files.Origin(f"{zone.file or words}", words, files, since)
    return Made(folder.put(name, plain.octets, plain.runs, origin, plain.own), plain.own)


def said_of(zone: Zone, command: Optional[List[str]], model: Optional[Zone]) -> str:
    """How a file is made of a zone, in all on which its text depends beside what the files hold."""
    if command:
        return shlex.join(command) + (f"  # lines as in {model.file}" if model else "")
    means = [f"included from {zone.folder}"] if zone.folder else []
    means += [f"below {zone.server.root}"] if zone.server.root else []
    means += ["with an alias at the origin"] if apex_of(zone) else []
    return f"groot-metadata copies {zone.file} line for line" + "".join(", " + text for text in means)


def with_lines(zone: Zone, plain: Plain, model: Optional[Zone]) -> Plain:
    """What a tool printed of a zone, with the places of its lines in the model, and all files that were read."""
    own = [file for file in (zone.file, zone.journal) if file]
    try:
        text = put_together(model) if model else None
    except (OSError, NoMetadata):
        text = None
    return plain._replace(runs=same_records.runs_of(plain.octets, text, zone.name) if text else [],
                          files=own + (text.files if text else []))


def text_of(zone: Zone) -> Plain:
    """The plain text of a zone, of whatever it is made."""
    command = command_of(zone)
    return printed(zone, command) if command else put_together(zone)


def command_of(zone: Zone) -> Optional[List[str]]:
    """The command that prints a zone; None where its text files can be put together."""
    if zone.printer:
        return zone.printer.command
    return converting(zone) if form_of(zone) != "text" or has_changes(zone) else None


def printed(zone: Zone, command: List[str]) -> Plain:
    """The text of a zone that a command prints."""
    if zone.printer:
        try:
            octets = octets_of(command, command[0])
        except NoMetadata as fault:
            raise NoMetadata(zone.printer.remedy, printed_zones.remarks_in(fault.said or str(fault))) from None
        octets = printed_zones.READERS[zone.printer.form](zone.name, octets)
    else:
        check_included(zone)
        octets = octets_of(command, "it can't be written as plain text")
    writer = Writer(zone.name, lambda _path, name: name)
    writer.put_file(zone.name, octets)
    return writer.result()


def check_included(zone: Zone) -> None:
    """Refuses a text file from which named-compilezone would include another file than the server does."""
    for name, file in included(zone, str(zone.file)).names:
        if not same_file(os.path.join(compile_folder(zone), name), file):
            raise NoMetadata(f"named-compilezone would look for {name} in {compile_folder(zone)}, and it is {file}; "
                             f"first run {zone.refresh}")


def put_together(zone: Zone) -> Plain:
    """The text of a zone that stands in text files."""
    writer = Writer(zone.name, lambda path, name: meant(zone, path, name), apex_of(zone))
    with open(str(zone.file), "rb") as file:
        writer.put_file(str(zone.file), file.read())
    return writer.result()
