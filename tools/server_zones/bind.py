"""The zones that BIND holds, from what `named-checkconf -px` prints."""
import hashlib
import os
import re
import shlex
from typing import Dict, Iterator, List, NamedTuple, Optional, Tuple, Union

from . import catalogs
from .held import UNKNOWN_FOLDER, Findings, NoMetadata, Server, Zone, rooted, unprinted
from .names import canonical
from .programs import output_of

ROLES = {"primary": "primary", "master": "primary", "secondary": "secondary", "slave": "secondary"}
NOT_HELD = {"hint", "forward", "stub", "static-stub", "redirect", "delegation-only", "mirror"}
TOKEN = re.compile(r'"((?:[^"\\]|\\.)*)"|([{};])|([^\s{};"]+)', re.S)
YES = ("yes", "true", "1")
NO_POLICY = (None, "none")
# A file of added zones has one of these ends: as text, and as a database of which named-nzd2nzf prints the text.
ADDED, ADDED_DATABASE = ".nzf", ".nzd"
MOST_CATALOG_FILE = 64


class Block:
    """The statements in braces, or of a whole file. A statement is a list of words, and of blocks."""

    def __init__(self, statements: List["Statement"]) -> None:
        self.statements = statements
        self.first: Dict[str, "Statement"] = {}
        for statement in statements:
            if statement and isinstance(statement[0], str):
                self.first.setdefault(statement[0], statement)


Statement = List[Union[str, Block]]
Tokens = Iterator[Tuple[str, str, str]]


class Source(NamedTuple):
    """Where zones are configured: the server, all statements, those among which its zones stand, the settings of the view (none
    where there is no view) and the options, the view's name, the folder, and what dnssec-policy blocks say."""

    server: Server
    config: Block
    block: Block
    scope: Block
    options: Block
    view: Optional[str]
    directory: str
    policies: Dict[str, Block]


def command(path: str) -> List[str]:
    """The command that prints the configuration."""
    return ["named-checkconf", "-px", path]


def zones(server: Server, text: str, views: List[str], findings: Findings) -> List[Zone]:
    """The zones of one view, the only one of the configuration or one that `views` names."""
    warnings, printed = parted(text)
    tokens = TOKEN.findall(printed)
    config = statements(iter(tokens))
    for sign in signs_of_a_person(warnings, tokens, config):
        raise unprinted(server, command("FILE"), sign)
    if server.elsewhere and not printed:
        raise NoMetadata(f"{server.name}: {server.path}: it has no configuration, but: {warnings[0]}; "
                         f"give what {' '.join(command('FILE'))} prints")
    options = block_of("options", config)
    view, block = chosen_view(server, config, views, findings)
    scope = block if view else Block([])
    policies = {name: inner for name, _, inner in named("dnssec-policy", config, server)}
    source = Source(server, config, block, scope, options, view, word_of("directory", options) or "", policies)
    configured = list(named("zone", block, server))
    known = {canonical(name) for name, _, _ in configured}
    configured += [zone for zone in added(source, findings) if canonical(zone[0]) not in known]
    held = [zone for name, _, own in configured for zone in zone_of(source, name, own, findings)]
    say_databases(source, findings)
    return with_members(source, without_policies(source, held, findings), findings)


def zone_of(source: Source, name: str, own: Block, findings: Findings) -> Iterator[Zone]:
    """A configured zone, if the server answers from it; else nothing, which is said."""
    settings = [own, source.scope, source.options]
    if value_of("in-view", own):
        settings = in_view(source, word_of("in-view", own) or "", name) + [source.options]
    kind = word_of("type", settings[0])
    if kind in NOT_HELD:
        findings.remark(source.server, f"{name}: passed over, of type {kind}, which holds no zone")
    else:
        yield held_zone(source, name, settings)


def held_zone(source: Source, name: str, settings: List[Block]) -> Zone:
    """A zone, from the blocks in which its settings are looked for in turn: its own, its view's, and the options."""
    server, own = source.server, settings[0]
    role, file = ROLES.get(word_of("type", own) or ""), word_of("file", own)
    database = word_of("database", own) or "rbt"
    path = rooted(server, source.directory, file) if file else None
    unplaced = ""
    if role is None or value_of("template", own):
        unplaced = "it has no type that is known here: a template of a newer BIND?"
    elif not database.startswith(("rbt", "qp")):
        unplaced = f"it stands in a database, {database}"
    elif not file:
        unplaced = "it has no file; give it one (file, and masterfile-format text) and reload"
    elif not path:
        unplaced = f"{file}: no absolute directory in the options says from where it is meant"
    zone = Zone(
        server, canonical(name), role or "primary", path,
        folder=rooted(server, source.directory, ".") or UNKNOWN_FOLDER,
        form=word_of("masterfile-format", *settings) or ("text" if role == "primary" else "raw"),
        journal=rooted(server, source.directory, word_of("journal", own) or f"{file}.jnl") if path else None,
        refresh=sync(source, name), unplaced=unplaced,
    )
    return zone if unplaced else signed(source, zone, settings)


def sync(source: Source, name: str) -> str:
    """The line that has the server write the file of a zone."""
    return f"rndc sync {shlex.quote(name)}" + (f" IN {shlex.quote(source.view)}" if source.view else "")


def signed(source: Source, zone: Zone, settings: List[Block]) -> Zone:
    """A zone, with the file from which the server answers if it signs it on the way: that file's name has .signed at its end."""
    name = f"{word_of('file', settings[0])}.signed"
    file, journal = (str(rooted(source.server, source.directory, name + end)) for end in ("", ".jnl"))
    stated = word_of("inline-signing", *settings)
    policy = word_of("dnssec-policy", *settings)
    if stated is None and policy in NO_POLICY:
        return zone
    if stated is None:
        stated = word_of("inline-signing", source.policies.get(policy or "", Block([])))
    # what BIND does from 9.20 on if nothing is stated; before, it wants it stated
    usual = not takes_updates(settings) and (os.path.exists(file) or (zone.role == "primary" and policy != "insecure"))
    if not (stated in YES or (stated is None and usual)):
        return zone
    live = zone._replace(file=file, form="text", journal=journal, why=f"the server signs it, and answers from {file}")
    if not os.path.exists(file):
        live = zone._replace(unplaced=(
            f"the server signs it (inline-signing), and {file}, from which it answers, isn't here; copy it, or use --published"))
    return zone._replace(live=live)


def takes_updates(settings: List[Block]) -> bool:
    """Whether a zone takes dynamic updates, from somebody at all."""
    allowed = block_of("allow-update", *settings).statements
    return bool(value_of("update-policy", *settings)) or any(statement != ["none"] for statement in allowed)


def chosen_view(server: Server, config: Block, views: List[str], findings: Findings) -> Tuple[Optional[str], Block]:
    """The name and the statements of the view that is taken; where there is no view, no name and all statements."""
    found = {}
    for name, rclass, block in named("view", config, server):
        if rclass == "IN":
            found[name] = block
        else:
            findings.remark(server, f"view {name}: passed over, of class {rclass}")
    if not found:
        return None, config
    chosen = [name for name in found if name in views]
    if len(chosen) != 1:
        raise NoMetadata(f"{server.name}: say which view is meant (--view), one for each metadata file: {', '.join(found)}")
    return chosen[0], found[chosen[0]]


def in_view(source: Source, view: str, name: str) -> List[Block]:
    """The statements of the zone of this name in another view, and those of that view."""
    for title, _, block in named("view", source.config, source.server):
        for own, _, inner in named("zone", block, source.server) if title == view else ():
            if canonical(own) == canonical(name):
                return [inner, block]
    raise NoMetadata(f"{source.server.name}: {name}: the view {view}, from which it is taken, doesn't have it")


def added(source: Source, findings: Findings) -> List[Tuple[str, str, Block]]:
    """The zones that rndc added to the view, of the file in which the server keeps them."""
    if word_of("allow-new-zones", source.scope, source.options) not in YES:
        return []
    server = source.server
    stated = word_of("new-zones-directory", source.scope, source.options) or ""
    folder = rooted(server, source.directory, stated or ".")
    if not folder or not os.path.isdir(folder):
        raise NoMetadata(f"{server.name}: {folder or UNKNOWN_FOLDER} may have zones that rndc added (allow-new-zones); "
                         "copy it too")
    for name in files_of_added(stated, source.view or "_default"):
        path = str(rooted(server, source.directory, name))
        if os.path.isfile(path) and not findings.leaves_out(server, os.path.basename(path)):
            found = list(named("zone", statements(iter(TOKEN.findall(text_of_added(server, path)))), server))
            findings.remark(server, f"zones that rndc added, from {path}: {len(found)}")
            return found
    return []


def files_of_added(folder: str, view: str) -> List[str]:
    """The files in which the server may keep the zones that were added to a view, that which it takes first."""
    digest = hashlib.sha256(os.fsencode(view)).hexdigest()
    return [os.path.join(folder, stem + end) for stem in (digest, digest[:16], view) for end in (ADDED_DATABASE, ADDED)]


def text_of_added(server: Server, path: str) -> str:
    """The statements of added zones in a file, without comments."""
    if path.endswith(ADDED_DATABASE):
        text = output_of(["named-nzd2nzf", path], f"{server.name}: zones that rndc added")
    else:
        text = read(path)
    return re.sub(r"^#.*$", "", text, flags=re.M)


def read(path: str) -> str:
    """The text of a file."""
    with open(path, encoding="utf-8", errors="surrogateescape") as file:
        return file.read()


def without_policies(source: Source, held: List[Zone], findings: Findings) -> List[Zone]:
    """The zones without those by whose rules the server changes what it answers: they answer no query themselves."""
    rules = {canonical(statement[1]) for statement in block_of("response-policy", source.scope, source.options).statements
             if len(statement) > 1 and statement[0] == "zone" and isinstance(statement[1], str)}
    for zone in held:
        if zone.name in rules:
            findings.remark(source.server, f"{zone.name}: passed over, a response policy zone, which answers no query")
    return [zone for zone in held if zone.name not in rules]


def with_members(source: Source, held: List[Zone], findings: Findings) -> List[Zone]:
    """The zones, with the members of catalogs in the place of the catalogs."""
    by_name = {zone.name: zone for zone in held}
    found: List[Zone] = []
    of_catalogs = set()
    for statement in block_of("catalog-zones", source.scope, source.options).statements:
        name = canonical(str(statement[1])) if len(statement) > 1 else ""
        of_catalogs.add(name)
        if name not in by_name:
            raise NoMetadata(f"{source.server.name}: {name}: a catalog zone that isn't configured")
        members = catalogs.taken(source.server, by_name[name], set(by_name), findings)
        found += [member_zone(source, name, member.name, statement) for member in members]
    return [zone for zone in held if zone.name not in of_catalogs] + found


def member_zone(source: Source, catalog: str, name: str, statement: Statement) -> Zone:
    """A member of a catalog, with the file in which the server keeps it."""
    words = {str(word): statement[at + 1] for at, word in enumerate(statement[:-1]) if isinstance(word, str)}
    stated = str(words.get("zone-directory", ""))
    folder = rooted(source.server, source.directory, stated or ".") or UNKNOWN_FOLDER
    stem = f"{source.view or '_default'}_{catalog[:-1]}_{name[:-1]}"
    digest = hashlib.sha256(os.fsencode(stem)).hexdigest()
    files = [os.path.join(stated, f"__catz__{part}.db") for part in (stem, digest)]

    def here(file: str) -> str:
        return rooted(source.server, source.directory, file) or os.path.join(folder, file)

    file = next((file for file in files if os.path.exists(here(file))), files[len(stem) > MOST_CATALOG_FILE])
    return Zone(
        source.server, name, "secondary", here(file), folder=folder,
        form=word_of("masterfile-format", source.scope, source.options) or "raw", journal=here(file + ".jnl"),
        refresh=sync(source, name[:-1]),
        unplaced="a member of a catalog that has no file (in-memory)" if words.get("in-memory") in YES else "",
    )


def say_databases(source: Source, findings: Findings) -> None:
    """Says which zones stand in databases, and so in no list."""
    for statement in source.block.statements:
        if statement[0] == "dlz" and isinstance(statement[1], str) and not findings.leaves_out(source.server, statement[1]):
            findings.unplace(source.server, statement[1], "a dlz, whose zones stand in a database")


def parted(text: str) -> Tuple[List[str], str]:
    """The lines of the warnings that named-checkconf prints first, and the printed configuration."""
    start = re.search(r"^\S[^\n]* \{$", text, re.M)
    end = start.start() if start else len(text)
    return text[:end].splitlines(), text[end:]


def signs_of_a_person(warnings: List[str], tokens: List[Tuple[str, str, str]], config: Block) -> Iterator[str]:
    """What a person writes and named-checkconf doesn't print: statements in front, comments, and included files."""
    yield from (line.strip() for line in warnings if re.match(r"\s*(?:#|//|/\*)|.*[{};]\s*$", line))
    yield from (word for _, _, word in tokens if word.startswith(("#", "//", "/*")))
    yield from (f"include {statement[1]}" for statement in all_statements(config) if statement[0] == "include")


def all_statements(block: Block) -> Iterator[Statement]:
    """The statements of a block, and of the blocks in it."""
    for statement in block.statements:
        if statement:
            yield statement
            for part in statement:
                yield from all_statements(part) if isinstance(part, Block) else ()


def statements(tokens: Tokens) -> Block:
    """The statements up to a closing brace."""
    block: List[Statement] = []
    statement: Statement = []
    for quoted, mark, word in tokens:
        if mark == "{":
            statement.append(statements(tokens))
        elif mark == ";":
            block.append(statement)
            statement = []
        elif mark == "}":
            break
        else:
            statement.append(word or unquoted(quoted))
    return Block(block)


def unquoted(text: str) -> str:
    """The text between quotes: of the escapes BIND resolves that of a quote alone."""
    return re.sub(r"\\(.)", lambda found: '"' if found[1] == '"' else found[0], text, flags=re.S) if "\\" in text else text


def value_of(key: str, *blocks: Block) -> Statement:
    """What follows a key in the first of the blocks that has it, or nothing."""
    for block in blocks:
        if key in block.first:
            return block.first[key][1:]
    return []


def word_of(key: str, *blocks: Block) -> Optional[str]:
    """The word that follows a key in the first of the blocks that has it, or None."""
    value = value_of(key, *blocks)
    return value[0] if value and isinstance(value[0], str) else None


def block_of(key: str, *blocks: Block) -> Block:
    """The statements in braces behind a key in the first of the blocks that has it, or none."""
    return next((part for part in value_of(key, *blocks) if isinstance(part, Block)), Block([]))


def named(key: str, block: Block, server: Server) -> Iterator[Tuple[str, str, Block]]:
    """The name, the class and the statements of each zone or view of a block."""
    for statement in block.statements:
        if statement and statement[0] == key:
            name, rclass, inner = statement[1:2], statement[2:3] if len(statement) > 3 else ["IN"], statement[-1]
            if not name or not isinstance(name[0], str) or not isinstance(rclass[0], str) or not isinstance(inner, Block):
                raise NoMetadata(f"{server.name}: {server.path}: not as named-checkconf prints it: "
                                 f"a {key} without name or braces")
            yield name[0], rclass[0].upper(), inner
