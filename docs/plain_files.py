"""The rules of a zone file once more, in plain Python, from docs/FORMATS.md, sections 6 and 8: how its text is cut into entries, and
what directives and records are read in them; and how texts are drawn at random. docs/draw.py compares both.

An entry is `entry` or, if it begins with a blank, `indented`, with its line and its tokens; a token is `token` or `in_quotes`, with
its octets as they are written. A context is the origin, the default TTL, the last stated TTL and the last owner.
"""
import random
import re
from typing import Callable, Dict, Iterator, List, NamedTuple, Tuple

from plain_rules import FIELDS, NONE, Octets, Refused, Rule, Term, class_word, name, needed, octets_of, other, rdata, signs, some, text, time, type_word

Labels = Tuple[Octets, ...]
ESCAPE = re.compile(r"\\(?:[01][0-9]{2}|2[0-4][0-9]|25[0-5]|[^0-9\n])")


class Misspelt(Exception):
    """A text is no further cut into entries, for this fault in this line."""

    def __init__(self, fault: str, line: int) -> None:
        super().__init__(fault)
        self.fault, self.line = ("Lex", (fault,)), line


class Context(NamedTuple):
    """What is known where an entry stands. All but the origin may be none."""

    origin: Labels
    default: Term
    stated: Term
    owner: Term


def written_context(context: Context) -> Term:
    return ("context_with", *context)


def said(work_out: Callable[[], Term]) -> Term:
    """What is worked out, or the fault for which it is refused."""
    try:
        return work_out()
    except Refused as refused:
        return ("Err", refused.fault)


def named(octets: Octets, origin: Labels, fault: str) -> Labels:
    """The labels of a name, of whose faults the one that is told is this one, with the cause if it is that of an owner."""
    try:
        return name(octets, origin)
    except Refused as refused:
        raise Refused((fault, *refused.fault[1:]) if fault == "BadOwner" else (fault,)) from refused


def is_file_name(octets: Octets) -> bool:
    """Whether these are a text in UTF-8 that isn't empty."""
    try:
        return bool(bytes(octets).decode("utf-8"))
    except UnicodeDecodeError:
        return False


def directive(context: Context, tokens: Tuple[Term, ...]) -> Term:
    """What a directive does: it sets a context, or includes a file under an origin."""
    word, arguments = text(tokens[0][1]).upper(), [token[1] for token in tokens[1:]]
    if word == "$GENERATE":
        raise Refused(("NotSupported",))
    if word == "$ORIGIN" and len(arguments) == 1:
        return ("sets", written_context(context._replace(origin=named(arguments[0], context.origin, "BadDirective"))))
    if word == "$TTL" and len(arguments) == 1:
        return ("sets", written_context(context._replace(default=some(needed(time(arguments[0]), "BadDirective")))))
    if word == "$INCLUDE" and len(arguments) in (1, 2):
        file = tuple(octet for _, octet in signs(arguments[0]))
        origin = named(arguments[1], context.origin, "BadDirective") if len(arguments) == 2 else context.origin
        if is_file_name(file):
            return ("includes_file", file, origin)
    raise Refused(("BadDirective",))


def front(tokens: Tuple[Term, ...]) -> Tuple[Term, Tuple[Term, ...]]:
    """The TTL in front of a type, if one is written, and the tokens from the type on."""
    stated: Term = NONE
    has_class = False
    while tokens and tokens[0][0] == "token":
        octets = tokens[0][1]
        if stated == NONE and re.match("[0-9]", text(octets)):
            stated = some(needed(time(octets), "BadTtl"))
        elif not has_class and class_word(octets) != NONE:
            if class_word(octets) != some(("In",)):
                raise Refused(("ClassNotIn",))
            has_class = True
        else:
            break
        tokens = tokens[1:]
    return stated, tokens


def data(rtype: Term, octets: Octets, tokens: Tuple[Term, ...], origin: Labels) -> Term:
    try:
        return rdata(rtype[1], tokens, origin) if rtype[0] == "Known" else other(octets_of(text(octets).upper()), tokens)
    except Refused as refused:
        raise Refused(("BadData", refused.fault)) from refused


def record(context: Context, entry: Term) -> Tuple[Context, Term]:
    """What an entry leaves of the context, and its record, or none if it is dropped."""
    kind, line, tokens = entry
    if kind == "entry":
        owner, tokens = named(tokens[0][1], context.origin, "BadOwner"), tokens[1:]
    elif context.owner == NONE:
        raise Refused(("NoOwner",))
    else:
        owner = context.owner[1]
    stated, tokens = front(tokens)
    if not tokens:
        raise Refused(("NoType",))
    found = type_word(tokens[0][1]) if tokens[0][0] == "token" else NONE
    if found == NONE:
        raise Refused(("UnknownType",))
    known = context._replace(owner=some(owner), stated=context.stated if stated == NONE else stated)
    if found == some(("Dropped",)):
        return known, NONE
    own = data(found[1], tokens[0][1], tokens[1:], context.origin)
    ttl = next((one for one in (stated, context.default, context.stated) if one != NONE), NONE)
    if ttl == NONE and own[0] == "Soa":
        ttl = some(own[-1])
        known = known._replace(stated=ttl)
    if ttl == NONE:
        raise Refused(("NoTtl",))
    return known, ("rr", owner, ttl[1], own, line)


def record_of(context: Context, entry: Term) -> Term:
    left, made = record(context, entry)
    return ("drops", written_context(left)) if made == NONE else ("makes", written_context(left), made)


def token_at(word: str, at: int, line: int) -> Tuple[Term, int]:
    """The token at a place, and where it ends."""
    is_quoted = word[at] == '"'
    start = at = at + is_quoted
    while at < len(word) and word[at] not in ('"\n' if is_quoted else ' \t\r\n;()"'):
        escape = ESCAPE.match(word, at)
        if word[at] == "\\" and not escape:
            raise Misspelt("BadEscape", line)
        at = escape.end() if escape else at + 1
    if is_quoted and word[at:at + 1] != '"':
        raise Misspelt("OpenQuote", line)
    return ("in_quotes" if is_quoted else "token", octets_of(word[start:at])), at + is_quoted


def entries(word: str) -> Iterator[Term]:
    """The entries of a text, in order."""
    at, line, line_start = 0, 1, 0
    tokens: List[Term] = []
    opened: List[int] = []
    kind, first_line = "", 0
    while at < len(word):
        sign = word[at]
        if sign == "\n":
            if tokens and not opened:
                yield (kind, first_line, tuple(tokens))
            if not opened:
                tokens, kind = [], ""
            line, line_start = line + 1, at + 1
        elif sign not in " \t\r;":
            kind = kind or ("indented" if word[line_start] in " \t" else "entry")
        if sign == ";":
            at = (word + "\n").index("\n", at)
        elif sign == "(":
            opened.append(line)
            at += 1
        elif sign == ")":
            if not opened:
                raise Misspelt("StrayClose", line)
            opened.pop()
            at += 1
        elif sign in " \t\r\n":
            at += 1
        else:
            first_line = first_line if tokens else line
            token, at = token_at(word, at, line)
            tokens.append(token)
    if opened:
        raise Misspelt("OpenParen", opened[0])
    if tokens:
        yield (kind, first_line, tuple(tokens))


def zone_text(origin: Labels, room: int, octets: Octets) -> Term:
    """The records of a text that includes no file, and how many of its entries are records; or its first fault and its line."""
    context, rrs, seen, line = Context(origin, NONE, NONE, NONE), [], 0, 0
    try:
        for kind, line, tokens in entries(text(octets)):
            if kind == "entry" and tokens[0][0] == "token" and text(tokens[0][1]).startswith("$"):
                context = Context(*directive(context, tokens)[1][1:])
                continue
            context, made = record(context, (kind, line, tokens))
            seen += 1
            if seen > room:
                raise Refused(("TooMany",))
            rrs += [] if made == NONE else [made]
    except Refused as refused:
        return ("faulty", line, refused.fault)
    except Misspelt as misspelt:
        return ("faulty", misspelt.line, misspelt.fault)
    return ("reads", tuple(rrs), seen)


def drawn_token(rng: random.Random, word: str) -> Term:
    return ("in_quotes" if rng.random() < 0.1 else "token", octets_of(word))


def drawn_data(rng: random.Random) -> List[str]:
    """A type's word, and words of its data."""
    names, numbers = ("@", ".", "ns.t.", "b", "a\\.b", "a..b"), ("0", "7", "65535", "65536", "1h", "x")
    kind = rng.choice((*(one.upper() for one in FIELDS), "DS", "NSEC", "TYPE46", "TYPE01", "TYPE731", "ANY", "sshfp"))
    fields = {
        "A": [rng.choice(("10.0.0.2", "10.0.0.256", "10.00.0.1"))], "AAAA": [rng.choice(("::1", "1::2::3"))],
        "MX": [rng.choice(numbers), rng.choice(names)], "SRV": [*(rng.choice(numbers) for _ in range(3)), rng.choice(names)],
        "SOA": [rng.choice(names), rng.choice(names), "20", *(rng.choice(("2", "1h", "4")) for _ in range(4))],
        "HINFO": ["a", "B c"], "TXT": ["a"] * rng.randrange(3), "CAA": [rng.choice(numbers), "issue", "x"],
        "TYPE01": ["192.0.2.255"], "DS": ["\\#", "1", rng.choice(("ab", "a"))],
    }
    return [rng.choice((kind, kind.lower())), *fields.get(kind, [rng.choice(names)])]


def drawn_words(rng: random.Random) -> List[str]:
    """The words of a record, without an owner."""
    between = rng.choice(([], [], ["60"], ["IN"], ["60", "IN"], ["CLASS1", "1h"], ["0", "60"], ["CLASS01"], ["in"]))
    return [*between, *drawn_data(rng)][:rng.choice((99, 99, 99, 99, 1))]


def drawn_owner(rng: random.Random) -> str:
    return rng.choice(("@", "t.", ".", "www", "A.b", "*.x", "\\$TTL", "a..b"))


def drawn_context(rng: random.Random) -> Context:
    origin, known = rng.choice(("", "t", "t a")), rng.choice
    return Context(tuple(map(octets_of, origin.split())), known((NONE, some(7))), known((NONE, some(8))), known((NONE, some((octets_of("t"),)))))


def drawn_record(rng: random.Random) -> Tuple[Term, ...]:
    kind, line = rng.choice(("entry", "entry", "indented")), rng.randrange(1, 10)
    words = [*([drawn_owner(rng)] if kind == "entry" else []), *drawn_words(rng)]
    return (0, written_context(drawn_context(rng)), (kind, line, tuple(drawn_token(rng, word) for word in words)))


def drawn_directive(rng: random.Random) -> Tuple[Term, ...]:
    word = rng.choice(("$TTL", "$ttl", "$ORIGIN", "$INCLUDE", "$GENERATE", "$", "$TT"))
    words = [rng.choice(("60", "1h", "f", ".", "a", "x..y", "")) for _ in range(rng.choice((1, 1, 1, 0, 2, 3)))]
    return (written_context(drawn_context(rng)), (("token", octets_of(word)), *(drawn_token(rng, one) for one in words)))


def drawn_line(rng: random.Random) -> str:
    if rng.random() < 0.3:
        return rng.choice(("$TTL 1m", "$ORIGIN a", "$ORIGIN t.", "$TTL", "()", "; x", "$ORIGIN. f"))
    words = [drawn_owner(rng) if rng.random() < 0.7 else "", *drawn_words(rng)]
    if rng.random() < 0.2:
        words.insert(rng.randrange(1, len(words) + 1), rng.choice(("(", "( ; x\n", ")", '"')))
        words.append(rng.choice((")", "")))
    return rng.choice((" ", "  ", "\t")).join(words)


def drawn_file(rng: random.Random) -> Tuple[Term, ...]:
    lines = "\n".join(drawn_line(rng) for _ in range(rng.randrange(1, 4))) + rng.choice(("", "\n"))
    return (drawn_context(rng).origin, rng.choice((1, 2, 9)), octets_of(lines))


RULES: Dict[str, Rule] = {
    "directive_of": Rule(lambda context, tokens: said(lambda: directive(Context(*context[1:]), tokens)), drawn_directive),
    "record_of": Rule(lambda file, context, entry: said(lambda: record_of(Context(*context[1:]), entry)), drawn_record),
    "alone": Rule(zone_text, drawn_file),
}
