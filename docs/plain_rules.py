"""The rules of some definitions once more, in plain Python, from the pages of formats and the RFCs and not from the definitions; and
how arguments for them are drawn at random. docs/draw.py compares both.

A list is a tuple, the octets of a text are a tuple of numbers, and a constructor is a tuple that begins with its name.
"""
import random
import re
from typing import Any, Callable, Dict, List, NamedTuple, Optional, Tuple

Term = Any
Octets = Tuple[int, ...]
NONE = ("None",)
FIELDS = {"A": 1, "Ns": 1, "Cname": 1, "Soa": 7, "Ptr": 1, "Hinfo": 2, "Mx": 2, "Txt": None, "Aaaa": 1, "Srv": 4, "Dname": 1, "Caa": 3}
NUMBERS = {1: "A", 2: "Ns", 5: "Cname", 6: "Soa", 12: "Ptr", 13: "Hinfo", 15: "Mx", 16: "Txt", 28: "Aaaa", 33: "Srv", 39: "Dname", 257: "Caa"}
KINDS = ["Lame", "Differs", "NoGlue", "GlueDiffers", "Cyclic", "Limit", "Blackhole", "Answers", "Overlong", "NoAddress"]
KEPT = ("AFSDB APL CDNSKEY CDS CERT CSYNC DHCID DLV DNSKEY DS EUI48 EUI64 HIP HTTPS IPSECKEY KEY KX LOC NAPTR NSEC3PARAM OPENPGPKEY RP SMIMEA SPF "
        "SSHFP SVCB TLSA URI ZONEMD").split()


class Refused(Exception):
    """A text is refused for this fault."""

    def __init__(self, fault: Term) -> None:
        super().__init__(fault)
        self.fault = fault


def text(octets: Octets) -> str:
    return "".join(map(chr, octets))


def octets_of(word: str) -> Octets:
    return tuple(map(ord, word))


def some(value: Optional[Term]) -> Term:
    return NONE if value is None else ("Some", value)


def answer(work_out: Callable[[], Term]) -> Term:
    """What is worked out, or the fault for which it is refused."""
    try:
        return ("Ok", work_out())
    except Refused as refused:
        return ("Err", refused.fault)


def number(most: int, octets: Octets, digits: int = 10) -> Optional[int]:
    """The number of so many decimal digits at most."""
    word = text(octets)
    return int(word) if re.fullmatch(rf"[0-9]{{1,{digits}}}", word) and int(word) <= most else None


def needed(value: Optional[Term], fault: str) -> Term:
    if value is None:
        raise Refused((fault,))
    return value


def time(octets: Octets) -> Optional[int]:
    """Seconds: digits alone, or groups of digits and a unit."""
    word, units = text(octets).lower(), {"w": 604800, "d": 86400, "h": 3600, "m": 60, "s": 1}
    if re.fullmatch(r"[0-9]+", word):
        seconds = int(word)
    elif re.fullmatch(r"(?:[0-9]+[wdhms])+", word):
        seconds = sum(int(count) * units[unit] for count, unit in re.findall(r"([0-9]+)([a-z])", word))
    else:
        return None
    return seconds if seconds < 1 << 31 else None


def ipv4(octets: Octets) -> Optional[Octets]:
    parts = text(octets).split(".")
    if len(parts) != 4 or not all(re.fullmatch(r"0|[1-9][0-9]{0,2}", part) and int(part) < 256 for part in parts):
        return None
    return tuple(map(int, parts))


def ipv6(octets: Octets) -> Optional[Octets]:
    """Eight groups, of which `::` stands for one or more, and an IPv4 address at the end for two."""
    word = text(octets)
    front, gap, back = word.partition("::")

    def groups(side: str, is_last: bool) -> Optional[Octets]:
        found: List[int] = []
        for place, piece in enumerate(pieces := side.split(":") if side else []):
            if re.fullmatch(r"[0-9A-Fa-f]{1,4}", piece):
                found += divmod(int(piece, 16), 256)
            elif is_last and place == len(pieces) - 1 and (four := ipv4(octets_of(piece))):
                found += four
            else:
                return None
        return tuple(found)

    before, behind = groups(front, not gap), groups(back, True)
    if before is None or behind is None or len(before + behind) > (14 if gap else 16) or (not gap and len(before) != 16):
        return None
    return before + (0,) * (16 - len(before + behind)) + behind


def signs(octets: Octets) -> List[Tuple[str, int]]:
    """The signs of a text: a dot without a backslash, or an octet. A backslash that spells nothing is refused."""
    found, at = [], 0
    while at < len(octets):
        rest = text(octets[at:])
        if rest[0] != "\\":
            found.append(("dot" if rest[0] == "." else "octet", octets[at]))
            at += 1
        elif re.match(r"\\[0-9]{3}", rest) and int(rest[1:4]) < 256:
            found.append(("octet", int(rest[1:4])))
            at += 4
        elif re.match(r"\\[^0-9]", rest, re.S):
            found.append(("octet", octets[at + 1]))
            at += 2
        else:
            raise Refused(("BadName", ("BadEscape",)))
    return found


def folded(octet: int) -> int:
    return octet + 32 if 65 <= octet <= 90 else octet


def name(octets: Octets, origin: Tuple[Octets, ...]) -> Tuple[Octets, ...]:
    """The labels of a name's text, the top one first."""
    if text(octets) == ".":
        return ()
    if text(octets) == "@":
        return origin
    labels: List[List[int]] = [[]]
    for kind, octet in signs(octets):
        if kind == "dot":
            labels.append([])
        else:
            labels[-1].append(folded(octet))
    is_whole = len(labels) > 1 and not labels[-1]
    own = labels[:-1] if is_whole else labels
    for label in own:
        if not label or len(label) > 63:
            raise Refused(("BadName", ("LabelTooLong" if label else "EmptyLabel",)))
    found = (() if is_whole else origin) + tuple(tuple(label) for label in reversed(own))
    if sum(map(len, found)) + len(found) + 1 > 255:
        raise Refused(("BadName", ("NameTooLong",)))
    return found


def string(most: int, octets: Octets) -> Octets:
    resolved = tuple(octet for _, octet in signs(octets))
    if len(resolved) > most:
        raise Refused(("TextTooLong",))
    return resolved


def tag(octets: Octets) -> Octets:
    if len(octets) > 255:
        raise Refused(("TextTooLong",))
    if not re.fullmatch(r"[0-9A-Za-z]+", text(octets)):
        raise Refused(("BadNumber",))
    return tuple(map(folded, octets))


def is_generic(tokens: Tuple[Term, ...]) -> bool:
    return bool(tokens) and tokens[0] == ("token", octets_of("\\#"))


def rdata(rtype: Term, tokens: Tuple[Term, ...], origin: Tuple[Octets, ...]) -> Term:
    """The data of one of the twelve types: the number of fields, then these from the left."""
    word = rtype[0].split(".")[-1]
    if is_generic(tokens):
        raise Refused(("GenericKnown",))
    raw = [token[1] for token in tokens]
    if FIELDS[word] != len(raw) if FIELDS[word] else not raw:
        raise Refused(("FieldCount",))
    numbered = {"Mx": 1, "Srv": 3}.get(word, 0)
    values: List[Term] = [needed(number(65535, one), "BadNumber") for one in raw[:numbered]]
    if word in ("A", "Aaaa"):
        values = [needed((ipv4 if word == "A" else ipv6)(raw[0]), "BadAddress")]
    elif word in ("Ns", "Cname", "Ptr", "Dname", "Mx", "Srv"):
        values.append(name(raw[-1], origin))
    elif word == "Soa":
        values = [name(raw[0], origin), name(raw[1], origin), needed(number((1 << 32) - 1, raw[2]), "BadNumber")]
        values += [needed(time(one), "BadNumber") for one in raw[3:]]
    elif word == "Caa":
        values = [needed(number(255, raw[0]), "BadNumber"), tag(raw[1]), string(1024, raw[2])]
    else:
        values = [string(255, one) for one in raw]
    return (word, tuple(values)) if word == "Txt" else (word, *values)


def other(word: Octets, tokens: Tuple[Term, ...]) -> Term:
    """The data of another type: as they are written, if a generic form has its length."""
    raw = [token[1] for token in tokens]
    if is_generic(tokens):
        length = number(65535, raw[1], 5) if len(raw) > 1 else None
        digits = "".join(map(text, raw[2:]))
        if length is None or len(digits) != 2 * length or not re.fullmatch(r"[0-9A-Fa-f]*", digits):
            raise Refused(("BadHex",))
    return ("Other", word, tuple(raw))


def type_word(octets: Octets) -> Term:
    word = text(octets).upper()
    known = {name.upper(): name for name in FIELDS}
    behind = number(65535, octets[4:], 5) if word.startswith("TYPE") else None
    if word in known:
        return some(("Known", (f"types.{known[word]}",)))
    if word in ("RRSIG", "NSEC", "NSEC3") or behind in (46, 47, 50):
        return some(("Dropped",))
    if word in KEPT or behind is not None:
        return some(("Known", (f"types.{NUMBERS[behind]}",)) if behind in NUMBERS else ("Other",))
    return NONE


def class_word(octets: Octets) -> Term:
    word = text(octets).upper()
    if word in ("IN", "CLASS1"):
        return some(("In",))
    is_other = word in ("CS", "CH", "HS") or (word.startswith("CLASS") and number(65535, octets[5:], 5) is not None)
    return some(("NotIn",) if is_other else None)


def fault_order(one: Term, two: Term) -> Term:
    """Faults stand in the order of kinds, then of places: of classes the name, then the names below it, then the type."""
    def key(fault: Term) -> Tuple[Any, ...]:
        kind = fault[0].split(".")[-1]
        if kind != "Answers":
            return (KINDS.index(kind), fault[1][1:])
        numbers = {name: number for number, name in NUMBERS.items()}
        return (KINDS.index(kind), fault[1][1], fault[1][0] == "Below", numbers[fault[2][0].split(".")[-1]])
    first, second = key(one), key(two)
    return ("Less" if first < second else "Greater" if first > second else "Equal",)


def owners(zone: Term) -> List[Tuple[Octets, ...]]:
    return [record[1] for record in zone[2]]


def exists(zone: Term, query: Tuple[Octets, ...]) -> bool:
    """A name exists at the origin, and at or above an owner."""
    return query == zone[1] or any(owner[:len(query)] == query for owner in owners(zone) if len(query) >= len(zone[1]))


def data_of(zone: Term, owner: Tuple[Octets, ...], kind: str) -> List[Term]:
    return [record[2] for record in zone[2] if record[1] == owner and record[2][0] == kind]


def found(zone: Term, query: Tuple[Octets, ...], rtype: Term) -> Term:
    """What a zone answers to a name below its origin (RFC 1034 section 4.3.2, RFC 4592, RFC 6672)."""
    origin, kind = zone[1], rtype[0].split(".")[-1]
    for length in range(len(origin), len(query) + 1):
        above = query[:length]
        if length > len(origin) and (servers := data_of(zone, above, "Ns")):
            return ("found_as.Referral", above, tuple(sorted({one[1] for one in servers})))
        if length < len(query) and (redirections := data_of(zone, above, "Dname")):
            to = redirections[0][1] + query[length:]
            if sum(map(len, to)) + len(to) + 1 > 255:
                return ("found_as.TooLong", above)
            return ("found_as.Rewrite", True, above, to)
    owner = query
    if not exists(zone, query):
        encloser = next(query[:length] for length in range(len(query), -1, -1) if exists(zone, query[:length]))
        owner = encloser + (octets_of("*"),)
        if not exists(zone, owner):
            return ("found_as.NxDomain",)
    if kind != "Cname" and (aliases := data_of(zone, owner, "Cname")):
        return ("found_as.Rewrite", False, owner, aliases[0][1])
    data = sorted(set(data_of(zone, owner, kind)))
    return ("found_as.Answer", tuple(data)) if data else ("found_as.NoData",)


def record(**fields: Term) -> Term:
    return ("record", tuple(sorted(fields.items())))


def fields_of(term: Term) -> Dict[str, Term]:
    return dict(term[1])


class Network:
    """A configuration, as `with_tops` writes it, with how many rewrites are allowed and which servers are followed."""

    def __init__(self, setting: Term) -> None:
        given = fields_of(setting) if setting[0] == "record" else {"config": setting[1], "rewrites": setting[2], "followed": None}
        self.tops = given["config"][1]
        self.servers = {server[1]: server[2] for server in given["config"][2]}
        self.rewrites = given["rewrites"]
        self.followed = list(self.servers) if given["followed"] is None else given["followed"]

    def nearest(self, server: Term, query: Term) -> Optional[Term]:
        """The server's zone with the longest origin at or above the name."""
        zones = [zone for zone in self.servers.get(server, ()) if query[:len(zone[1])] == zone[1]]
        return max(zones, key=lambda zone: len(zone[1])) if zones else None

    def is_known(self, server: Term, origin: Term, cut: Term, ns: Term) -> bool:
        """Whether a referral tells the name server's address, or it is a top server or followed."""
        held = [zone for zone in self.servers.get(server, ()) if zone[1] == origin]
        has_glue = ns[:len(cut)] == cut and any(data_of(zone, ns, kind) for zone in held[:1] for kind in ("A", "Aaaa"))
        return ns in self.tops or has_glue or ns in self.followed

    def arrived(self, server: Term, query: Term, carried: bool, used: int, last: Term) -> Term:
        zone = self.nearest(server, query)
        return record(server=server, name=query, carried=carried, cut=0, used=used, last=last, zone=some(zone and zone[1]))

    def referred(self, state: Dict[str, Term], origin: Term, cut: Term, ns: Term) -> Term:
        """Where a referral to a name server leads."""
        hop = ("Refer", ("cut_at", state["server"], origin, cut, ns))
        if ns not in self.servers:
            return ("End", some(hop), ("leaves.Unhosted", ns))
        if not self.is_known(state["server"], origin, cut, ns):
            return ("End", some(hop), ("leaves.NoAddress", ns))
        zone = self.nearest(ns, state["name"])
        if zone is None or zone[1][:len(cut)] != cut:
            return ("End", some(hop), ("leaves.Lame", ns))
        return ("Go", hop, record(**{**state, "server": ns, "cut": len(cut), "zone": some(zone[1])}))

    def next(self, rtype: Term, term: Term) -> Tuple[Term, ...]:
        """What a state leads to, in order (RFC 1034 section 5.3.3)."""
        state = fields_of(term)
        zone = self.nearest(state["server"], state["name"])
        if zone is None:
            return (("End", NONE, ("leaves.Outside",)),)
        answer_found = found(zone, state["name"], rtype)
        kind, place = answer_found[0].split(".")[1], ("place_at", state["server"], zone[1], answer_found[-2 if answer_found[0].endswith("Rewrite") else -1])
        if kind == "Referral":
            return tuple(self.referred(state, zone[1], answer_found[1], ns) for ns in answer_found[2])
        if kind not in ("Rewrite", "TooLong"):
            return (("End", NONE, ("leaves." + kind, *answer_found[1:])),)
        if state["used"] >= self.rewrites:
            return (("End", NONE, ("leaves.Limit", place)),)
        if kind == "TooLong":
            return (("End", NONE, ("leaves.Overlong", place)),)
        by_dname, to = answer_found[1], answer_found[3]
        servers = (state["server"],) if self.nearest(state["server"], to) else self.tops
        return tuple(("Go", ("Rewrite", place, by_dname, to), self.arrived(server, to, state["carried"] and by_dname, state["used"] + 1, ("Some", place)))
                     for server in servers)

    def starts(self, query: Term) -> Tuple[Term, ...]:
        """The states in which a query begins, as branches without a hop."""
        return tuple(("Go", None, self.arrived(top, query, True, 0, NONE)) for top in self.tops)

    def walk(self, query: Term, rtype: Term, numbers: Tuple[int, ...]) -> Term:
        """The walk that takes the branches with these numbers, first a start state, or none."""
        branches = self.starts(query)
        states: List[Term] = []
        hops: List[Term] = []
        for place, number_taken in enumerate(numbers):
            if number_taken >= len(branches):
                return NONE
            branch = branches[number_taken]
            if branch[0] == "End":
                own = [branch[1][1]] if branch[1] != NONE else []
                walk = record(states=tuple(states), hops=tuple(hops + own), leaf=branch[2])
                return ("Some", walk) if place == len(numbers) - 1 else NONE
            hops += [branch[1]] if branch[1] else []
            states.append(branch[2])
            branches = self.next(rtype, branch[2])
        return NONE


class Rule(NamedTuple):
    """How a value is worked out, and how the arguments are drawn, if they are."""

    value: Callable[..., Term]
    draw: Optional[Callable[[random.Random], Tuple[Term, ...]]] = None


def any_case(rng: random.Random, word: str) -> str:
    return "".join(rng.choice((sign.lower(), sign.upper())) for sign in word)


def drawn_number(rng: random.Random) -> Tuple[Term, ...]:
    most = rng.choice((255, 65535, (1 << 32) - 1))
    value = str(rng.choice((0, 7, most - 1, most, most + 1, rng.randrange(10 * most))))
    spoilt = rng.choice((value, value, value, "0" * rng.randrange(4) + value, value + rng.choice("a/: "), ""))
    return most, octets_of(spoilt)


def drawn_time(rng: random.Random) -> Tuple[Term, ...]:
    groups = "".join(f"{rng.choice((0, 1, 7, 59, 3550, 2147483647 // 60))}{rng.choice('wdhmsWDHMS')}" for _ in range(rng.randrange(1, 4)))
    return (octets_of(rng.choice((groups, groups, groups + "5", str(rng.randrange(1 << 32)), "h" + groups))),)


def drawn_ipv4(rng: random.Random) -> Tuple[Term, ...]:
    parts = [rng.choice(("0", "1", "10", "99", "199", "249", "255", str(rng.randrange(256)))) for _ in range(4)]
    if rng.random() < 0.4:
        parts[rng.randrange(4)] = rng.choice(("00", "01", "256", "300", "-1", ""))
    return (octets_of(".".join(parts[:rng.choice((4, 4, 4, 3))])),)


def drawn_ipv6(rng: random.Random) -> Tuple[Term, ...]:
    pieces = [f"{rng.randrange(1 << rng.choice((1, 4, 8, 16))):x}" for _ in range(rng.choice((8, 8, 7, 4, 2)))]
    if rng.random() < 0.5:
        pieces[rng.randrange(len(pieces))] = ""
    if rng.random() < 0.3:
        pieces[-1] = "192.0.2.1"
    return (octets_of(any_case(rng, ":".join(pieces)).replace("::", ":", rng.randrange(2))),)


def drawn_string(rng: random.Random) -> Tuple[Term, ...]:
    signs_drawn = [rng.choice(("a", "B", ".", ";", "@", " ", "\\.", "\\\\", '\\"', "\\032", "\\065", "\\000", "\\z")) for _ in range(rng.randrange(1, 7))]
    return rng.randrange(3, 7), octets_of("".join(signs_drawn))


def drawn_tag(rng: random.Random) -> Tuple[Term, ...]:
    return (octets_of("".join(rng.choice("issueISSUE019.`-") for _ in range(rng.randrange(0, 7)))),)


def drawn_word(rng: random.Random, words: List[str], numbered: str) -> Tuple[Term, ...]:
    numbers = f"{numbered}{'0' * rng.randrange(4)}{rng.choice((0, 1, 46, 47, 50, 257, 65535, 65536, rng.randrange(99)))}"
    word = any_case(rng, rng.choice((rng.choice(words), numbers)))
    return (octets_of(word if rng.random() < 0.7 else word[:rng.randrange(len(word))] + rng.choice("SX0\\")),)


RULES: Dict[str, Rule] = {
    "number_in": Rule(lambda most, octets: answer(lambda: needed(number(most, octets), "BadNumber")), drawn_number),
    "time_of": Rule(lambda octets: some(time(octets)), drawn_time),
    "ipv4_of": Rule(lambda octets: some(ipv4(octets)), drawn_ipv4),
    "ipv6_of": Rule(lambda octets: some(ipv6(octets)), drawn_ipv6),
    "string_of": Rule(lambda most, octets: answer(lambda: string(most, octets)), drawn_string),
    "tag_of": Rule(lambda octets: answer(lambda: tag(octets)), drawn_tag),
    "rdata_of": Rule(lambda rtype, tokens, origin: answer(lambda: rdata(rtype, tokens, origin))),
    "other_of": Rule(lambda word, tokens: answer(lambda: other(word, tokens))),
    "type_word": Rule(type_word, lambda rng: drawn_word(rng, [*map(str.upper, FIELDS), "RRSIG", "NSEC3", *KEPT], "TYPE")),
    "class_word": Rule(class_word, lambda rng: drawn_word(rng, ["IN", "CS", "CH", "HS", "ANY", "NONE"], "CLASS")),
    "fault_cmp": Rule(fault_order),
    "exists_in": Rule(exists),
    "found": Rule(found),
    "nearest_of": Rule(lambda config, server, query: some(Network(("following_all", config, 0)).nearest(server, query))),
    "next": Rule(lambda setting, rtype, state: Network(setting).next(rtype, state)),
    "walk_along": Rule(lambda setting, query, rtype, numbers: Network(setting).walk(query, rtype, numbers)),
}
