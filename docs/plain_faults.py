"""The rules of classes, learnt addresses and faults once more, in plain Python, from docs/FORMATS.md, sections 4 and 5, and how a
walk looks once the last labels of its query are replaced. docs/draw.py compares both.
"""
import functools
import itertools
from typing import Callable, Dict, Iterator, List, NamedTuple, Optional, Set, Tuple

from plain_rules import NONE, Network, Octets, Rule, Term, data_of, fields_of, octets_of, record, some

Labels = Tuple[Octets, ...]
MOST_LABELS = 24  # a drawn name that is read on to more comes to no owner any more
FIRST_OCTETS = octets_of("abcdefghijklmnopqrstuvwxyz0123456789-_")
LABEL_OCTETS = (*FIRST_OCTETS, *(octet for octet in range(256) if octet not in FIRST_OCTETS and not 65 <= octet <= 90))
FOUND = ("leaves.Answer", "leaves.NoData", "leaves.NxDomain")
LEARNING = ("leaves.Answer", "leaves.Outside", "leaves.Unhosted")


class Ground:
    """The names and the DNAME records by which a configuration tells names apart."""

    def __init__(self, config: Term) -> None:
        zones = [zone for server in config[2] for zone in server[2]]
        names = [zone[1] for zone in zones] + [rr[1] for zone in zones for rr in zone[2]]
        self.base = {name[:length] for name in [(), *names] for length in range(len(name) + 1)}
        self.redirections = [(rr[1], rr[2][1]) for zone in zones for rr in zone[2] if rr[2][0] == "Dname"]

    def is_named(self, name: Labels) -> bool:
        """Whether DNAME records, or none, read the name on to a base name."""
        seen: Set[Labels] = set()
        waiting = [name]
        while waiting:
            one = waiting.pop()
            if one in self.base:
                return True
            if one not in seen and len(one) <= MOST_LABELS:
                seen.add(one)
                waiting += [target + one[len(owner):] for owner, target in self.redirections if one[:len(owner)] == owner]
        return False

    def class_of(self, name: Labels) -> Term:
        """The class of a name: itself, or the names below its longest named front."""
        longest = next(name[:length] for length in range(len(name), -1, -1) if self.is_named(name[:length]))
        return ("Exact", name) if longest == name else ("Below", longest)

    def representative(self, one: Term) -> Labels:
        """The name that stands for a class: itself, or with the first label that makes an unnamed name."""
        above: Labels = one[1]
        if one[0] == "Exact":
            return above
        labels = itertools.chain.from_iterable(itertools.product(LABEL_OCTETS, repeat=length) for length in (1, 2))
        return next((*above, label) for label in labels if not self.is_named((*above, label)))


class Walk(NamedTuple):
    """The states, the hops and the end of a walk."""

    states: Tuple[Dict[str, Term], ...]
    hops: Tuple[Term, ...]
    leaf: Term


def walks_from(network: Network, branch: Term, rtype: Term, states: Tuple[Dict[str, Term], ...], hops: Tuple[Term, ...]) -> Iterator[Walk]:
    if branch[0] == "End":
        yield Walk(states, hops if branch[1] == NONE else (*hops, branch[1][1]), branch[2])
        return
    hops = (*hops, branch[1]) if branch[1] else hops
    for step in network.next(rtype, branch[2]):
        yield from walks_from(network, step, rtype, (*states, fields_of(branch[2])), hops)


def walks(network: Network, query: Labels, rtype: Term) -> List[Walk]:
    """All walks of a query, in order."""
    return [walk for branch in network.starts(query) for walk in walks_from(network, branch, rtype, (), ())]


def following(config: Term, rewrites: int, followed: Tuple[Labels, ...]) -> Network:
    return Network(record(config=config, rewrites=rewrites, followed=followed))


@functools.lru_cache(maxsize=None)
def learnt(config: Term, rewrites: int, followed: Tuple[Labels, ...]) -> Tuple[Labels, ...]:
    """The servers whose addresses are learnt after as many rounds as there are servers."""
    servers = tuple(server[1] for server in config[2])
    for _ in servers:
        network = following(config, rewrites, followed)
        followed = tuple(server for server in servers if any(
            walk.leaf[0] in LEARNING for rtype in ("types.A", "types.Aaaa") for walk in walks(network, server, (rtype,))))
    return followed


class Cut:
    """The place of a delegation's fault, with the zones at both sides."""

    def __init__(self, network: Network, term: Term) -> None:
        _, self.server, origin, self.cut, self.ns = term
        self.above = self.held(network, self.server, origin)
        self.below = self.held(network, self.ns, self.cut)
        self.is_within = self.ns[:len(self.cut)] == self.cut

    @staticmethod
    def held(network: Network, server: Labels, origin: Labels) -> Optional[Term]:
        return next((zone for zone in network.servers.get(server, ()) if zone[1] == origin), None)

    def addresses(self, zone: Optional[Term]) -> Set[Term]:
        return {one for kind in ("A", "Aaaa") for one in (data_of(zone, self.ns, kind) if zone else [])}

    def servers(self, zone: Term) -> Set[Term]:
        return set(data_of(zone, self.cut, "Ns"))

    def has_glue(self) -> bool:
        return self.is_within and bool(self.addresses(self.above))

    def differs(self) -> bool:
        return bool(self.above and self.below) and self.servers(self.above) != self.servers(self.below)

    def glue_differs(self) -> bool:
        own, other = self.addresses(self.above), self.addresses(self.below)
        return self.is_within and bool(own and other) and own != other


def of_referral(network: Network, place: Term, only_greatest: Set[Labels]) -> Iterator[str]:
    """The kinds of faults that walks show by a referral at this place; of the sets of learnt addresses those servers are given that
    the greatest alone has."""
    cut = Cut(network, place)
    if cut.differs():
        yield "Differs"
    if cut.is_within and not cut.has_glue():
        yield "NoGlue"
    if cut.glue_differs():
        yield "GlueDiffers"
    if cut.ns in only_greatest and cut.ns not in network.tops and not cut.has_glue():
        yield "Cyclic"


def of_end(walk: Walk, greatest: Tuple[Labels, ...], stands: Callable[[], bool]) -> Iterator[Term]:
    """The faults that a walk shows by its end; `overlong` counts if the query stands for its class, which is asked for then alone."""
    kind, last = walk.leaf[0].split(".")[1], walk.states[-1]["last"]
    if kind == "Lame" or kind == "NoAddress" and walk.leaf[1] not in greatest:
        yield (f"faults.{kind}", walk.hops[-1][1])
    if kind == "Limit" or kind == "Overlong" and stands():
        yield (f"faults.{kind}", walk.leaf[1])
    if kind == "NxDomain" and last != NONE:
        yield ("faults.Blackhole", last[1])


def faults_of(config: Term, rewrites: int, query: Labels, rtype: Term) -> Set[Term]:
    """The faults that a query shows with a type."""
    ground = Ground(config)
    least, greatest = learnt(config, rewrites, ()), learnt(config, rewrites, tuple(server[1] for server in config[2]))
    network = following(config, rewrites, least)
    all_walks = walks(network, query, rtype)

    def stands() -> bool:
        return bool(ground.representative(ground.class_of(query)) == query)

    shown = {fault for walk in all_walks for fault in of_end(walk, greatest, stands)}
    for place in {hop[1] for walk in all_walks for hop in walk.hops if hop[0] == "Refer"}:
        shown.update((f"faults.{kind}", place) for kind in of_referral(network, place, set(greatest) - set(least)))
    if len({walk.leaf for walk in all_walks if walk.leaf[0] in FOUND}) > 1:
        shown.add(("faults.Answers", ground.class_of(query), rtype))
    return shown


def retailed(count: int, tail: Labels, walk: Term) -> Term:
    """A walk with the last labels of its query replaced, in all names that still carry them."""
    def name(one: Labels) -> Labels:
        return one[:max(0, len(one) - count)] + tail
    own = fields_of(walk)
    states = [fields_of(state) for state in own["states"]]
    carrying = [{**state, "name": name(state["name"])} if state["carried"] else state for state in states]
    hops = [(*hop[:3], name(hop[3])) if hop[0] == "Rewrite" and hop[2] and state["carried"] else hop for state, hop in zip(states, own["hops"])]
    return record(states=tuple(record(**state) for state in carrying), hops=tuple(hops), leaf=own["leaf"])


RULES: Dict[str, Rule] = {
    "IsClassOf": Rule(lambda ground, name, one: Ground(ground[1]).class_of(name) == one),
    "IsRepresentative": Rule(lambda ground, one, name: Ground(ground[1]).representative(one) == name),
    "IsInForce": Rule(lambda config, rewrites, followed: learnt(config, rewrites, ()) == followed),
    "ShowsIn": Rule(lambda config, rewrites, query, rtype, fault: fault in faults_of(config, rewrites, query, rtype)),
    "option_map": Rule(lambda retail, walk: walk if walk == NONE else some(retailed(retail[1], retail[2], walk[1]))),
}
