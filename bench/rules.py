#!/usr/bin/env python3
"""Compares reports with plain rules: rules.py [--count N] [--seed N] [--program GROOT]

N networks (100) are drawn by random numbers from the seed (1), as by parts.py. Of each, groot lists the classes and makes the
report. The rules of docs/plain_files.py and docs/plain_faults.py, which share nothing with the program, read the same files, and
find by walks of each class's representative, one by one, which faults it shows with which type. The classes and their
representatives must be those of the rules, and so must be the faults, and the first query and type of each.

It ends with status 1 at the first network that differs, and tells at the end how many networks and classes were compared, and how
many faults of each kind. Networks with more names than some are passed over, since rules that list all walks take long there.
"""
import argparse
import collections
import json
import os
import subprocess
import sys
import tempfile

from measure import GROOT, TOP, program
from parts import Network

sys.path.insert(0, os.path.join(TOP, "docs"))
import plain_faults
import plain_files
from plain_rules import FIELDS, name, octets_of

REWRITES = 3
MOST_NAMES = 60
KINDS = {
    "lame-delegation": "Lame", "delegation-differs": "Differs", "missing-glue": "NoGlue", "glue-differs": "GlueDiffers",
    "cyclic-dependency": "Cyclic", "rewrite-limit": "Limit", "blackhole": "Blackhole", "answers-differ": "Answers",
    "overlong": "Overlong", "no-address": "NoAddress",
}
WORDS = {one.upper(): one for one in FIELDS}


def labels(text):
    return name(octets_of(text), ())


def zone(folder, row):
    """A zone as the rules of walks take it: each record once, and none that lies outside."""
    origin = labels(row["Origin"])
    with open(os.path.join(folder, row["FileName"]), "rb") as file:
        told = plain_files.zone_text(origin, 1_000_000, tuple(file.read()))
    records = dict.fromkeys((rr[1], rr[3]) for rr in told[1] if rr[1][:len(origin)] == origin)
    return ("zone_at", origin, tuple(("rr", *rr) for rr in records))


def configuration(folder, meta):
    """The configuration of metadata, server by server."""
    servers = collections.defaultdict(list)
    for row in meta["ZoneFiles"]:
        servers[labels(row["NameServer"])].append(zone(folder, row))
    return ("with_tops", tuple(map(labels, meta["TopNameServers"])), tuple(("server_at", server, tuple(zones)) for server, zones in servers.items()))


def fault(entry):
    """The fault of an entry of a report, as the rules tell it."""
    kind, place = f"faults.{KINDS[entry['kind']]}", {key: labels(value) for key, value in entry["place"].items() if key not in ("class", "type")}
    if kind == "faults.Answers":
        return (kind, (entry["place"]["class"].title(), place["name"]), (f"types.{WORDS[entry['place']['type']]}",))
    names = ("server", "zone", "cut", "ns") if "cut" in place else ("server", "zone", "owner")
    return (kind, ("cut_at" if "cut" in place else "place_at", *(place[one] for one in names)))


def by_rules(config, classes):
    """Each fault with the first query and type that show it, and the first class that the rules tell otherwise."""
    ground, found, wrong = plain_faults.Ground(config), {}, None
    for kind, above, *below in classes:
        query = labels((below or [above])[0])
        own = (kind.title(), labels(above))
        if (ground.class_of(query), ground.representative(own)) != (own, query):
            wrong = wrong or f"{kind} {above}"
        for one in FIELDS:
            for shown in plain_faults.faults_of(config, REWRITES, query, (f"types.{one}",)):
                found.setdefault(shown, (query, one))
    return found, wrong


def compare(groot, folder, told):
    """What differs of the network in a folder, or nothing."""
    meta = os.path.join(folder, "meta.json")
    ended = subprocess.run([groot, "check", meta, "--rewrites", str(REWRITES)], stdin=subprocess.DEVNULL, capture_output=True, check=False)
    report = json.loads(ended.stdout) if ended.returncode < 2 else {"names": MOST_NAMES + 1}
    if report["names"] > MOST_NAMES:
        told["networks passed over"] += 1
        return None
    lines = subprocess.run([groot, "classes", meta], stdin=subprocess.DEVNULL, capture_output=True, check=True).stdout.decode().splitlines()
    with open(meta, encoding="ascii") as file:
        found, wrong = by_rules(configuration(folder, json.load(file)), map(str.split, lines))
    entries = {fault(entry): (labels(entry["query"]), WORDS[entry["type"]]) for entry in report["faults"]}
    told.update(["networks", *(entry["kind"] for entry in report["faults"])])
    told["classes"] += len(lines)
    if wrong or len(lines) != report["classes"]:
        return f"the class {wrong}"
    other = next((one for one in {**found, **entries} if found.get(one) != entries.get(one)), None)
    return other and f"{other}: by groot {entries.get(other)}, by the rules {found.get(other)}"


def main():
    """The status."""
    parser = argparse.ArgumentParser(description=(__doc__ or "").split("\n\n", maxsplit=1)[0])
    parser.add_argument("--count", type=int, default=100)
    parser.add_argument("--seed", type=int, default=1)
    parser.add_argument("--program", type=program, default=GROOT)
    said = parser.parse_args()
    told = collections.Counter()
    for seed in range(said.seed, said.seed + said.count):
        with tempfile.TemporaryDirectory() as folder:
            Network(seed).write(folder)
            wrong = compare(said.program, folder, told)
        if wrong:
            print(f"rules: the network {seed} differs: {wrong}")
            return 1
    print(", ".join(f"{what}: {count}" for what, count in sorted(told.items())))
    return 0


if __name__ == "__main__":
    sys.exit(main())
