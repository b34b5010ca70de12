#!/usr/bin/env python3
"""Checks networks in parts and as a whole: parts.py [--count N] [--seed N] [--parts N,N,..] [--damaged N]
[--groot-large GROOT] [--groot-parts PARTS] [--groot-map MAP] [META ..]

The networks are those of the metadata files, or N networks (1,000) that are drawn by random numbers from the seed (1): a few
servers, zones and names, with delegations, aliases, redirections, wildcards and names that no record owns. tools/split splits
each into so many parts (2, 3 and 4), each part is checked by itself, and what is merged of their reports must be, octet for
octet, the report of the whole, with the same status. So many times (3) a line is taken out of a part's file of names, or one of
another part is put in: then the part is refused, or its report merges to the same octets, or the merge is refused.

While a part of a drawn network is checked, the files of the rows that it must skip hold rubbish; and of each split once another
file does too, which the part must refuse.

It ends with status 1 at the first network that goes otherwise, whose files it leaves, and tells at the end how many parts were
checked, how many were refused, and by which rules.
"""
import argparse
import collections
import contextlib
import importlib.machinery
import importlib.util
import json
import os
import random
import shutil
import subprocess
import sys
import tempfile

from measure import TOP

# DNAME records may multiply the names of a drawn network beyond all patience: one with more than these isn't split.
LIMIT = ["--classes", "100000"]
LABELS = ["a", "bb", "cc", "ns", "www", "*"]
TOPS = ["tt", "u"]


class Network:
    """A drawn network: its zones with their servers, and its records, as lines of zone files."""

    def __init__(self, seed):
        self.draw = random.Random(seed)
        self.names = sorted({self.name() for _ in range(14)} | {top + "." for top in TOPS})
        plain = [name for name in self.names if not name.startswith("*")]
        self.origins = sorted({*(top + "." for top in TOPS), *self.draw.sample(plain, self.draw.randint(1, 3))})
        self.servers = self.draw.sample(plain, self.draw.randint(2, 4))
        self.rows = [(origin, server) for origin in self.origins for server in self.hosts(origin)]
        hosting = {server for _, server in self.rows}
        self.tops = [server for server in self.servers if server in hosting][:self.draw.randint(1, 2)]

    def name(self):
        """A name of a few labels below one of the tops."""
        labels = [self.draw.choice(LABELS[:-1]) for _ in range(self.draw.randint(0, 3))]
        if labels and self.draw.random() < 0.1:
            labels[0] = "*"
        return ".".join([*labels, self.draw.choice(TOPS)]) + "."

    def hosts(self, origin):
        """The servers of a zone: a top's zones are on the first server."""
        others = self.draw.sample(self.servers, self.draw.randint(1, 2))
        return sorted({self.servers[0], *others} if origin.count(".") == 1 else set(others))

    def inside(self, origin):
        """A name of the network at or below an origin."""
        return self.draw.choice([name for name in self.names if name.endswith("." + origin) or name == origin] or [origin])

    def record(self, origin):
        """A record of a zone."""
        owner, target = self.inside(origin), self.draw.choice(self.names + ["gone.tt.", "x.y."])
        kinds = ["A", "A", "AAAA", "CNAME", "CNAME", "MX", "TXT"]
        kind = self.draw.choice(kinds if owner.startswith("*") else [*kinds, "NS", "NS", "DNAME"])
        data = {"A": "192.0.2.%d" % self.draw.randint(1, 3), "AAAA": "2001:db8::%d" % self.draw.randint(1, 2), "MX": "10 " + target,
                "TXT": '"%s"' % self.draw.choice("ab"), "NS": self.draw.choice(self.servers + [target])}.get(kind, target)
        return owner, f"{owner} 60 {kind} {data}"

    def zone(self, origin):
        """The lines of a zone: aliases stand alone, and nothing stands below a redirection."""
        lines = [f"{origin} 60 SOA ns.{origin} host.{origin} 1 2 3 4 5", f"{origin} 60 NS {self.draw.choice(self.servers)}"]
        taken = {origin: "SOA"}
        for _ in range(self.draw.randint(2, 12)):
            owner, line = self.record(origin)
            kind = line.split()[2]
            if owner in taken and "CNAME" in (kind, taken[owner]) or kind in ("CNAME", "DNAME") and owner in taken:
                continue
            taken[owner] = kind
            lines.append(line)
        for server in self.servers:
            if self.draw.random() < 0.6 and (server.endswith("." + origin) or server == origin) and taken.get(server) != "CNAME":
                lines.append(f"{server} 60 A 192.0.2.9")
        return lines

    def write(self, folder):
        rows = []
        for number, (origin, server) in enumerate(self.rows):
            with open(os.path.join(folder, f"{number}.zone"), "w", encoding="ascii") as file:
                file.writelines(line + "\n" for line in self.zone(origin))
            rows.append({"FileName": f"{number}.zone", "NameServer": server, "Origin": origin})
        with open(os.path.join(folder, "meta.json"), "w", encoding="ascii") as file:
            json.dump({"TopNameServers": self.tops, "ZoneFiles": rows}, file)


def labels_of(name):
    """The labels of a name without escapes, the top one first."""
    return tuple(reversed(name[:-1].split("."))) if name != "." else ()


class Names:
    """What a part's file of names says of the origins of zones: the interval, and which of them are held."""

    def __init__(self, file, origins):
        self.bounds, self.held = {}, {()}
        with open(file, encoding="ascii") as lines:
            for word, name in map(str.split, lines):
                labels = labels_of(name)
                if word == "keep":
                    self.held.update(labels[:count] for count in range(1, len(labels) + 1) if labels[:count] in origins)
                elif word != "away":
                    self.bounds[word] = labels

    def is_skipped(self, origin):
        """Whether the origin isn't held, and no name at or below it is in the interval."""
        begin, end = self.bounds.get("from", ()), self.bounds.get("to")
        is_before = origin < begin and begin[:len(origin)] != origin
        return origin not in self.held and (is_before or end is not None and end <= origin)


def script(path):
    """A script of the repository, as a module, so that none is started for each split."""
    sys.path.insert(0, os.path.dirname(path))
    loader = importlib.machinery.SourceFileLoader("script_" + os.path.basename(path), path)
    module = importlib.util.module_from_spec(importlib.util.spec_from_loader(loader.name, loader))
    loader.exec_module(module)
    return module


SPLIT = script(os.path.join(TOP, "tools", "split"))


def ended(*words):
    """The status, out and err of a run."""
    run = subprocess.run(words, stdin=subprocess.DEVNULL, capture_output=True, check=False)
    return run.returncode, run.stdout, run.stderr


class Trial:
    def __init__(self, said, folder):
        self.said, self.folder, self.told = said, folder, collections.Counter()

    def at(self, name):
        return os.path.join(self.folder, name)

    @contextlib.contextmanager
    def spoilt(self, zones):
        """While this lasts, these zone files of the drawn network hold rubbish."""
        for zone in zones:
            os.rename(self.at(zone), self.at(zone + ".kept"))
            with open(self.at(zone), "w", encoding="ascii") as file:
                file.write("rubbish\n")
        try:
            yield
        finally:
            for zone in zones:
                os.replace(self.at(zone + ".kept"), self.at(zone))

    def zones(self, file, is_skipped):
        """The zone files of the drawn network that the part with this file of names must skip, or those that it must read."""
        origins = [labels_of(origin) for origin, _ in self.rows]
        names = Names(file, set(origins))
        return [f"{row}.zone" for row, origin in enumerate(origins) if names.is_skipped(origin) == is_skipped]

    def part(self, file):
        """Checks a part, and keeps its report beside the file of its names; gives the status and the line on err."""
        skipped = self.zones(file, True)
        self.told["skipped rows"] += len(skipped)
        with self.spoilt(skipped):
            status, out, err = ended(self.said.groot_parts, "part", self.meta, file, *LIMIT)
        if status < 2:
            with open(file + ".report", "wb") as report:
                report.write(out)
        return status, err

    def merged(self, files):
        return ended(self.said.groot_parts, "merge", *(file + ".report" for file in files))[:2]

    def split(self, records, network, parts):
        folder = self.at("parts")
        shutil.rmtree(folder, ignore_errors=True)
        os.mkdir(folder)
        SPLIT.write_names(network, SPLIT.bounds(records.starts, parts), folder)
        return sorted(os.path.join(folder, file) for file in os.listdir(folder))

    def sound(self, whole, files):
        """Checks the parts of a split; each is taken, and they make the whole."""
        for file in files:
            status, err = self.part(file)
            self.told["parts"] += 1
            if status > 1:
                return f"{file}: status {status}: {err.decode().strip()}"
        return None if self.merged(files) == whole else f"{len(files)} parts make another report"

    def refuses(self, file, draw):
        """Checks a part while one of the zone files that it must read holds rubbish; it is refused for that file."""
        read = self.zones(file, False)
        if not read:
            return None
        zone = draw.choice(read)
        with self.spoilt([zone]):
            status, _, err = ended(self.said.groot_parts, "part", self.meta, file, *LIMIT)
        self.told["spoilt files"] += 1
        return None if status == 3 and err.decode().startswith(self.at(zone) + ":1:") else f"{file}: {zone} isn't refused"

    def damaged(self, whole, files, draw):
        """Checks the parts with a line of one file taken out or put in."""
        file, other = draw.choice(files), draw.choice(files)
        with open(file, encoding="ascii") as source, open(other, encoding="ascii") as more:
            lines, others = source.readlines(), more.readlines()
        changed = list(lines)
        if draw.random() < 0.6:
            changed.remove(draw.choice(lines))
        else:
            changed.append(draw.choice(others))
        with open(file, "w", encoding="ascii") as target:
            target.writelines(changed)
        status, err = self.part(file)
        self.told["damaged"] += 1
        wrong = None
        if status == 3:
            self.told[err.decode().split(": ")[-1].split()[0]] += 1
        elif status > 1:
            wrong = f"{file}: status {status}"
        else:
            status, out = self.merged(files)
            if status != 3 and (status, out) != whole:
                wrong = f"{file}, damaged, makes another report"
            self.told["merge refuses" if status == 3 else "same"] += 1
        if wrong is None:
            with open(file, "w", encoding="ascii") as target:
                target.writelines(lines)
            self.part(file)
        return wrong

    def run(self, meta, draw, rows=()):
        """What goes wrong with a network, or nothing; with its rows, if it was drawn."""
        self.meta, self.rows = meta, rows
        whole = ended(self.said.groot_large, "check", meta, *LIMIT)[:2]
        if whole[0] > 1:
            self.told["networks past the limit" if whole[0] == 4 else "refused networks"] += 1
            return None
        self.told["networks"] += 1
        self.told["networks with faults"] += whole[0]
        records = SPLIT.records_of(self.said.groot_map, meta, SPLIT.servers_of(meta))
        network = SPLIT.Network(records)
        for parts in self.said.parts:
            files = self.split(records, network, parts)
            wrong = self.sound(whole, files) or self.refuses(draw.choice(files), draw)
            for _ in range(self.said.damaged):
                wrong = wrong or self.damaged(whole, files, draw)
            if wrong:
                return wrong
        return None

    def drawn(self, seed):
        """What goes wrong with the network of a seed, or nothing."""
        network = Network(seed)
        network.write(self.folder)
        return self.run(self.at("meta.json"), network.draw, network.rows)


def main():
    parser = argparse.ArgumentParser(description="Checks drawn networks in parts and as a whole.")
    parser.add_argument("--count", type=int, default=1000)
    parser.add_argument("--seed", type=int, default=1)
    parser.add_argument("--parts", type=lambda text: [int(one) for one in text.split(",")], default=[2, 3, 4])
    parser.add_argument("--damaged", type=int, default=3)
    for program in ("large", "parts", "map"):
        parser.add_argument(f"--groot-{program}", default=os.path.join(TOP, "crates", f"groot_{program}", "out", f"groot_{program}"))
    parser.add_argument("meta", nargs="*", metavar="META")
    said = parser.parse_args()
    folder = tempfile.mkdtemp(prefix="parts-")
    trial = Trial(said, folder)
    for one in said.meta or range(said.seed, said.seed + said.count):
        wrong = trial.run(one, random.Random(said.seed)) if said.meta else trial.drawn(one)
        if wrong:
            print(f"{one}: {wrong}; its files are in {folder}")
            return 1
    shutil.rmtree(folder)
    print(", ".join(f"{what}: {count}" for what, count in sorted(trial.told.items())))
    return 0


if __name__ == "__main__":
    sys.exit(main())
