#!/usr/bin/env python3
"""Measures groot-large on large networks: large.py [GROOT-LARGE] [--runs N] [--tenth]

GROOT-LARGE is the built program, crates/groot_large/out/groot_large if none is given. It makes
- a registry of 3,000,000 delegations, half of them to servers below them; every tenth delegated zone has a file and a row, at
  one of 1,000 hosting firms,
- 200,000 zones of a hosting firm, each on two servers, and the zone above them,
- metadata of 1,000,000 rows that are refused behind the last row, since no row names the top server: what metadata alone take,

each at a tenth of its size first. Of each it prints lines of a table: its rows, the size of its files in MB, and the processor
seconds and MiB that the least of --runs checks with one worker take, one run if none are given, or `-` where one ends with another
status than it should; and how many times as much the seconds are as those of a tenth. Beside it stand the stock checkers that are
installed, of the registry's own file, and of the firm one run of `scopes` of 10,000 of its zones, with how many times as much as
the check it takes. With --tenth there is only the tenth. It needs some gigabytes of memory.
"""
import argparse
import os
import tempfile
from typing import Callable, NamedTuple, Optional

from measure import TOP, measured, metadata, program, ratio, stock_checkers

LARGE = os.path.join(TOP, "crates", "groot_large", "out", "groot_large")
FIRMS = 1000
SCOPES = 10_000
TOPS = "com", "net", "org", "de"
SOA = "{zone} 60 SOA {server} h. 1 2 3 4 5\n{zone} 60 NS {server}\n"


class Files:
    """The files of a network in a folder, and the rows of its metadata."""

    def __init__(self, folder):
        self.folder, self.rows, self.octets = folder, [], 0

    def add(self, name, text, zone, *servers):
        """Writes the file of a zone, which has a row for each of its servers."""
        with open(os.path.join(self.folder, name), "w", encoding="ascii") as into:
            into.writelines(text)
            self.octets += into.tell()
        self.rows += [{"FileName": name, "NameServer": server, "Origin": zone} for server in servers]


def registry(files, count):
    """A registry, the zones of hosting firms, and every tenth zone that it delegates."""
    lines = [SOA.format(zone="reg.", server="a.nic.reg."), "a.nic.reg. 60 A 192.0.2.1\n"]
    for firm in range(FIRMS):
        zone = f"firm{firm}.reg."
        own = f"ns1.{zone} 60 A 10.9.{firm >> 8}.{firm & 255}\n"
        lines.append(f"{zone} 60 NS ns1.{zone}\n{own}")
        files.add(f"f{firm}.zone", [SOA.format(zone=zone, server=f"ns1.{zone}"), own], zone, f"ns1.{zone}")
    for number in range(count):
        zone = f"customer{number}.reg."
        if number % 10 == 0:
            server = f"ns1.firm{number // 10 % FIRMS}.reg."
            lines.append(f"{zone} 60 NS {server}\n")
            lost = f"ftp.{zone} 60 CNAME gone.{zone}\n" if number % 3000 == 0 else ""
            text = [SOA.format(zone=zone, server=server), f"{zone} 60 A 10.1.2.3\nwww.{zone} 60 CNAME {zone}\n", lost]
            files.add(f"c{number}.zone", text, zone, server)
        elif number % 2:
            glue = "".join(f"ns{one}.{zone} 60 A 10.{one}.{number >> 8 & 255}.{number & 255}\n" for one in (1, 2))
            lines.append(f"{zone} 60 NS ns1.{zone}\n{zone} 60 NS ns2.{zone}\n{glue}")
        else:
            lines.append(f"{zone} 60 NS ns1.provider{number % 20000}.net.\n{zone} 60 NS ns2.provider{number % 20000}.net.\n")
    files.add("reg.zone", lines, "reg.", "a.nic.reg.")
    return "a.nic.reg."


def hosting(files, count):
    """The zones of a hosting firm on two servers, and the zone above them."""
    servers = "ns1.firm.net.", "ns2.firm.net."
    hosts = "".join(f"{server} 60 A 10.0.0.{number}\n" for number, server in enumerate(servers, 2))
    lines = [SOA.format(zone=".", server="above."), "above. 60 A 10.0.0.1\n", hosts, *(f"firm.net. 60 NS {server}\n" for server in servers)]
    files.add("firm.zone", [SOA.format(zone="firm.net.", server=servers[0]), f"firm.net. 60 NS {servers[1]}\n", hosts], "firm.net.", *servers)
    for number in range(count):
        zone = f"customer{number}.{TOPS[number % 4]}."
        lines += [f"{zone} 60 NS {server}\n" for server in servers]
        hosted = f"{zone} 60 A 10.1.1.1\n{zone} 60 MX 10 mail.{zone}\nmail.{zone} 60 A 10.1.1.2\nwww.{zone} 60 CNAME {zone}\n"
        lost = f"shop.{zone} 60 CNAME gone.{zone}\n" if number % 100 == 0 else ""
        files.add(f"z{number}.zone", [SOA.format(zone=zone, server=servers[0]), f"{zone} 60 NS {servers[1]}\n", hosted, lost], zone, *servers)
    files.add("above.zone", lines, ".", "above.")
    return "above."


def unhosted(files, count):
    """Rows of files that are never opened, as the top server has no row."""
    files.rows += [{"FileName": f"z{number}.zone", "NameServer": "ns1.firm.net.", "Origin": f"customer{number}.com."} for number in range(count)]
    return "above."


def customers(folder, count):
    """The name of a file of the names of SCOPES of a hosting firm's zones, or of all, spread over its zones."""
    path = os.path.join(folder, "changed")
    names = [f"customer{number}.{TOPS[number % 4]}." for number in range(0, count, max(1, count // SCOPES))]
    with open(path, "w", encoding="ascii") as into:
        into.writelines(f"{name}\n" for name in names[:SCOPES])
    return path


class Measured(NamedTuple):
    """An input that is measured: what it is, how it is made and how large, the status of its check, the origin of a zone that the
    stock checkers read, and whether scopes are asked of it."""

    what: str
    made: Callable[[Files, int], str]
    count: int
    status: int
    origin: Optional[str] = None
    scopes: bool = False


INPUTS = [
    Measured("registry of {:,} delegations", registry, 3_000_000, 1, origin="reg."),
    Measured("{:,} zones of a firm on two servers", hosting, 200_000, 1, scopes=True),
    Measured("metadata of {:,} rows", unhosted, 1_000_000, 3),
]


def told(one, count, groot, runs, tenth):
    """Prints the lines of an input of this size, and gives what its check takes. `tenth` is what that of a tenth took."""
    with tempfile.TemporaryDirectory() as folder:
        files = Files(folder)
        meta = metadata(folder, files.rows, one.made(files, count))
        size = (files.octets + os.path.getsize(meta)) / 1e6
        checked = measured([groot, "check", meta, "--workers", "1"], (one.status,), runs)
        beside = [("groot-large", checked, tenth)]
        beside += [(name, measured(words, runs=runs), None) for name, words in stock_checkers(one.origin, os.path.join(folder, "reg.zone"))]
        if one.scopes:
            scopes = measured([groot, "scopes", meta, customers(folder, count)], (0, 1), runs)
            beside.append((f"groot-large scopes of {min(count, SCOPES):,}", scopes, checked))
        for name, best, other in beside:
            spent = f"{best.processor:.1f} | {best.memory:,.0f}" if best else "- | -"
            times = f"{ratio(best.processor, other.processor):.1f}" if best and other else ""
            print(f"| {one.what.format(count)} | {len(files.rows):,} | {size:,.0f} | {name} | {spent} | {times} |", flush=True)
        return checked


def main():
    """Prints the table."""
    parser = argparse.ArgumentParser(description=(__doc__ or "").split("\n\n", maxsplit=1)[0])
    parser.add_argument("program", nargs="?", default=LARGE)
    parser.add_argument("--runs", type=int, default=1)
    parser.add_argument("--tenth", action="store_true")
    line = parser.parse_args()
    groot = os.path.abspath(program(line.program))
    print("| input | rows | MB | program | processor s | MiB | times a tenth, or the check |\n|---|---|---|---|---|---|---|")
    for one in INPUTS:
        tenth = told(one, one.count // 10, groot, line.runs, None)
        if not line.tenth:
            told(one, one.count, groot, line.runs, tenth)


if __name__ == "__main__":
    main()
