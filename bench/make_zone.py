#!/usr/bin/env python3
"""Writes a zone file of about so many octets, as a hosting firm might have it: make_zone.py OCTETS > FILE

Hosts with addresses of both families, mail, texts, services, aliases and certificate authorities, in relative and
absolute names, with escapes, comments, continued lines and inherited owners and TTLs. The same size gives the same file.
The other inputs of the scripts here are made by this one too.
"""
import os
import random
import sys

HEAD = """\
$TTL 1h
$ORIGIN hosting.example.
@   IN  SOA ns1 hostmaster (
            2026010101 ; serial
            3h 15m 1w 1h )
    IN  NS  ns1
    IN  NS  ns2
ns1 IN  A   192.0.2.1
ns2 IN  A   192.0.2.2
"""


def host(number, draw):
    """The records of one host."""
    name = f"host{number}"
    low, high = number % 256, number // 256 % 256
    yield f"; customer {number}: {draw.choice(['paid', 'trial', 'internal'])}\n"
    yield f"{name}\t300\tIN\tA\t10.{draw.randrange(256)}.{high}.{low}\n"
    yield f"\t\tIN\tAAAA\t2001:db8:{draw.randrange(65536):x}::{number % 65536:x}\n"
    yield f"\t\tMX\t{draw.randrange(100)} mail.{name}\n"
    yield f"mail.{name} A 10.{draw.randrange(256)}.{low}.{high}\n"
    yield f"www.{name} 1h30m CNAME {name}.hosting.example.\n"
    kind = number % 5
    if kind == 0:
        yield f"{name} TXT ( \"v=spf1 ip4:10.0.{high}.{low} -all\" ; mail policy\n\t\"note \\\"{number}\\\"; \\065\\032b\" )\n"
    elif kind == 1:
        yield f"_sip._tcp.{name} 60 SRV 10 {draw.randrange(100)} 5060 {name}\n"
    elif kind == 2:
        yield f"box\\.{number}.{name} A 10.1.{high}.{low}\n"
    elif kind == 3:
        yield f"{name} CAA 0 issue \"ca{number % 7}.example\"\n"
    else:
        yield f"{name} TYPE65534 \\# 5 ( 08000100{low:02x} )\n"


def write_zone(octets, into):
    draw = random.Random(octets)
    written = into.write(HEAD)
    number = 0
    while written < octets:
        number += 1
        for line in host(number, draw):
            written += into.write(line)


def write_many(zones, records, folder):
    """So many zone files of so many records each, and the rows of the metadata for them."""
    rows = []
    for number in range(zones):
        with open(f"{folder}/{number}.zone", "w") as into:
            into.write("$TTL 1h\n@ SOA ns1.hosting.example. hostmaster.hosting.example. 1 3h 15m 1w 1h\n@ NS ns1.hosting.example.\n")
            for record in range(records - 2):
                into.write(f"host{record} A 10.0.{number % 256}.{record % 256}\n")
        rows.append({"FileName": f"{number}.zone", "NameServer": "ns1.hosting.example.", "Origin": f"customer{number}.example."})
    return rows


EXAMPLE = "$TTL 1h\n$ORIGIN example.\n@ SOA ns1 hostmaster 1 3h 15m 1w 1h\n@ NS ns1\nns1 A 192.0.2.1\n"
SERVERS = 3


def registry(count):
    """The lines of so many delegations: two name servers with an address each, and one of three with an IPv6 address too."""
    for number in range(count):
        own, address = f"d{number:06}", f"{number // 65536}.{number // 256 % 256}.{number % 256}"
        yield f"{own} NS ns1.{own}\n{own} NS ns2.{own}\nns1.{own} A 10.{address}\nns2.{own} A 10.{address}\n"
        if number % 3 == 0:
            yield f"ns1.{own} AAAA 2001:db8::{number % 65536:x}\n"


def elsewhere(count):
    """The lines of so many delegations to one name server outside."""
    for number in range(count):
        yield f"d{number:06} NS ns1.elsewhere.\n"


def redirected(count, onto=lambda number: "t"):
    """The lines of so many DNAME records onto a tree of 40 names, or onto what is made of their numbers."""
    for number in range(40):
        yield f"w{number}.t A 192.0.2.{number + 1}\n"
    for number in range(count):
        yield f"d{number:06} DNAME {onto(number)}\n"


def aliases(count):
    """The lines of a chain of so many aliases, which ends in an address."""
    for number in range(count):
        yield f"a{number} CNAME a{number + 1}\n"
    yield f"a{count} A 192.0.2.2\n"


def write_example(lines, folder):
    """The zone example. of these lines on its one server, and the rows of the metadata for it."""
    with open(os.path.join(folder, "own.zone"), "w") as into:
        into.write(EXAMPLE)
        into.writelines(lines)
    return [{"FileName": "own.zone", "NameServer": "ns1.example."}]


def write_on_many(servers, folder):
    """The zone example. with an address for each name on so many servers, and the rows of the metadata for it."""
    rows = write_example(["* A 192.0.2.2\n"], folder)
    return rows + [{"FileName": "own.zone", "NameServer": f"s{number}.example."} for number in range(1, servers)]


def crossing():
    """The lines of four DNAME records that multiply names."""
    return [f"{owner} DNAME c\n" for owner in ("a", "b", "a.c", "b.c")]


REDIRECTING = [f"s{number}." for number in range(1, 5)]


def write_redirecting(count, folder):
    """Four zones on four servers that redirect the names of each other, so that the query a.p. reaches 393,168 pairs of a state
    and a type, and on the first server a zone of so many aliases onto names from which as many are reached; the rows of the
    metadata for them."""
    rows = []
    for server, (origin, target) in zip(REDIRECTING, (("p.", "a1.q."), ("p.", "a2.q."), ("q.", "b1.p."), ("q.", "b2.p."))):
        with open(os.path.join(folder, f"{server}zone"), "w") as into:
            into.write(f"{origin} 60 SOA s1. h. 1 2 3 4 5\n{origin} 60 DNAME {target}\n")
        rows.append({"FileName": f"{server}zone", "NameServer": server})
    with open(os.path.join(folder, "aliases.zone"), "w") as into:
        into.write("r. 60 SOA s1. h. 1 2 3 4 5\n")
        into.writelines(f"w{number}.r. 60 CNAME x{number}.p.\n" for number in range(count))
    return [*rows, {"FileName": "aliases.zone", "NameServer": REDIRECTING[0]}]


def write_empty(folder, server):
    """An empty zone file, for which a run is refused once it has read the rows before, and the row of the metadata for it."""
    with open(os.path.join(folder, "empty.zone"), "w"):
        pass
    return {"FileName": "empty.zone", "NameServer": server}


def write_hosted(zones, second, records, folder):
    """So many zones of so many records, on three servers in turn, the first of them on a second one too, and the zone above
    them; the rows of the metadata for them."""
    rows = [{"FileName": "above.zone", "NameServer": "ns1.example."}]
    with open(os.path.join(folder, "above.zone"), "w") as above:
        above.write(EXAMPLE + "ns2 A 192.0.2.2\nns3 A 192.0.2.3\n")
        for number in range(zones):
            names = [f"ns{(number + more) % SERVERS + 1}.example." for more in range(2 if number < second else 1)]
            sets = "".join(f"@ NS {name}\n" for name in names)
            above.writelines(f"customer{number} NS {name}\n" for name in names)
            with open(os.path.join(folder, f"{number}.zone"), "w") as into:
                into.write(f"$TTL 1h\n@ SOA {names[0]} hostmaster.example. 1 3h 15m 1w 1h\n{sets}")
                for host in range(records - 1 - len(names)):
                    into.write(f"host{host} A 10.0.{number % 256}.{host % 256}\n")
            rows += [{"FileName": f"{number}.zone", "NameServer": name, "Origin": f"customer{number}.example."} for name in names]
    return rows


def outside(count):
    """The lines of so many aliases to names of which no zone is configured."""
    return (f"a{number} CNAME target{number}.elsewhere.\n" for number in range(count))


def one_set(count):
    """The lines of one name with so many addresses."""
    return (f"many A 10.{number // 65536}.{number // 256 % 256}.{number % 256}\n" for number in range(count))


def chained_redirections(count):
    """The lines of so many DNAME records, each of which redirects to the owner of the next one."""
    yield from (f"d{number} DNAME d{number + 1}\n" for number in range(count))
    yield f"w.d{count} A 192.0.2.2\n"


def lame(count):
    """The lines of so many delegations to the zone's own server, which has none of these zones."""
    return (f"d{number} NS ns1\n" for number in range(count))


def reverse(count):
    """The lines of so many PTR records of IPv6 addresses (RFC 3596 section 2.5), absolute names of 34 labels."""
    for number in range(count):
        digits = ".".join(reversed(f"20010db8000000000000{number:012x}"))
        yield f"{digits}.ip6.arpa. PTR host{number}\n"


def write_reverse(count, folder):
    """The zone ip6.arpa. with so many PTR records on one server, and the rows of the metadata for it."""
    with open(os.path.join(folder, "own.zone"), "w") as into:
        into.write("$TTL 1h\n$ORIGIN ip6.arpa.\n@ SOA ns1.example. h.example. 1 3h 15m 1w 1h\n@ NS ns1.example.\n$ORIGIN example.\n")
        into.writelines(reverse(count))
    return [{"FileName": "own.zone", "NameServer": "ns1.example.", "Origin": "ip6.arpa."}]


def write_zone_of(origin, servers, lines, path):
    """A zone file with these name servers and lines."""
    with open(path, "w") as into:
        into.write(f"$TTL 1h\n$ORIGIN {origin}\n@ SOA {servers[0]} hostmaster.{origin} 1 3h 15m 1w 1h\n")
        into.writelines(f"@ NS {name}\n" for name in servers)
        into.writelines(lines)


def hosts_of(count):
    """The lines of so many hosts with an address each."""
    return (f"host{number} A 10.0.{number // 256 % 256}.{number % 256}\n" for number in range(count))


def write_without_above(servers, zones, records, folder):
    """So many zones of so many records, each on two of so many servers, with no zone above them; the rows of the metadata."""
    names = [f"ns{number}.host." for number in range(servers)]
    rows = []
    for number in range(zones):
        pair = [names[number % servers], names[(number + 1) % servers]]
        write_zone_of(f"customer{number}.example.", pair, hosts_of(records - 3), os.path.join(folder, f"{number}.zone"))
        rows += [{"FileName": f"{number}.zone", "NameServer": name} for name in pair]
    return rows


def write_on_all(servers, zones, records, folder):
    """So many zones of so many records, each on all of so many servers, and the zone above them on one server; the rows of the
    metadata."""
    names = [f"ns{number}.host." for number in range(servers)]
    cuts = (f"customer{number} NS {name}\n" for number in range(zones) for name in names)
    rows = write_example(cuts, folder)
    for number in range(zones):
        write_zone_of(f"customer{number}.example.", names, hosts_of(records - 1 - servers), os.path.join(folder, f"{number}.zone"))
        rows += [{"FileName": f"{number}.zone", "NameServer": name} for name in names]
    return rows


def write_nested(depth, records, folder):
    """So many zones, each delegated by the one before to a server of its own with glue, with so many hosts; the rows of the
    metadata."""
    rows, origin = [], "example."
    for level in range(depth):
        below = [f"z NS ns.z\nns.z A 192.0.2.{level + 1}\n"] if level + 1 < depth else []
        own = ["ns A 192.0.2.{level}\n".format(level=level)]
        write_zone_of(origin, [f"ns.{origin}"], [*own, *below, *hosts_of(records)], os.path.join(folder, f"{level}.zone"))
        rows.append({"FileName": f"{level}.zone", "NameServer": f"ns.{origin}"})
        origin = f"z.{origin}"
    return rows


def write_across(count, folder):
    """A zone of so many aliases to names of a zone on another server, and that zone, both delegated; the rows of the metadata."""
    cuts = ["a NS ns.a\nns.a A 192.0.2.2\nb NS ns.b\nns.b A 192.0.2.3\n"]
    rows = write_example(cuts, folder)
    aliases_to_b = (f"h{number} CNAME h{number}.b.example.\n" for number in range(count))
    hosts = (f"h{number} A 10.0.{number // 256 % 256}.{number % 256}\n" for number in range(count))
    for label, address, lines in (("a", 2, aliases_to_b), ("b", 3, hosts)):
        path = os.path.join(folder, f"{label}.zone")
        write_zone_of(f"{label}.example.", [f"ns.{label}.example."], [f"ns A 192.0.2.{address}\n", *lines], path)
        rows.append({"FileName": f"{label}.zone", "NameServer": f"ns.{label}.example."})
    return rows


LETTERS = "abcdefghijklmnopqrstuvwxyz0123456789"


def write_short(records, kind, into):
    """So many short records: each of an owner of its own, all of one owner with different data, or all identical."""
    into.write("$TTL 60\n$ORIGIN hosting.example.\nns1 A 10.0.0.1\n@ SOA ns1 h 1 2 3 4 5\n@ NS ns1\n")
    for number in range(records - 3):
        if kind == "owners":
            label = LETTERS[number % 26] + "".join(LETTERS[number // 26 // 36**place % 36] for place in range(3))
            into.write(f"{label} A 10.1.1.1\n")
        elif kind == "data":
            into.write("\tA " + ".".join(str(number // 32**place % 32) for place in range(4)) + "\n")
        else:
            into.write("\tA 10.1.1.1\n")


if __name__ == "__main__":
    write_zone(int(sys.argv[1]), sys.stdout)
