"""Configurations of a few files at which a run once grew out of all proportion. Each function writes files into a folder, and
gives the path of their metadata."""
import os

from measure import metadata, write

RECORD = "1.1.1.1"
REDIRECTIONS = [("p.", "a.q."), ("p.", "b.q."), ("q.", "a.r."), ("q.", "b.r."), ("r.", "p.")]


def start(origin):
    """The first record of a zone."""
    return f"{origin} 1 SOA . . 1 2 3 4 5\n"


def put(folder, name, text):
    """Writes a file into the folder, and gives its name."""
    write(os.path.join(folder, name), text)
    return name


def row(file, server, origin=None):
    """A row of the metadata."""
    return {"FileName": file, "NameServer": server} | ({"Origin": origin} if origin else {})


def addresses(count, suffix=""):
    """So many hosts with an address each, below a suffix."""
    return "".join(f"{number:x}{suffix} A {RECORD}\n" for number in range(count))


def redirecting(folder, redirections):
    """A row for each redirection, each at a server of its own."""
    return [
        row(put(folder, f"f{number}", f"{start(owner)}{owner} 1 DNAME {target}\n"), f"s{number}.")
        for number, (owner, target) in enumerate(redirections)
    ]


def redirected_servers(count, folder):
    """Servers whose names redirections lead on in many ways, and a zone on all of them."""
    rows = redirecting(folder, REDIRECTIONS)
    tops = [one["NameServer"] for one in rows]
    zone = put(folder, "e", start("e."))
    return metadata(folder, rows + [row(zone, f"{number}.p.") for number in range(count)], *tops)


def aliased_servers(count, folder, target="www.a."):
    """Top servers that all hold one zone, in which a wildcard makes an alias of each of their names."""
    zone = put(folder, "a.zone", f"$TTL 60\n{start('a.')}a. NS s0.a.\nwww.a. A {RECORD}\n*.a. CNAME {target}\n")
    servers = [f"s{number}.a." for number in range(count)]
    return metadata(folder, [row(zone, server) for server in servers], *servers)


def servers_aliased_away(count, folder):
    """The same, where the aliases leave all zones, so that each leads on to all top servers."""
    return aliased_servers(count, folder, "www.z.")


def laden_cut(count, folder):
    """A delegation to so many servers without an address, and as many names below it."""
    servers = "".join(f"z NS {number:x}.z\n" for number in range(count))
    zone = put(folder, "r", f"$TTL 1\n{start('.')}{servers}{addresses(count, '.y.z')}")
    return metadata(folder, [row(zone, "r.")], "r.")


def forgotten_server(count, folder):
    """A zone of so many names on ten servers below ten top servers, with one name server more than its delegation has."""
    parent = "".join(f"z NS n{number}.z\nn{number}.z A 10.0.0.{number}\n" for number in range(10))
    child = "".join(f"@ NS n{number}\nn{number} A 10.0.0.{number}\n" for number in range(11))
    above = put(folder, "r", f"$TTL 1\n{start('.')}{parent}")
    zone = put(folder, "z", f"$TTL 1\n{start('@')}{child}{addresses(count)}")
    tops = [f"t{number}." for number in range(10)]
    return metadata(folder, [row(above, top, ".") for top in tops] + [row(zone, f"n{number}.z.", "z.") for number in range(10)], *tops)


def long_report(levels, folder):
    """Three redirections at each of so many levels onto those of the level below, at two servers that answer differently."""
    redirections = "".join(f"{'abc'[number]}.{level} DNAME {level - 1}\n" for level in range(1, levels + 1) for number in range(3))
    common = put(folder, "b", f"$TTL 60\n{start('@')}{redirections}")
    more = put(folder, "a", f"$INCLUDE b\nw.0 A {RECORD}\n")
    return metadata(folder, [row(more, "s.", "z."), row(common, "t.", "z.")], "s.", "t.")


def redirected_names(count, folder):
    """So many names that redirections lead on in many ways."""
    rows = redirecting(folder, REDIRECTIONS)
    tops = [one["NameServer"] for one in rows]
    zone = put(folder, "n", f"$TTL 1\n{start('@')}{addresses(count)}")
    return metadata(folder, rows + [row(zone, "n.", "p.")], *tops)


def redirections_at_tops(count, folder):
    """So many redirections onto a tree of as many names, at twenty top servers."""
    redirections = "".join(f"d{number:x} DNAME t\n" for number in range(count))
    zone = put(folder, "z", f"$TTL 1\n{start('@')}{redirections}{addresses(count, '.t')}")
    tops = [f"s{number}." for number in range(20)]
    return metadata(folder, [row(zone, top, "z.") for top in tops], *tops)


def servers_in_turn(count, folder):
    """Zones below a redirected name, each with its name server in the next one."""
    rows = redirecting(folder, REDIRECTIONS)
    delegations = "".join(f"z{number}.p NS n.z{min(number + 1, count)}.p\n" for number in range(count + 1))
    above = put(folder, "t", f"$TTL 1\n{start('.')}{delegations}n.z{count}.p A {RECORD}\n")
    zone = put(folder, "z", f"$TTL 1\n{start('@')}n A {RECORD}\n")
    tops = [one["NameServer"] for one in rows] + ["t."]
    inner = [row(zone, f"n.z{min(number + 1, count)}.p.", f"z{number}.p.") for number in range(count + 1)]
    return metadata(folder, rows + [row(above, "t.", ".")] + inner, *tops)


def chained_servers(count, folder):
    """Zones whose name servers stand each in the next zone."""
    delegations = "".join(f"z{number} NS n.z{number + 1}\n" for number in range(count))
    above = put(folder, "r", f"$TTL 1\n{start('.')}{delegations}n.z{count} A {RECORD}\n")
    zone = put(folder, "z", f"$TTL 1\n{start('@')}n A {RECORD}\n")
    inner = [row(zone, f"n.z{number + 1}.", f"z{number}.") for number in range(count)]
    return metadata(folder, [row(above, "r.", ".")] + inner, "r.")


def ladder(servers, folder):
    """Twelve zones, each below the one before, all on the same servers, and 188 names in the last one."""
    names = [f"n{number}." for number in range(servers)]
    rows = []
    for level in range(12):
        below = "".join(f"a NS {name}\n" for name in names)
        last = addresses(188, ".b") if level == 11 else ""
        zone = put(folder, f"f{level}", f"$TTL 1\n{start('@')}{below}{last}")
        origin = "a." * level or "."
        rows += [row(zone, name, origin) for name in names]
    return metadata(folder, rows, *names)


def redirected_targets(count, folder):
    """So many mail exchanges whose names redirections lead on in many ways."""
    rows = redirecting(folder, [("p.", "a.q."), ("p.", "b.q."), ("q.", "p.")])
    mail = "".join(f"{number}.m. 1 MX 1 {number}.p.\n" for number in range(count))
    zone = put(folder, "m", f"{start('m.')}{mail}")
    tops = [one["NameServer"] for one in rows] + ["m."]
    return metadata(folder, rows + [row(zone, "m.")], *tops)
