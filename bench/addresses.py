#!/usr/bin/env python3
"""Measures the search for learnt addresses: addresses.py [PROGRAM]

It copies the crates that the search and the graphs stand on into a scratch folder, beside a program whose text stands in
addresses/, and proves and builds it; PROGRAM is one that was built so before. Of 1,000 and of 10,000 name servers each has
its name in a zone that the one before it serves. Where the first has glue, all are learnt, one after the other; where it has
its name in a zone of the last one, none is, but each depends on the others alone; where no server holds its zone, all are
taken away from the greatest set, one after the other. For each it prints the processor time of both sets, the least of five
runs without what making the graphs takes; wanted are seconds for 10,000 servers, and not minutes.
"""
import sys

from measure import printed, taken, with_program

CRATES = ("dns_data", "net_model", "walk_laws", "zone_tree", "name_rules", "zone_lookup", "sym_query", "graph_form", "interp_graph", "address_deps")
DEPENDS = "dns_data net_model name_rules zone_lookup graph_form interp_graph address_deps"
KINDS = (("all learnt", "0"), ("a circle", "1"), ("none learnt", "2"))


def measure(program):
    """A line for each input."""
    for title, kind in KINDS:
        for count in ("1000", "10000"):
            none, once = (taken([program, kind, count, turns]) for turns in ("0", "1"))
            servers, least, greatest = printed([program, kind, count, "1"])
            print(f"{title}: {servers} servers, least {least}, greatest {greatest}: {once.processor - none.processor:.3f} seconds", flush=True)


if __name__ == "__main__":
    with_program(sys.argv[1] if len(sys.argv) > 1 else None, "addresses", CRATES, DEPENDS, measure)
