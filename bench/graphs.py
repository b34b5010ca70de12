#!/usr/bin/env python3
"""Measures the graphs of classes: graphs.py [PROGRAM]

It copies the crates that interp_graph stands on into a scratch folder, beside a program whose text stands in graphs/, and
proves and builds it; PROGRAM is one that was built so before. It makes the graph of a name below each delegation of a
registry of 100,000, of each host of 1,000 hosted zones with 100 records each, and of a name of the crossing zones with 10
rewrites, whose graph has 98,256 pairs of state and type. For each it prints the microseconds of processor time a graph, the
least of five runs without what making the configuration takes, the allocations a graph (where valgrind is there), and for
the crossing zones the octets a node by the peak memory of the run.
"""
import shutil
import sys

from measure import MEBIBYTE, allocations, printed, taken, with_program

CRATES = ("dns_data", "net_model", "walk_laws", "zone_tree", "name_rules", "zone_lookup", "sym_query", "graph_form", "interp_graph")
DEPENDS = "dns_data net_model name_rules zone_lookup graph_form interp_graph"
REGISTRY, HOSTING, CROSSING = "0", "1", "2"
INPUTS = (("registry", REGISTRY, "100000", "1000"), ("hosting", HOSTING, "1000", "10"), ("crossing", CROSSING, "1", "1"))


def measure(program):
    """A line for each input."""
    for title, kind, count, fewer in INPUTS:
        none, once = (taken([program, kind, count, turns]) for turns in ("0", "1"))
        graphs, pairs, nodes = map(int, printed([program, kind, count, "1"]))
        line = f"{title}: {graphs} graphs, {pairs} pairs, {nodes} nodes; {(once.processor - none.processor) / graphs * 1e6:.2f} microseconds a graph"
        if kind == CROSSING:
            line += f", {(once.memory - none.memory) * MEBIBYTE / nodes:.0f} octets a node"
        if shutil.which("valgrind"):
            few = int(printed([program, kind, fewer, "1"])[0])
            made = allocations([program, kind, fewer, "1"]) - allocations([program, kind, fewer, "0"])
            line += f", {made / few:.1f} allocations a graph"
        print(line, flush=True)


if __name__ == "__main__":
    with_program(sys.argv[1] if len(sys.argv) > 1 else None, "graphs", CRATES, DEPENDS, measure)
