#!/usr/bin/env python3
"""Measures groot-gate where a secondary is behind in each zone: gate.py [GROOT] [GROOT-MAP] [--zones N] [--runs N]

GROOT and GROOT-MAP are the built programs, crates/groot/out/groot and crates/groot_map/out/groot_map if none are given. It
makes so many zones of 8 records, 1,000 if no number is given, each on two servers of which the second one has an older copy,
and the zone above them. Printed are, each as the least of some runs: the processor seconds of `groot check`; of the whole gate
with all that it runs; and of jq in it, which makes all the views; then how many times as long jq takes as Python's json needs to
read and write the findings in the same run, since seconds of two machines can't be compared; and how many lines the log has. For
1,000 zones 2 seconds of jq are wanted, and always at most 200 lines.
"""
import argparse
import json
import os
import shutil
import subprocess
import tempfile
import time

from measure import GROOT, TOP, measured, metadata, program, ratio

GROOT_MAP = os.path.join(TOP, "crates", "groot_map", "out", "groot_map")
GATE = os.path.join(TOP, "tools", "gate")
FOUND = (1,)
# a jq that says in a file how long it took
TIMED = """#!/usr/bin/env bash
TIMEFORMAT='%U %S'
{{ time {jq} "$@" 2>&3; }} 3>&2 2>>{file}
"""


def write_zones(count, folder):
    """Writes the zones, and returns their rows."""
    rows = []
    above = ["@ 60 IN SOA ns1.t. h.t. 1 2 3 4 5\n", *(f"@ 60 NS {ns}\nns{ns[2]} 60 A 10.0.0.{ns[2]}\n" for ns in ("ns1.t.", "ns2.t."))]
    above += [f"zone{number} 60 NS ns1.t.\nzone{number} 60 NS ns2.t.\n" for number in range(count)]
    for server, serial in (("ns1.t.", 2), ("ns2.t.", 1)):
        os.mkdir(os.path.join(folder, server))
        rows.append(written(folder, server, "t.", above))
        for number in range(count):
            rows.append(written(folder, server, f"zone{number}.t.", [
                f"@ 60 IN SOA ns1.t. h.t. {serial} 2 3 4 5\n@ 60 NS ns1.t.\n@ 60 NS ns2.t.\n@ 60 MX 10 mail\nmail 60 A 10.1.0.1\n",
                f"www 60 A 10.0.1.{serial}\n@ 60 A 10.1.0.2\n@ 60 TXT \"v=spf1 -all\"\n"]))
    return rows


def written(folder, server, origin, lines):
    """The row of a zone file that it writes."""
    name = f"{server}/{origin}zone"
    with open(os.path.join(folder, name), "w", encoding="ascii") as file:
        file.writelines(lines)
    return {"FileName": name, "NameServer": server, "Origin": origin}


def on_path(folder, programs):
    """Puts programs on the path by their names, and a jq that says in the file `took` of the folder how long it took."""
    for name, path in programs.items():
        os.symlink(os.path.abspath(path), os.path.join(folder, name))
    with open(os.path.join(folder, "jq"), "w", encoding="ascii") as file:
        file.write(TIMED.format(jq=shutil.which("jq"), file=os.path.join(folder, "took")))
    os.chmod(os.path.join(folder, "jq"), 0o755)
    os.environ["PATH"] = f"{folder}:{os.environ['PATH']}"


def seconds_of_jq(path):
    """The least processor seconds that runs of jq took."""
    with open(path, encoding="ascii") as file:
        return min(sum(map(float, line.split())) for line in file)


def seconds_of_json(path):
    """The processor seconds in which Python reads a JSON file and writes it again."""
    begun = time.process_time()
    with open(path, encoding="utf-8") as file:
        json.dumps(json.load(file))
    return time.process_time() - begun


def main():
    words = argparse.ArgumentParser()
    words.add_argument("groot", nargs="?", default=GROOT)
    words.add_argument("groot_map", nargs="?", default=GROOT_MAP)
    words.add_argument("--zones", type=int, default=1000)
    words.add_argument("--runs", type=int, default=3)
    line = words.parse_args()
    with tempfile.TemporaryDirectory() as folder:
        meta = metadata(folder, write_zones(line.zones, folder), "ns1.t.", "ns2.t.")
        into, programs = os.path.join(folder, "into"), os.path.join(folder, "programs")
        os.mkdir(programs)
        on_path(programs, {"groot": program(line.groot), "groot-map": program(line.groot_map)})
        gate = [GATE, "--into", into, meta]
        check, whole = measured(["groot", "check", meta], FOUND, line.runs), measured(gate, FOUND, line.runs)
        if check is None or whole is None:
            raise SystemExit("a run ended with another status than 1")
        log = subprocess.run(gate, stdin=subprocess.DEVNULL, stdout=subprocess.PIPE, stderr=subprocess.STDOUT, check=False).stdout
        views = seconds_of_jq(os.path.join(programs, "took"))
        by_json = seconds_of_json(os.path.join(into, "findings.json"))
    print(f"| {line.zones:,} zones | check {check.processor:.2f} s | gate {whole.processor:.2f} s | jq {views:.2f} s | "
          f"{ratio(views, by_json):.1f} times Python's json | {log.count(10)} lines |")


if __name__ == "__main__":
    main()
