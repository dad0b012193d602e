#!/usr/bin/env python3
"""What a plan of a million nodes costs as a call of the library for C, and as a command of the program.

usage: calls.py PROGRAM COST

PROGRAM is the built program, COST the program of c/test/cost.c, linked with the library. Both plan the same trees, which
tools/make_tree.py makes. Of the program's processor time that of a run is taken off which only reads the text: of the same file without its
last line, which is refused there. So what is left is to judge the tree, to plan, and to print the plan; the call judges the nodes, plans, and
copies the order. Each run is made five times, in turn, and the least time counts.
"""
import re
import resource
import subprocess
import sys
import tempfile
from pathlib import Path

ROOT = Path(__file__).resolve().parent.parent
NODES = 1_000_000
ROUNDS = 5


def seconds_of(words, statuses=(0,)):
    """The processor time of a run."""
    before = resource.getrusage(resource.RUSAGE_CHILDREN)
    run = subprocess.run(words, stdout=subprocess.DEVNULL, stderr=subprocess.DEVNULL, check=False)
    after = resource.getrusage(resource.RUSAGE_CHILDREN)
    if run.returncode not in statuses:
        raise SystemExit(f"{words}: status {run.returncode}")
    return after.ru_utime - before.ru_utime + after.ru_stime - before.ru_stime


def call_seconds(cost, tree):
    run = subprocess.run([cost, tree], stdout=subprocess.PIPE, text=True, check=True)
    return float(re.search(r"^plan of \d+ nodes: ([0-9.]+) s", run.stdout, re.M).group(1))


def main():
    program, cost = sys.argv[1], sys.argv[2]
    print("| tree | the program's planning | the call | ratio |")
    print("|---|---|---|---|")
    with tempfile.TemporaryDirectory() as work:
        tree, order, cut = f"{work}/tree", f"{work}/order", f"{work}/cut"
        for shape in ("near", "random", "chain", "binary"):
            make = [sys.executable, ROOT / "tools/make_tree.py", str(NODES), tree, order, shape]
            subprocess.run(make, check=True)
            Path(cut).write_text(Path(tree).read_text().removesuffix("end\n"))
            whole, reading, call = [], [], []
            for _ in range(ROUNDS):
                whole.append(seconds_of([program, "plan", "--tree", tree]))
                reading.append(seconds_of([program, "plan", "--tree", cut], (3,)))
                call.append(call_seconds(cost, tree))
            planning = min(whole) - min(reading)
            print(f"| {shape} | {planning:.2f} s | {min(call):.2f} s | {min(call) / planning:.2f} |")


main()
