#!/usr/bin/env python3
"""What calls cost from Python on arrays of numpy, beside the same calls of the library on arrays of C.

usage: python_calls.py [ROUNDS]

The library is the one that python/memplan finds. Trees are of random numbers from fixed seeds: one of a million nodes, each below one of
the fifty after it, and one of 710,000 nodes that grow smaller, each below one of the two after it, whose plan has 650,000 claims.

C's time is that of the call alone, on nodes, an order and claims that are there. Python's is that of everything between arrays of numpy and
arrays of numpy: to look at each number, to make the nodes for C, the call, and to copy what it wrote. It is processor time, the least of
ROUNDS, 9 if nothing else is said, in which all take their turns, so that it matters little what else the machine does.
"""
import ctypes
import sys
import time
from pathlib import Path

import numpy

ROOT = Path(__file__).resolve().parent.parent
sys.path.insert(0, str(ROOT / "python"))
import memplan  # noqa: E402
from memplan import Tree, _calls  # noqa: E402


def tree_columns(count, reach, seed):
    """Parents, and two columns of sizes."""
    draw, at = numpy.random.default_rng(seed), numpy.arange(count)
    parent = at + 2 + numpy.minimum(draw.integers(0, reach, count), numpy.maximum(count - 2 - at, 0))
    parent[-1] = 0
    return parent, draw.integers(1, 1 << 30, count), draw.integers(1, 1 << 30, count)


def done(status):
    assert status == 0, status


class InC:
    """The calls on arrays of C, as a program in C makes them."""

    def __init__(self, tree):
        self.nodes, self.count = _calls.nodes_of(tree.parent, tree.out, tree.extra, tree.share, tree.time)
        self.order, self.peak, self.fault = (ctypes.c_uint32 * self.count)(), ctypes.c_uint64(), memplan._Fault()
        self.room = 4 * self.count
        self.claims, self.written = (memplan._Claim * self.room)(), ctypes.c_uint64()

    def plan(self):
        told = self.nodes, self.count, self.order, self.count, ctypes.byref(self.peak), ctypes.byref(self.fault)
        done(memplan._plans.memplan_plan_tree(*told))

    def certify(self):
        told = self.nodes, self.count, self.order, self.count, ctypes.byref(self.peak), self.claims, self.room
        done(memplan._plans.memplan_certify_tree(*told, ctypes.byref(self.written), ctypes.byref(self.fault)))

    def check(self):
        told = self.nodes, self.count, self.order, self.count, self.peak, self.claims, self.written, ctypes.byref(self.fault)
        done(memplan._plans.memplan_check_tree(*told))


def least_times(calls, rounds):
    """Of each call the least processor time, where all take their turns."""
    least = [float("inf")] * len(calls)
    for _ in range(rounds):
        for place, call in enumerate(calls):
            start = time.process_time()
            call()
            least[place] = min(least[place], time.process_time() - start)
    return least


def row(what, c, python):
    print(f"| {what} | {c * 1000:.0f} ms | {python * 1000:.0f} ms | {python / c:.2f} |", flush=True)


def main():
    if sys.argv[1:2] in (["-h"], ["--help"]):
        sys.exit(__doc__)
    rounds = int(sys.argv[1]) if sys.argv[1:] else 9
    print("| what | the call in C | from Python | ratio |")
    print("|---|---|---|---|")

    columns = tree_columns(1_000_000, 50, 1)
    tree = Tree(*columns)
    in_c = InC(tree)
    times = least_times([in_c.plan, lambda: memplan.plan(*columns), tree.plan, lambda: Tree(*columns).plan()], rounds)
    for what, python in zip(("memplan.plan(..)", "tree.plan()", "Tree(..).plan()"), times[1:]):
        row(f"a plan of a million nodes, `{what}`", times[0], python)

    parent, out, extra = tree_columns(710_000, 2, 2)
    tree = Tree(parent, numpy.sort(out)[::-1], numpy.sort(extra))
    in_c, plan = InC(tree), tree.plan(evidence=True)
    in_c.certify()
    assert in_c.written.value == len(plan.evidence.position) and in_c.peak.value == plan.peak
    times = least_times([in_c.certify, lambda: tree.plan(evidence=True), in_c.check, lambda: tree.check(plan)], rounds)
    claims = f"{len(plan.evidence.position):,}"
    row(f"a plan of 710,000 nodes with {claims} claims, `tree.plan(evidence=True)`", *times[:2])
    row("what judges it, `tree.check(plan)`", *times[2:])


main()
