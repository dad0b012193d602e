#!/usr/bin/env python3
"""What a solver with one stack takes along an order that was made for one with a heap: a table in Markdown.

usage: last_child.py MATRIX.mtx ..

Each matrix, of at most 50,000 rows, is eliminated by minimum degree. A front is built in the place of its greatest child's block, and the best
postorder of these fronts is taken; a stack can only build it in the place of the block on top, that of the child which ran last. It wants
numpy and scipy, and the library that `make -C c` builds. Peaks are in entries of triangles.
"""
import sys
from pathlib import Path

ROOT = Path(__file__).resolve().parent.parent
sys.path.insert(0, str(ROOT / "python"))

import memplan  # noqa: E402: it is found by then
import numpy  # noqa: E402
import scipy.io  # noqa: E402
import scipy.sparse  # noqa: E402


def pattern_of(name):
    read = scipy.io.mmread(name)
    return scipy.sparse.coo_matrix((numpy.ones(len(read.row)), (read.row, read.col)), shape=read.shape)


def shares_of_last(fronts, order):
    """Of each front the block of the child that runs last in the order."""
    shares = numpy.zeros(len(fronts.parent), dtype=numpy.int64)
    for front in order:
        if fronts.parent[front - 1]:
            shares[fronts.parent[front - 1] - 1] = fronts.out[front - 1]
    return shares


def main():
    if len(sys.argv) < 2:
        sys.exit(__doc__)
    print("| matrix | fronts | in the place of the greatest child | of the last child | more |")
    print("|---|--:|--:|--:|--:|")
    for name in sys.argv[1:]:
        fronts = memplan.fronts(pattern_of(name), in_place=True)
        tree = fronts.parent, fronts.out, fronts.extra
        order, heap = memplan.best_postorder(*tree, fronts.share)
        stack = memplan.replay(*tree, order, shares_of_last(fronts, order))
        print(f"| {Path(name).stem} | {len(fronts.parent)} | {heap} | {stack} | {100 * (stack - heap) / heap:.1f} % |")


main()
