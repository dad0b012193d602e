#!/usr/bin/env python3
"""Makes a tree file and an order file of so many nodes, to measure with.

usage: make_tree.py NODES TREE_FILE ORDER_FILE [near|random|star|chain|binary]

The parent of node i is one of the eight nodes after it (near, if nothing else is asked), any node after it (random), the last node (star)
or the next one (chain); in a binary tree, balanced, each node has two children as far as there are nodes. Node NODES is the root, so the order 1, 2, .. is a traversal.
The numbers come from a small generator with a fixed seed: the same call makes the same files.
"""
import sys

from numbers_from_a_seed import words


def main():
    count, tree, order = int(sys.argv[1]), sys.argv[2], sys.argv[3]
    shape = sys.argv[4] if len(sys.argv) > 4 else "near"
    reach = {"near": 8, "random": count, "star": 1, "chain": 1, "binary": 1}[shape]
    draw = words(1)
    with open(tree, "w") as out:
        out.write(f"tree 1\nnodes {count}\n")
        for node in range(1, count + 1):
            parent = node + 1 + next(draw) % min(count - node, reach) if node < count else 0
            if shape == "star" and node < count:
                parent = count
            if shape == "binary" and node < count:
                parent = count + 1 - (count + 1 - node) // 2
            out.write(f"{parent} {1 + next(draw) % 1000} {next(draw) % 1000} {1 + next(draw) % 16}\n")
        out.write("end\n")
    with open(order, "w") as out:
        for node in range(1, count + 1):
            out.write(f"{node}\n")


main()
