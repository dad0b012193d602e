#!/usr/bin/env python3
"""Makes a task graph file of version 2, to measure with, in which each task makes an item that three later tasks read; and an order of its tasks.

usage: make_shared_graph.py TASKS GRAPH_FILE ORDER_FILE

The readers are among the next thousand tasks; near the end there are fewer. The order is 1, 2, .. and so on. The numbers come from a small generator with a
fixed seed: the same call makes the same files.
"""
import sys

from numbers_from_a_seed import words

NEAR, READERS = 1000, 3


def main():
    count, graph, order = int(sys.argv[1]), sys.argv[2], sys.argv[3]
    draw = words(1)
    with open(graph, "w") as out:
        out.write(f"graph 2\ntasks {count}\n")
        for _ in range(count):
            out.write(f"{next(draw) % 1000} 0 {1 + next(draw) % 16}\n")
        out.write(f"items {count}\n")
        for task in range(1, count + 1):
            near = min(NEAR, count - task)
            readers = set()
            while len(readers) < min(READERS, near):
                readers.add(task + 1 + next(draw) % near)
            out.write(f"{next(draw) % 1000} {task}{''.join(f' {reader}' for reader in sorted(readers))}\n")
        out.write("end\n")
    with open(order, "w") as out:
        out.writelines(f"{task}\n" for task in range(1, count + 1))


main()
