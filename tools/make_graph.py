#!/usr/bin/env python3
"""Makes a task graph file of so many tasks, to measure with, that has a series-parallel term.

usage: make_graph.py TASKS GRAPH_FILE

From one arc on, some arc gets a task in its middle, and every other time some arc gets another beside it. So tasks stand in no order
of their numbers, and arcs in none either. The numbers come from a small generator with a fixed seed: the same call makes the same file.
"""
import sys

from numbers_from_a_seed import words


def main():
    count, graph = int(sys.argv[1]), sys.argv[2]
    draw = words(1)
    starts, ends = [0], [0]
    for task in range(1, count + 1):
        arc = next(draw) % len(starts)
        starts.append(task)
        ends.append(ends[arc])
        ends[arc] = task
        if next(draw) % 2 == 0:
            arc = next(draw) % len(starts)
            starts.append(starts[arc])
            ends.append(ends[arc])
    with open(graph, "w") as out:
        out.write(f"graph 1\ntasks {count}\n")
        for _ in range(count):
            out.write(f"{next(draw) % 1000} 0 {1 + next(draw) % 16}\n")
        out.write(f"arcs {len(starts)}\n")
        for start, end in zip(starts, ends):
            out.write(f"{start} {end} {next(draw) % 1000}\n")
        out.write("end\n")


main()
