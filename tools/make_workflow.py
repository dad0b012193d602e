#!/usr/bin/env python3
"""Makes a workflow file and an order file of so many tasks, to measure with.

usage: make_workflow.py TASKS WORKFLOW_FILE ORDER_FILE

Tasks are put after new data or after what stands, and now and then two terms are set side by side; in the end all are. Tasks are
numbered in the order of their positions, in which suppliers may come later, so the order lists each series' first part, its
task and its second part. The numbers come from a small generator with a fixed seed: the same call makes the same files.
"""
import sys

from numbers_from_a_seed import words


def main():
    count, workflow, order = int(sys.argv[1]), sys.argv[2], sys.argv[3]
    draw = words(1)
    positions, stack = [], []
    # a term on the stack is a tree of tasks: None, (first, task, second) or a list of terms
    for task in range(1, count + 1):
        if len(stack) < 2 or next(draw) % 2 == 1:
            for _ in range(2):
                positions.append(f"data {1 + next(draw) % 1000}")
                stack.append(None)
        positions.append(f"task {next(draw) % 1000} {1 + next(draw) % 16}")
        second = stack.pop()
        first = stack.pop()
        stack.append((first, task, second))
        if len(stack) >= 2 and next(draw) % 3 == 0:
            positions.append("par 2")
            top = stack.pop()
            stack.append([stack.pop(), top])
    if len(stack) >= 2:
        positions.append(f"par {len(stack)}")
        stack = [stack]
    with open(workflow, "w") as out:
        out.write(f"workflow 1\ntasks {count}\n")
        out.writelines(line + "\n" for line in positions)
        out.write("end\n")
    with open(order, "w") as out:
        left = [stack[0]]
        while left:
            term = left.pop()
            if isinstance(term, int):
                out.write(f"{term}\n")
            elif term is not None:
                left.extend(reversed(term))


main()
