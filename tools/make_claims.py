#!/usr/bin/env python3
"""Makes a workflow without memory, and a plan with a claim at each of its positions, to measure the checker with.

usage: make_claims.py TASKS WORKFLOW_FILE PLAN_FILE

The workflow has four positions for each task and one more: the same term again and again beside a new one. Every order has the peak 0,
and every claim says that no order stays below that.
"""
import sys


def main():
    count, workflow, plan = int(sys.argv[1]), sys.argv[2], sys.argv[3]
    positions = 4 * count + 1
    with open(workflow, "w") as out:
        out.write(f"workflow 1\ntasks {count}\ndata 0\n")
        out.write("data 0\ndata 0\ntask 0 1\npar 2\n" * count)
        out.write("end\n")
    with open(plan, "w") as out:
        out.write(f"plan 1\norder {count}\n")
        out.writelines(f"{task}\n" for task in range(1, count + 1))
        out.write(f"peak 0\nclaims {positions}\n")
        out.writelines(f"{position} F -1 0\n" for position in range(1, positions + 1))
        out.write("end\n")


if __name__ == "__main__":
    main()
