#!/usr/bin/env python3
"""Makes a header for a StarPU program: `memplan_fence` has its tasks wait for each other by arcs and fences, and gives them priorities.

usage: to_starpu.py --graph GRAPH --fences FENCES [--order ORDER] > fenced_tasks.h

Task K of the graph is `tasks[K - 1]`. Joins are empty tasks. A fence touches no data: nothing is fetched or kept for it.
"""

from __future__ import annotations

import sys
from collections.abc import Iterator, Sequence

from fenced_graph import FencedGraph, export, limit_told

HEADER = """\
#include <starpu.h>
#include <stddef.h>

enum { MEMPLAN_TASKS = %(tasks)d, MEMPLAN_JOINS = %(joins)d, MEMPLAN_WAITS = %(waits)d, MEMPLAN_WORKERS = %(workers)d };

/* The greatest runs first, where the scheduler looks at priorities. */
static const int memplan_priorities[] = {
%(priorities)s
};

/* Whom a task waits for, and the task: tasks are counted from 0, and joins behind them. */
static const unsigned memplan_waits[][2] = {
%(pairs)s
};

/* Of tasks that are created and not submitted yet; the caller submits them then. 0, or what StarPU refused to submit a join with. */
static inline int memplan_fence(struct starpu_task *const tasks[])
{
    static struct starpu_task *all[MEMPLAN_TASKS + MEMPLAN_JOINS];
    for (size_t i = 0; i < MEMPLAN_TASKS; i++) {
        all[i] = tasks[i];
        all[i]->priority = memplan_priorities[i];
    }
    for (size_t i = MEMPLAN_TASKS; i < MEMPLAN_TASKS + MEMPLAN_JOINS; i++) {
        all[i] = starpu_task_create();
        all[i]->name = "join";
    }
    for (size_t i = 0; i < MEMPLAN_WAITS; i++)
        starpu_task_declare_deps_array(all[memplan_waits[i][1]], 1, &all[memplan_waits[i][0]]);
    for (size_t i = MEMPLAN_TASKS; i < MEMPLAN_TASKS + MEMPLAN_JOINS; i++) {
        int refused = starpu_task_submit(all[i]);
        if (refused)
            return refused;
    }
    return 0;
}"""

IN_A_LINE = 12


def rows(entries: Sequence[str]) -> str:
    """C has no empty arrays."""
    entries = entries or ["{0}"]
    lines = [entries[at : at + IN_A_LINE] for at in range(0, len(entries), IN_A_LINE)]
    return ",\n".join(f"    {', '.join(line)}" for line in lines)


def waits_of(graph: FencedGraph) -> list[tuple[int, int]]:
    """Counted from 0, and joins that no fence waits for left out."""
    place = {number: count for count, number in enumerate([*graph.tasks, *graph.used_joins])}
    joining = [(reader, join) for join, readers in graph.used_joins.items() for reader in readers]
    pairs = sorted({*graph.arcs, *graph.fences})
    return [(place[start], place[end]) for start, end in [*pairs, *joining]]


def lines_of(graph: FencedGraph) -> Iterator[str]:
    waits = waits_of(graph)
    yield f"/* Fenced for {graph.bound}, {limit_told(graph)}. */"
    yield HEADER % {
        "tasks": graph.size,
        "joins": len(graph.used_joins),
        "waits": len(waits),
        "workers": graph.workers,
        "priorities": rows([str(graph.priorities[task]) for task in graph.tasks]),
        "pairs": rows([f"{{{start}, {end}}}" for start, end in waits]),
    }


if __name__ == "__main__":
    sys.exit(export(__doc__.split("\n")[0], lines_of))
