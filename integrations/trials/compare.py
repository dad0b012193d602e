#!/usr/bin/python3
"""Memory and time of the same tasks by Dask alone and by the runner, as tables in Markdown.

usage: compare.py [--turns N] [--slowness S] [--program PROGRAM] [--only threads|processes|costs] [--quick]

Four workers of one thread, as threads of one process and as processes. Of each cell the tasks run N times (2 if nothing else is said): the
greatest sum of bytes at any moment, recorded exactly in every process, in MB; and the least time, in seconds. Tasks sleep, S (4) times
as long as in the smallest case, so the tables tell little of the machine. Beside each time within a bound stands that of the simulated
run, in which nothing but the tasks takes time; with the program memplan that of each tree is compared with what `simulate` prints.
"""

from __future__ import annotations

import argparse
import datetime
import heapq
import os
import subprocess
import tempfile
import time
from pathlib import Path
from typing import Any, Callable, Dict, List, NamedTuple, Optional, Sequence, Tuple

import blocks
import dask
import distributed
import workloads
from clusters import cluster, digests, records, settled_records
from distributed import Client, wait
from memplan.admission import Admission, ResultGraph
from memplan.dask import Task, run
from memplan.dask.tasks import graph_of, order_of

WORKERS = 4
FACTORS = (1.0, 1.2, 2.0)

Futures = Dict[int, Any]


class Case(NamedTuple):
    name: str
    load: workloads.Load
    collection: Any = None


class Cell(NamedTuple):
    top: int
    seconds: float
    digests: Dict[int, Any]


def cases(slowness: int, quick: bool) -> List[Case]:
    collection, array = workloads.array_load(4 if quick else 10, 10 * slowness)
    return [
        Case("fork-join", workloads.fork_join(8 if quick else 64, slowness=slowness)),
        Case("random tree", workloads.random_tree(30 if quick else 300, slowness=slowness)),
        Case("fronts", workloads.fronts(10 if quick else 40, slowness=slowness)),
        Case("(x + x.T).sum()", array, collection),
    ]


# The ways to run


def plain(client: Client, case: Case) -> Futures:
    """By Dask alone: a collection as it is; tasks all at once, as one graph whose keys are grouped as those of a collection are."""
    tasks, kept = case.load.tasks, sorted(graph_of(case.load.tasks, 0).kept)
    if case.collection is not None:
        return {kept[0]: client.compute(case.collection)}
    run_name = f"{time.monotonic_ns()}"
    keys = [("merge-" + run_name if task.inputs else "leaf-" + run_name, index) for index, task in enumerate(tasks)]
    graph = {
        keys[index]: (task.function, *task.arguments, *(keys[result] for result in task.inputs)) for index, task in enumerate(tasks)
    }
    return dict(zip(kept, client.get(graph, [keys[index] for index in kept], sync=False)))


def by_priority(client: Client, case: Case) -> Futures:
    """By Dask alone, all at once, with the order as priorities."""
    tasks, graph = case.load.tasks, graph_of(case.load.tasks, 0)
    futures: Futures = {}
    for rank, index in enumerate(order_of(graph)):
        inputs = [futures[result] for result in tasks[index].inputs]
        futures[index] = client.submit(tasks[index].function, *tasks[index].arguments, *inputs, priority=-rank, pure=False)
    return {index: futures[index] for index in graph.kept}


def measured(client: Client, turns: int, way: Callable[[], Futures]) -> Cell:
    top, seconds, told = 0, float("inf"), {}
    for _ in range(turns):
        records(client)
        began = time.monotonic()
        futures = way()
        wait(list(futures.values()))
        seconds = min(seconds, time.monotonic() - began)
        told = digests(client, futures)
        del futures
        highest, rest = blocks.top_and_rest(settled_records(client))
        assert rest == 0, "something is left"
        top = max(top, highest)
    return Cell(top, seconds, told)


# The simulated run


def makespan(load: workloads.Load, graph: ResultGraph, bound: int) -> int:
    """Of the tasks on workers of one thread, where nothing but the tasks takes time and memory is free at once."""
    order = order_of(graph)
    ranks = {task: rank for rank, task in enumerate(order)}
    admission = Admission(graph, bound, order)
    waiting: List[Tuple[int, int]] = []
    running: List[Tuple[int, int, int]] = []
    now = 0
    while admission.left:
        for task in admission.ready():
            heapq.heappush(waiting, (ranks[task], task))
        while waiting and len(running) < WORKERS:
            rank, task = heapq.heappop(waiting)
            assert admission.start(task)
            heapq.heappush(running, (now + load.times[task], rank, task))
        now = running[0][0]
        while running and running[0][0] == now:
            task = heapq.heappop(running)[2]
            admission.done(task)
            for result in admission.spent(task):
                admission.gone(result)
    return now


def simulated(program: Path, load: workloads.Load, graph: ResultGraph, bound: int) -> int:
    """What `simulate` of the program prints for a tree."""
    with tempfile.TemporaryDirectory() as folder:
        tree, order = Path(folder) / "tree", Path(folder) / "order"
        lines = [f"{graph.owners[it]} {graph.sizes[it]} {graph.extras[it]} {load.times[it]}" for it in range(len(load.times))]
        tree.write_text("\n".join(["tree 1", f"nodes {len(lines)}", *lines, "end", ""]))
        order.write_text("".join(f"{task + 1}\n" for task in order_of(graph)))
        words = f"simulate --tree {tree} --order {order} --bound {bound} --workers {WORKERS}"
        printed = subprocess.run([program, *words.split()], capture_output=True, text=True, check=True).stdout
    return int(printed.split("\n")[0].removeprefix("makespan "))


# Tables


def table(head: Sequence[str], rows: Sequence[Sequence[str]]) -> str:
    lines = ["| " + " | ".join(row) + " |" for row in (head, ["---"] * len(head), *rows)]
    return "\n".join(lines) + "\n"


def told(cell: Cell, ideal: Optional[int] = None) -> str:
    beside = "" if ideal is None else f" ({ideal / 1000:.2f})"
    return f"{cell.top / 1e6:.1f} / {cell.seconds:.2f}{beside}"


def compared(processes: bool, some: List[Case], factors: Sequence[float], turns: int, program: Optional[Path]) -> str:
    others = WORKERS - 1 if processes else 0
    graphs = [graph_of(case.load.tasks, others) for case in some]
    least = [graph.least_bound(order_of(graph)) for graph in graphs]
    peaks = ["along its order, one after the other", *(f"{it / 1e6:.1f}" for it in least)]
    rows = [peaks]
    with cluster(processes, WORKERS, float("inf")) as client:
        plain_cells = [measured(client, turns, lambda: plain(client, case)) for case in some]
        rows.append(["Dask, without queuing", *map(told, plain_cells)])
    with cluster(processes, WORKERS) as client:
        rows.append(["Dask", *(told(measured(client, turns, lambda: plain(client, case))) for case in some)])
        rows.append(["Dask, the order as priority", *(told(measured(client, turns, lambda: by_priority(client, case))) for case in some)])
        for factor in factors:
            row = [f"the core, within {factor} times that"]
            for case, graph, peak, wanted in zip(some, graphs, least, plain_cells):
                bound = int(factor * peak)
                cell = measured(client, turns, lambda: run(case.load.tasks, bound, client))
                assert cell.digests == wanted.digests, "another result"
                assert cell.top <= bound, f"{cell.top} is past the bound of {bound}"
                ideal = makespan(case.load, graph, bound)
                if program and graph.is_forest:
                    assert ideal == simulated(program, case.load, graph, bound), "simulate prints another makespan"
                row.append(told(cell, ideal))
            rows.append(row)
    ample = [makespan(case.load, graph, sum(graph.sizes) + sum(graph.extras)) for case, graph in zip(some, graphs)]
    rows.append(["simulated, within any bound", *(f"({it / 1000:.2f})" for it in ample)])
    names = [f"{case.name}, {len(case.load.tasks)} tasks" for case in some]
    return table(["processes" if processes else "threads of one process", *names], rows)


# What the core costs


def quick_task(*_: Any) -> None:
    return None


def chain(count: int) -> List[Task]:
    return [Task(quick_task, (), (index - 1,) if index else ()) for index in range(count)]


def by_dask(client: Client, tasks: List[Task]) -> None:
    run_name = f"{time.monotonic_ns()}"
    graph = {
        (run_name, index): (task.function, *((run_name, result) for result in task.inputs)) for index, task in enumerate(tasks)
    }
    wait(client.get(graph, [(run_name, index) for index in graph_of(tasks, 0).kept], sync=False))


def milliseconds(count: int, turns: int, work: Callable[[], Any]) -> float:
    """For each of so many tasks, the least of so many times."""
    best = float("inf")
    for _ in range(turns):
        began = time.monotonic()
        work()
        best = min(best, time.monotonic() - began)
    return best * 1000 / count


def through_admission(tasks: List[Task]) -> None:
    graph = graph_of(tasks, 0)
    makespan(workloads.Load(tasks, [1] * len(tasks)), graph, sum(graph.sizes) + sum(graph.extras))


def costs(quick: bool) -> str:
    count, turns = (5, 1) if quick else (300, 3)
    rows = []
    for processes in (False, True):
        with cluster(processes, WORKERS) as client:
            for name, tasks in (("a chain", chain(count)), ("side by side", [Task(quick_task)] * count)):
                core = milliseconds(count, turns, lambda: run(tasks, 0, client))
                dask_alone = milliseconds(count, turns, lambda: by_dask(client, tasks))
                rows.append([f"{name}, {'processes' if processes else 'threads'}", f"{dask_alone:.1f}", f"{core:.1f}"])
    many = workloads.random_tree(1000 if quick else 100_000).tasks
    alone = milliseconds(len(many), turns, lambda: through_admission(many))
    rows.append([f"no engine at all: {len(many):,} tasks are planned, admitted, started and finished", "", f"{alone:.3f}"])
    return table(["tasks that take no time", "Dask, ms a task", "the core, ms a task"], rows)


def machine() -> str:
    kinds = {line.split(":")[1].strip() for line in Path("/proc/cpuinfo").read_text().split("\n") if line.startswith("model name")}
    return (
        f"{datetime.date.today()}: {os.cpu_count()} processors ({', '.join(kinds)}), load {os.getloadavg()[1]:.1f} over five minutes; "
        f"Dask {dask.__version__}, distributed {distributed.__version__}."
    )


def main() -> None:
    parser = argparse.ArgumentParser(description=__doc__.split("\n")[0])
    parser.add_argument("--turns", type=int, default=2)
    parser.add_argument("--slowness", type=int, default=4)
    parser.add_argument("--program", type=Path)
    parser.add_argument("--quick", action="store_true", help="few small cases within one bound, whose figures mean nothing")
    parser.add_argument("--only", choices=("threads", "processes", "costs"), help="one of the tables")
    asked = parser.parse_args()
    some, factors = cases(asked.slowness, asked.quick), FACTORS[:1] if asked.quick else FACTORS
    print("MB at most at once / seconds (of the simulated run)\n", flush=True)
    if asked.only in (None, "threads"):
        print(compared(False, some, factors, asked.turns, asked.program), flush=True)
    if asked.only in (None, "processes"):
        print(compared(True, some[::3] if asked.quick else some, factors, asked.turns, asked.program), flush=True)
    if asked.only in (None, "costs"):
        print(costs(asked.quick), flush=True)
    print(machine())


if __name__ == "__main__":
    main()
