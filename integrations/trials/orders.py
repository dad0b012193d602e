#!/usr/bin/python3
"""Peaks of memory of everyday collections of Dask, along Dask's order and along memplan's: a table in Markdown.

usage: orders.py PROGRAM [--workers N] [--effort E] [--only NAME,..] [--run NAME,..] [--list]

PROGRAM is the program memplan. The collections are those of everyday_arrays.py, everyday_tasks.py and everyday_tables.py (which needs pandas
and xarray), or those of --only; --list prints their names. Each is optimized by Dask and made tasks by the runner, and these are run once,
one after the other, so that each result has its size in bytes, as dask.sizeof tells it. Extras are 0, since no one measures them. The graph
that the runner gives to the core goes to the program as a graph file of version 2, and the order D is Dask's, by which the runner goes where
a result has several consumers and no order is given:

    PROGRAM replay --graph G --order D           the peak along Dask's order
    PROGRAM plan --graph G --order D             memplan's order, from Dask's: it is never worse
    PROGRAM plan --graph G                       memplan's order, from nothing

with --effort E, if that is given, for both plans. Workers are threads of one process, which hand results over without a copy; with --workers N
they are N processes, and the copies that the runner books are in the graph. Peaks and bounds are in bytes. The gain is Dask's peak divided by
that of the plan from Dask's order; that plan is least where its peak is its bound, which no order goes below. Seconds are of processor time,
for that plan.

With --run no table is made: each of these collections is run by the runner on two workers, threads of one process, along memplan's order
and within its peak, and what comes of it is compared with what Dask computes alone. Of long lists and of texts Dask's sizes are samples: there a
result may count as greater than it did before, and then the runner ends the run, as it has to.

The status is 1 where a peak along memplan's order is higher than that along Dask's, where a run of the program fails, or where results differ.
"""

from __future__ import annotations

import argparse
import importlib
import os
import random
import resource
import statistics
import subprocess
import sys
import tempfile
from pathlib import Path
from typing import Any, Callable, Dict, List, NamedTuple, Optional, Sequence, Tuple

import dask
import numpy
from dask.base import tokenize
from dask.sizeof import sizeof
from memplan.admission import ResultGraph
from memplan.dask import Task, of_collection, run
from memplan.dask.errors import RunError
from memplan.dask.tasks import graph_of, order_of_dask

HEAD = ["collection", "tasks", "along Dask's order", "along memplan's", "gain", "bound", "least", "from nothing", "plan, s"]
MODULES = {"everyday_arrays": ("ARRAYS",), "everyday_tasks": ("DELAYED", "BAGS"), "everyday_tables": ("FRAMES", "DATASETS")}

Collection = Callable[[], Any]
Rebuild = Callable[[Dict[int, Any]], Any]


class Wrong(Exception):
    """What should not have happened with a collection."""


# The tasks of a collection


def collections() -> Dict[str, Collection]:
    """All there are, by their names; without pandas and xarray only those that need neither."""
    found: Dict[str, Collection] = {}
    for module, groups in MODULES.items():
        try:
            made = importlib.import_module(module)
        except ImportError as error:
            print(f"not there: {module}: {error}", file=sys.stderr)
            continue
        for group in groups:
            found.update((function.__name__.replace("_", "-"), function) for function in getattr(made, group))
    return found


def size_of(result: Any) -> int:
    """As Dask tells it, which takes samples of long lists and of texts: the same ones each time."""
    random.seed(0)
    numpy.random.seed(0)
    return int(sizeof(result))


def with_sizes(tasks: Sequence[Task]) -> List[Task]:
    """The tasks with the sizes of their results, which are made one after the other."""
    results: Dict[int, Any] = {}
    found = list(tasks)
    for number in order_of_dask(graph_of(tasks, 0)):
        task = tasks[number]
        results[number] = task.function(*task.arguments, *(results[it] for it in task.inputs))
        found[number] = task._replace(size=size_of(results[number]))
    return found


def sized_tasks(make: Collection) -> Tuple[List[Task], Rebuild]:
    """The tasks of a collection with the sizes of their results, and what makes a collection of these."""
    tasks, rebuild = of_collection(make(), lambda key: (0, 0))
    return with_sizes(tasks), rebuild


# The program


def graph_text(graph: ResultGraph) -> str:
    """The graph as the core has it, as a graph file of version 2."""
    extras, items = graph.system()
    tasks = [f"{extra} 0 1" for extra in extras]
    held = [" ".join(map(str, (item.size, item.from_, *item.readers))) for item in items]
    return "\n".join(["graph 2", f"tasks {len(tasks)}", *tasks, f"items {len(held)}", *held, "end", ""])


class Plan(NamedTuple):
    """An order, counted from 0, its peak, a bound that no order goes below, and the seconds of processor time that they took."""

    order: List[int]
    peak: int
    bound: int
    seconds: float


class Trial:
    """A graph in a folder, with Dask's order, and what the program says of them."""

    def __init__(self, program: Path, folder: Path, graph: ResultGraph, effort: Optional[int]) -> None:
        self.program, self.graph_file, self.order_file = program, folder / "graph", folder / "order"
        self.effort = [] if effort is None else ["--effort", str(effort)]
        self.graph_file.write_text(graph_text(graph), encoding="ascii")
        self.order_file.write_text("".join(f"{task + 1}\n" for task in order_of_dask(graph)), encoding="ascii")

    def lines(self, command: str, *words: str) -> List[str]:
        """What the program prints of the graph; it has to end well."""
        words_of_run = [str(self.program), command, "--graph", str(self.graph_file), *words]
        done = subprocess.run(words_of_run, stdin=subprocess.DEVNULL, stdout=subprocess.PIPE, stderr=subprocess.PIPE, text=True)
        if done.returncode != 0:
            raise Wrong(f"{command}: status {done.returncode}, {(done.stdout + done.stderr)[:80]!r}")
        return done.stdout.split("\n")

    def peak_of_dask(self) -> int:
        return int(self.lines("replay", "--order", str(self.order_file))[0].removeprefix("peak "))

    def plan(self, *words: str) -> Plan:
        before = resource.getrusage(resource.RUSAGE_CHILDREN)
        printed = self.lines("plan", *words, *self.effort)
        after = resource.getrusage(resource.RUSAGE_CHILDREN)
        end = 2 + int(printed[1].removeprefix("order "))
        order = [int(line) - 1 for line in printed[2:end]]
        peak, bound = int(printed[end].removeprefix("peak ")), int(printed[end + 1].removeprefix("bound "))
        return Plan(order, peak, bound, after.ru_utime - before.ru_utime + after.ru_stime - before.ru_stime)

    def plan_from_dask(self) -> Plan:
        return self.plan("--order", str(self.order_file))


# The table


class Row(NamedTuple):
    """What the program says of a collection."""

    name: str
    tasks: int
    peak_of_dask: int
    plan: Plan
    from_nothing: Plan

    def gain(self) -> float:
        return self.peak_of_dask / self.plan.peak if self.plan.peak else 1.0

    def cells(self) -> List[str]:
        least = "yes" if self.plan.peak == self.plan.bound else "no"
        numbers = [f"{it:,}" for it in (self.tasks, self.peak_of_dask, self.plan.peak)]
        return [self.name, *numbers, f"{self.gain():.2f}", f"{self.plan.bound:,}", least, f"{self.from_nothing.peak:,}", f"{self.plan.seconds:.2f}"]


def row_of(name: str, make: Collection, given: argparse.Namespace) -> Row:
    graph = graph_of(sized_tasks(make)[0], given.workers - 1)
    with tempfile.TemporaryDirectory() as folder:
        trial = Trial(given.program, Path(folder), graph, given.effort)
        row = Row(name, len(graph.sizes), trial.peak_of_dask(), trial.plan_from_dask(), trial.plan())
    highest = max(row.plan.peak, row.from_nothing.peak)
    if highest > row.peak_of_dask:
        print(f"{name}: the peak along memplan's order is {highest}, and along Dask's {row.peak_of_dask}", file=sys.stderr, flush=True)
    return row


def print_cells(cells: Sequence[str]) -> None:
    """As soon as they are known: a run of all collections may take minutes."""
    print(f"| {' | '.join(cells)} |", flush=True)


def summary(rows: Sequence[Row], peak: Callable[[Row], int], words: str) -> str:
    lower = sum(peak(row) < row.peak_of_dask for row in rows)
    higher = sum(peak(row) > row.peak_of_dask for row in rows)
    least = sum(peak(row) == row.plan.bound for row in rows)
    gain = statistics.median(row.peak_of_dask / peak(row) if peak(row) else 1.0 for row in rows)
    counts = f"lower {lower} times, the same {len(rows) - lower - higher} times, higher {higher} times"
    return f"{words}: {counts}; the median gain is {gain:.3f}; {least} of {len(rows)} are least."


def table(chosen: Dict[str, Collection], given: argparse.Namespace) -> int:
    """Prints it; the status."""
    print_cells(HEAD)
    print_cells(["---"] + ["--:"] * (len(HEAD) - 1))
    rows, wrongs = [], 0
    for name, make in chosen.items():
        try:
            rows.append(row_of(name, make, given))
            print_cells(rows[-1].cells())
        except Wrong as wrong:
            wrongs += 1
            print(f"{name}: {wrong}", file=sys.stderr, flush=True)
    if rows:
        print("\n" + summary(rows, lambda row: row.plan.peak, "The peak along memplan's order, from Dask's"))
        print("\n" + summary(rows, lambda row: row.from_nothing.peak, "From nothing"))
    return 1 if wrongs or any(max(row.plan.peak, row.from_nothing.peak) > row.peak_of_dask for row in rows) else 0


# Runs


class Planned(NamedTuple):
    """What a run needs, and what has to come of it."""

    tasks: List[Task]
    rebuild: Rebuild
    plan: Plan
    peak_of_dask: int
    results: str


def planned(make: Collection, given: argparse.Namespace) -> Planned:
    tasks, rebuild = sized_tasks(make)
    with tempfile.TemporaryDirectory() as folder:
        trial = Trial(given.program, Path(folder), graph_of(tasks, 0), given.effort)
        return Planned(tasks, rebuild, trial.plan_from_dask(), trial.peak_of_dask(), tokenize(dask.compute(make())))


def run_along_the_plan(client: Any, planned: Planned) -> str:
    """Within the peak of the plan; what it was."""
    tasks, plan = planned.tasks, planned.plan
    results = dask.compute(planned.rebuild(run(tasks, plan.peak, client, plan.order)))
    if tokenize(results) != planned.results:
        raise Wrong("the results differ from those of Dask alone")
    return f"{len(tasks)} tasks within {plan.peak:,} bytes, where Dask's order needs {planned.peak_of_dask:,}; the results are Dask's"


def runs(chosen: Dict[str, Collection], given: argparse.Namespace) -> int:
    """Tells of each; the status."""
    from clusters import cluster  # here, since it changes Dask's configuration

    wrongs = 0
    prepared = {name: planned(make, given) for name, make in chosen.items()}
    with cluster(processes=False, workers=2) as client:
        for name, it in prepared.items():
            try:
                print(f"{name}: {run_along_the_plan(client, it)}", flush=True)
            except (Wrong, RunError) as wrong:
                wrongs += 1
                print(f"{name}: {wrong}", file=sys.stderr, flush=True)
    return 1 if wrongs else 0


# What is asked for


def arguments(names: Sequence[str]) -> argparse.Namespace:
    def some(words: str) -> List[str]:
        unknown = [name for name in words.split(",") if name not in names]
        if unknown:
            raise argparse.ArgumentTypeError(f"there is no collection {', '.join(unknown)}; --list has their names")
        return words.split(",")

    parser = argparse.ArgumentParser(description=__doc__, formatter_class=argparse.RawDescriptionHelpFormatter, usage=argparse.SUPPRESS)
    parser.add_argument("program", type=Path, nargs="?", help=argparse.SUPPRESS)
    parser.add_argument("--workers", type=int, default=1, help=argparse.SUPPRESS)
    parser.add_argument("--effort", type=int, help=argparse.SUPPRESS)
    parser.add_argument("--only", type=some, default=list(names), help=argparse.SUPPRESS)
    parser.add_argument("--run", type=some, help=argparse.SUPPRESS)
    parser.add_argument("--list", action="store_true", help=argparse.SUPPRESS)
    given = parser.parse_args()
    if not given.list and (given.program is None or not given.program.is_file()):
        parser.error(f"there is no program {given.program or ''}".rstrip())
    if given.workers < 1:
        parser.error("--workers is at least 1")
    return given


def main() -> int:
    if os.environ.get("PYTHONHASHSEED") != "0":
        # Dask goes over sets of keys, so which of two tasks comes first may depend on the hashes of texts: these are to be the same in each run.
        os.execve(sys.executable, [sys.executable, *sys.argv], {**os.environ, "PYTHONHASHSEED": "0"})
    there = collections()
    given = arguments(list(there))
    if given.list:
        print("\n".join(there))
        return 0
    given.program = given.program.resolve()
    # What a collection computes while it is made, it computes in this thread.
    dask.config.set(scheduler="sync")
    if given.run:
        return runs({name: there[name] for name in given.run}, given)
    return table({name: there[name] for name in given.only}, given)


if __name__ == "__main__":
    sys.exit(main())
