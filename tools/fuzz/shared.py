#!/usr/bin/env python3
"""Tries all orders of random small task graphs of version 2, in which data have several readers, and runs `replay`, `simulate`, `spill` and `reduce`
on them.

usage: shared.py [PROGRAM] [--graphs N] [--first N] [--seed S] [--jobs J] [--keep FOLDER]      (PROGRAM is crates/memplan/out/memplan)

A graph has at most seven tasks and some items, each with any number of readers; the seed and the number of a graph make it. An item is there
from the end of the task that makes it to the end of the last of its readers: that is all that the plain model of models.py knows. Of each graph
it asks:

- the graph of version 1 in which a task of its own takes up what several tasks read, after all of them, has the same least peak: of the one
  all orders are tried, of the other all sets of tasks that are done;
- an order of least peak, with those tasks put in, has that peak there, and both graphs are accepted by the plain reader of formats.py;
- a run of the model within the peak of an order comes to its end within its bound, on any number of workers and by any priority;
- where all amounts of the gaps can be tried, the least volume that is spilled is that of the model, and what `spill` chooses has it and fits;
- where no item has several readers, runs and least volumes are those of the system of one reader each;
- the graph of version 1 in which, with joins, the last reader of each item alone carries it has the same orders with the same peaks, when the
  joins are left out; and where `reduce` refuses an item, each reader of it stands before another one in some order;
- `replay` prints the model's peak of a random traversal, of the graph and, with those tasks put in, of the graph of version 1;
- `simulate` prints the model's run, event by event, and refuses a bound below the peak;
- `spill` prints the model's least volume, and amounts with which each step fits, or tells the first step that needs too much for itself;
- `reduce` prints a workflow, the order that `plan` finds for it is one of the graph by the names of its tasks, and its peak is the least of all
  orders; or it says what the model says;
- they tell the model's first fault of a random list that is no traversal;
- a file that is changed in a few bytes, tokens or lines is refused as the plain reader refuses it, or has what it says.

Without PROGRAM the models alone are asked. It prints how many graphs and orders were tried. A graph that is wrong is kept in FOLDER, and the
status is then 1.
"""
import argparse
import json
import multiprocessing
import random
import re
import sys
import tempfile
from collections.abc import Iterable, Iterator
from pathlib import Path
from typing import NamedTuple, Optional

import formats
from bench import BOUND, DONE, FORMAT, LIMIT, NO, NOT_SERIES_PARALLEL, WORKING_SET, Bench, Ending, told
from judge import ending_of_spill
from models import SharedSystem, Simulation, Spilling, collected, last_reader, plan_of, reduction_of, shared_system_of_graph, system_of_graph
from random_files import changed, graph_text, listed, random_forked_graph, random_layered_graph, random_shared_graph, random_traversal

GRAPH_AND_ORDER = ["--graph", "g", "--order", "o"]

# No more amounts than these are tried.
MOST_TRIALS = 3000
# Nor all orders of a graph that has more tasks than these, with its joins.
MOST_JOINED = 8


class Result(NamedTuple):
    """A graph that was tried: how many items have several readers, whether it is reduced, how many orders there are, the runs that it took, and
    what was wrong."""

    shared: int
    is_reduced: bool
    orders: int
    runs: int
    wrongs: list[str]


def no_traversal(draw: random.Random, system: SharedSystem) -> list[int]:
    """A random list that is no traversal: tasks in another order, one too many, too few, or another number in place of one."""
    while True:
        order = random_traversal(draw, system)
        tried = order if draw.random() < 0.5 else draw.sample(order, len(order))
        if draw.random() < 0.6:
            place = draw.randrange(len(tried) + 1)
            other = draw.choice([0, system.count + 1, 2**32 - 1, draw.randint(0, system.count)])
            tried[place : place + draw.randrange(2)] = [other] * draw.randrange(2)
        if system.fault(tried):
            return tried


class Asked(NamedTuple):
    """What is asked of a graph and an order beside its peak: a run of so many workers within a bound, and by a priority if there is one; and a spill
    within so much memory."""

    bound: int
    workers: int
    priority: list[int]
    memory: int

    def words(self) -> dict[str, list[str]]:
        """The words of each command."""
        run = ["--bound", str(self.bound), "--workers", str(self.workers), *(["--priority", "r"] if self.priority else [])]
        return {
            "replay": ["replay", *GRAPH_AND_ORDER],
            "simulate": ["simulate", *GRAPH_AND_ORDER, *run],
            "spill": ["spill", *GRAPH_AND_ORDER, "--bound", str(self.memory)],
        }


def random_asked(draw: random.Random, system: SharedSystem, order: list[int]) -> Asked:
    """A bound round the peak, and memory from the greatest need of a step up to it; now and then no priority, or one of a task more."""
    peak, least = system.peak(order), max(map(system.own_need, order), default=0)
    bound = max(0, peak + draw.choice([-1, -1 - draw.randint(0, peak), 0, 0, 0, 1, draw.randint(0, peak), draw.randint(0, peak), 2**64 - 1 - peak]))
    memory = draw.randint(least, max(least, peak)) if draw.random() < 0.9 else draw.randint(0, peak)
    return Asked(bound, draw.randint(1, 3), random_priority(draw, order), memory)


def random_priority(draw: random.Random, order: list[int]) -> list[int]:
    count = len(order) + 1 if draw.random() < 0.03 else len(order)
    return draw.sample(range(1, count + 1), count) if draw.random() < 0.7 else []


def refusal_of(graph: bytes, priority: Optional[bytes]) -> Optional[Ending]:
    """How a run has to end where one of its files is refused."""
    count, refusal = formats.refusal_of(lambda: formats.read_graph_of_either_version(graph))
    if priority is not None and not refusal:
        _, refusal = formats.refusal_of(lambda: formats.read_permutation("priority", priority, count))
    return Ending(FORMAT if refusal.startswith("format") else LIMIT, f"refused {refusal}\n".encode(), b"") if refusal else None


def report_of(command: str, system: SharedSystem, order: list[int], asked: Asked, told: str) -> tuple[int, str]:
    """The status of a command and what it has to print, where this is what it printed: of spills there may be several of least volume."""
    if fault := system.fault(order):
        return NO, fault
    peak = system.peak(order)
    if command == "replay":
        return DONE, f"peak {peak}\n"
    if command == "spill":
        text = ending_of_spill(Spilling(system, order, asked.memory), "gaps", told)
        return WORKING_SET if text.startswith("refused") else DONE, text
    if asked.bound < peak:
        return BOUND, f"refused bound {asked.bound} {peak}\n"
    return DONE, Simulation(system, order, asked.priority or order, asked.bound, asked.workers).report()


class Trial:
    """A random graph, and what is asked of it."""

    def __init__(self, draw: random.Random, bench: Optional[Bench]) -> None:
        self.draw, self.bench = draw, bench
        self.text = draw.choice([random_shared_graph, random_forked_graph, random_layered_graph])(draw)
        self.system = shared_system_of_graph(self.text)
        self.peaks = {order: self.system.peak(order) for order in self.system.traversals()}
        self.graph = collected(self.system)
        self.reduced, self.refusal = reduction_of(self.text)

        self.order = random_traversal(draw, self.system)
        self.asked = random_asked(draw, self.system, self.order)

    def wrongs(self) -> Iterator[str]:
        yield from self.wrongs_of_models()
        yield from self.wrongs_of_runs()
        yield from self.wrongs_of_spills()
        yield from self.wrongs_of_readers()
        if self.bench:
            yield from self.wrongs_of_program()
            yield from self.wrongs_of_reduce()

    def wrongs_of_models(self) -> Iterator[str]:
        best = min(self.peaks, key=self.peaks.__getitem__)
        other = system_of_graph(self.graph)
        if other.least_peak() != self.peaks[best]:
            yield f"the least peak is {self.peaks[best]}, and {other.least_peak()} of the graph of version 1"
        whole = self.system.with_collectors(best)
        if fault := other.fault(whole):
            yield f"in the graph of version 1 an order of least peak has a fault: {fault!r}"
        elif other.peak(whole) != self.peaks[best]:
            yield f"an order of least peak {self.peaks[best]} has the peak {other.peak(whole)} in the graph of version 1"
        for text in (self.text, graph_text(self.graph)):
            _, refusal = formats.refusal_of(lambda: formats.read_graph_of_either_version(text))
            if refusal:
                yield f"the plain reader refuses a graph: {refusal}"

    def wrongs_of_runs(self) -> Iterator[str]:
        """What is proved of each run within a bound that is no less than the peak."""
        order, bound = self.order, max(self.asked.bound, self.system.peak(self.order))
        priority = self.draw.sample(order, len(order))
        run = Simulation(self.system, order, priority, bound, self.asked.workers)
        report = run.report()
        if len(run.events) != 3 * len(order) or not run.most_used <= run.most_booked <= bound:
            yield f"a run of the model stands still, or passes {bound}: {report!r}"
        other = Simulation(system_of_graph(self.graph), order, priority, bound, self.asked.workers)
        if not self.system.shared_items() and other.report() != report:
            yield "the system of one reader each has another run"

    def wrongs_of_spills(self) -> Iterator[str]:
        spilling = Spilling(self.system, self.order, self.asked.memory)
        if spilling.working_set():
            return
        volume, chosen = spilling.least_volume(), spilling.chosen()
        if not spilling.is_plan(chosen) or sum(chosen.values()) != volume:
            yield f"the model's choice {chosen} is no plan of the volume {volume}"
        if spilling.trials() <= MOST_TRIALS and spilling.least_by_trial() != volume:
            yield f"the least volume of all amounts is {spilling.least_by_trial()}, and {volume} by the model"
        if not self.system.shared_items() and Spilling(system_of_graph(self.graph), self.order, self.asked.memory).least_volume() != volume:
            yield "the system of one reader each has another least volume"

    def wrongs_of_readers(self) -> Iterator[str]:
        """Which readers are the last in all orders, and what becomes of the graph with its joins, where each item has one."""
        for number, item in enumerate(self.system.items, 1):
            last = {max(item.readers, key=lambda reader: order.index(reader + 1)) for order in self.peaks} if item.readers else set()
            if last_reader(self.system, item) != (last.pop() if len(last) == 1 else None):
                yield f"item {number} has another last reader"
        if not self.refusal and len(self.reduced.tasks) <= MOST_JOINED:
            other = system_of_graph(self.reduced)
            told: dict[tuple[int, ...], int] = {}
            for order in other.traversals():
                mine = self.told(order)
                told[mine] = min(other.peak(order), told.get(mine, other.peak(order)))
            if told != self.peaks:
                yield "the graph in which the last readers carry the items tells other orders, or has other peaks"

    def told(self, order: Iterable[int]) -> tuple[int, ...]:
        """An order without the joins."""
        return tuple(number for number in order if number <= self.system.count)

    def wrongs_of_reduce(self) -> Iterator[str]:
        self.bench.write("g", self.text)
        found = self.bench.run(["reduce", "--graph", "g"])
        if self.refusal:
            if found != Ending(NOT_SERIES_PARALLEL, self.refusal.encode(), b""):
                yield f"reduce: {found} in place of {self.refusal!r}"
            return
        names = [int(name) for _, name in re.findall(rb"^# (\d+) (\d+)$", found.report, re.M)]
        self.bench.write("w", found.report)
        made = self.bench.run(["plan", "--workflow", "w"])
        if (found.status, made.status) != (DONE, DONE):
            yield f"reduce: {found}, and plan of it: {made}"
            return
        plan, least = plan_of(made.report), min(self.peaks.values())
        order = self.told(names[number - 1] for number in plan.order)
        if (self.peaks.get(order), plan.peak) != (least, least):
            yield f"the plan of the reduced graph has the order {order} and the peak {plan.peak}, and the least is {least}"

    def wrongs_of_program(self) -> Iterator[str]:
        order, whole = self.order, self.system.with_collectors(self.order)
        other = self.asked._replace(priority=random_priority(self.draw, whole))
        cases = {
            "a traversal": (self.text, order, self.asked),
            "a list that is no traversal": (self.text, no_traversal(self.draw, self.system), self.asked),
            "a traversal of the graph of version 1": (graph_text(self.graph), whole, other),
            "a changed file": (changed(self.draw, self.text), order, self.asked),
        }
        for name, (graph, tasks, asked) in cases.items():
            for wrong in self.wrongs_of_files(graph, tasks, asked):
                yield f"{name}, {tasks}: {wrong}"

    def wrongs_of_files(self, graph: bytes, tasks: list[int], asked: Asked) -> Iterator[str]:
        """Each command over a graph and a list of tasks."""
        priority = listed(self.draw, asked.priority)
        for name, text in {"g": graph, "o": listed(self.draw, tasks), "r": priority}.items():
            self.bench.write(name, text)
        for command, words in asked.words().items():
            found = self.bench.run(words)
            wanted = refusal_of(graph, priority if "--priority" in words else None)
            if not wanted:
                status, text = report_of(command, shared_system_of_graph(graph), tasks, asked, found.report.decode("latin-1"))
                wanted = Ending(status, text.encode(), b"")
            if found != wanted:
                yield f"{' '.join(words)}: {found} in place of {wanted}"


class Worker:
    """Tries graphs of a seed in a folder of its own."""

    def __init__(self, program: Optional[Path], seed: int, keep: Path) -> None:
        self.program, self.seed, self.keep = program, seed, keep
        # made in the process that tries the graphs
        self.home: Optional[tempfile.TemporaryDirectory] = None
        self.bench: Optional[Bench] = None

    def set_up(self) -> None:
        self.home = tempfile.TemporaryDirectory()
        if self.program:
            self.bench = Bench(self.program, Path(self.home.name) / "files")
            self.bench.put({})

    def __call__(self, number: int) -> Result:
        if self.home is None:
            self.set_up()
        runs_before = self.bench.runs if self.bench else 0
        trial = Trial(random.Random(f"{self.seed} {number}"), self.bench)
        wrongs = told(trial.wrongs())
        if wrongs:
            self.keep_graph(number, trial, wrongs)
        runs = self.bench.runs - runs_before if self.bench else 0
        return Result(len(trial.system.shared_items()), not trial.refusal, len(trial.peaks), runs, wrongs)


    def keep_graph(self, number: int, trial: Trial, wrongs: list[str]) -> None:
        folder = self.keep / str(number)
        folder.mkdir(parents=True, exist_ok=True)
        (folder / "second.graph").write_bytes(trial.text)
        (folder / "first.graph").write_bytes(graph_text(trial.graph))
        (folder / "case.json").write_text(json.dumps({"wrong": wrongs}, indent=1) + "\n")


def arguments() -> argparse.Namespace:
    parser = argparse.ArgumentParser(description=__doc__, formatter_class=argparse.RawDescriptionHelpFormatter)
    parser.add_argument("program", type=Path, nargs="?")
    parser.add_argument("--graphs", type=int, default=20000)
    parser.add_argument("--first", type=int, default=1, help="the number of the first graph")
    parser.add_argument("--seed", type=int, default=1)
    parser.add_argument("--jobs", type=int, default=2)
    parser.add_argument("--keep", type=Path, default=Path("wrong-graphs"))
    return parser.parse_args()


def main() -> int:
    given = arguments()
    worker = Worker(given.program and given.program.resolve(), given.seed, given.keep.resolve())
    results: list[Result] = []
    with multiprocessing.Pool(given.jobs) as pool:
        for result in pool.imap(worker, range(given.first, given.first + given.graphs), chunksize=50):
            for wrong in result.wrongs:
                print(f"graph {given.first + len(results)}: {wrong}", flush=True)
            results.append(result)
    shared = sum(1 for result in results if result.shared)
    reduced = sum(1 for result in results if result.is_reduced)
    wrong = sum(1 for result in results if result.wrongs)
    orders, runs = (sum(counts) for counts in zip(*((result.orders, result.runs) for result in results)))
    several = f"{shared} with an item of several readers, {reduced} with a term"
    print(f"{len(results)} graphs, {several}, {orders} orders, {runs} runs of the program, {wrong} graphs wrong")
    return 1 if wrong else 0


if __name__ == "__main__":
    sys.exit(main())
