#!/usr/bin/env python3
"""What fences cost and gain on published shapes of workflows: rows of a table in Markdown.

usage: bench/fences.py PROGRAM [--tasks N] [--seed S] [--effort E] [--families A,B,..] [--means] [--fewest]

Each family is a graph of about N tasks (1,000). A task takes as long as the data that it reads and makes is large, give or take a third; it
is run along the order that `plan --graph` finds with effort E, within 1, 1.2, 1.5 and 2 times that order's peak P, on 4 and on 16 workers.
Makespans are in units of that of list scheduling without any bound: of `simulate`, by the better of two priorities (the order, and the
longest path to the end), and of list scheduling by the longest path of the graph with the fences of `fence`, for any number of workers and
for so many. The memory of each such run is held against the bound. With --means the last row has the geometric means; with --fewest `fence` is
asked for the fewest fences.
"""
from __future__ import annotations

import argparse
import heapq
import math
import random
import resource
import subprocess
import sys
import tempfile
from collections.abc import Iterable
from pathlib import Path
from typing import NamedTuple, Optional

import families
from bounds import Wrong, families_of, print_row

FACTORS = (1.0, 1.2, 1.5, 2.0)
WORKERS = (4, 16)
HEAD = ["family", "M/P", "fences", "for 4, 16", "simulate 4, 16", "fenced 4, 16", "for so many 4, 16", "s"]


class Answer(NamedTuple):
    """What a program wrote, its status, and the seconds of processor time that it took."""

    text: str
    status: int
    seconds: float


class Fenced(NamedTuple):
    """The fences of a file, from tasks or joins to tasks, the seconds that it took, and how many fences there are."""

    fences: list[tuple[int, int]]
    seconds: float


class Graph:
    """Tasks with times, from 1 on, and behind them a join for each item that several tasks read."""

    def __init__(self, builder: families.Builder, seed: int) -> None:
        draw = random.Random(seed)
        self.items = [families.Item(size, maker, sorted(set(readers))) for size, maker, readers in builder.items]
        self.count, self.extras = builder.count, builder.extras
        volume = [1] * (self.count + 1)
        self.made = [0] * (self.count + 1)
        for size, maker, readers in self.items:
            self.made[maker] += size
            for task in [maker, *readers]:
                volume[task] += size
        self.times = [max(1, it * draw.randint(67, 133) // 100) for it in volume]
        self.joins = [item.readers for item in self.items if len(item.readers) > 1]
        self.suppliers: list[set[int]] = [set() for _ in range(self.count + len(self.joins) + 1)]
        for _, maker, readers in self.items:
            for task in readers if maker else []:
                self.suppliers[task].add(maker)
        for join, readers in enumerate(self.joins, self.count + 1):
            self.suppliers[join].update(readers)

    def text(self) -> str:
        lines = ["graph 2", f"tasks {self.count}"]
        lines += [f"{extra} 0 {time}" for extra, time in zip(self.extras, self.times[1:])]
        lines += [f"items {len(self.items)}", *(" ".join(map(str, [size, maker, *readers])) for size, maker, readers in self.items)]
        return "\n".join([*lines, "end", ""])

    def time(self, number: int) -> int:
        """Of a task; a join takes none."""
        return self.times[number] if number <= self.count else 0

    def waits(self, fences: Iterable[tuple[int, int]]) -> list[set[int]]:
        """What each task and each join waits for."""
        waits = [set(it) for it in self.suppliers]
        for before, after in fences:
            waits[after].add(before)
        return waits

    def ranks(self, waits: list[set[int]]) -> list[int]:
        """The longest path of each from its start to the end of all."""
        followers: list[list[int]] = [[] for _ in waits]
        left = [0] * len(waits)
        for number, before in enumerate(waits):
            for it in before:
                followers[it].append(number)
                left[it] += 1
        ready = [number for number in range(1, len(waits)) if not left[number]]
        ranks = [0] * len(waits)
        for number in ready:
            ranks[number] = self.time(number) + max((ranks[it] for it in followers[number]), default=0)
            for it in waits[number]:
                left[it] -= 1
                if not left[it]:
                    ready.append(it)
        if len(ready) < len(waits) - 1:
            raise Wrong("the fences make a circle")
        return ranks

    def scheduled(self, waits: list[set[int]], workers: int) -> tuple[int, int]:
        """The makespan of list scheduling by the longest path, and the most memory that is used."""
        return Run(self, waits, workers).outcome()


class Run:
    """List scheduling, which starts the ready task of the longest path whenever a worker is free."""

    def __init__(self, graph: Graph, waits: list[set[int]], workers: int) -> None:
        self.graph, self.idle = graph, workers
        self.ranks = graph.ranks(waits)
        self.left = [len(it) for it in waits]
        self.followers: list[list[int]] = [[] for _ in waits]
        for number, before in enumerate(waits):
            for it in before:
                self.followers[it].append(number)
        self.readers = [len(item.readers) for item in graph.items]
        self.read_by: list[list[int]] = [[] for _ in range(graph.count + 1)]
        for place, item in enumerate(graph.items):
            for task in item.readers:
                self.read_by[task].append(place)
        self.used = self.most = sum(item.size for item in graph.items if not item.maker)
        self.ready: list[tuple[int, int]] = []
        self.running: list[tuple[int, int]] = []
        self.now = self.over = 0

    def need(self, task: int) -> int:
        return self.graph.extras[task - 1] + self.graph.made[task]

    def end(self, number: int) -> None:
        """A task or a join is over, and with it each join that it was the last for."""
        ended = [number]
        for it in ended:
            if it <= self.graph.count:
                self.over += 1
                self.used -= self.graph.extras[it - 1]
                for place in self.read_by[it]:
                    self.readers[place] -= 1
                    self.used -= 0 if self.readers[place] else self.graph.items[place].size
            for follower in self.followers[it]:
                self.left[follower] -= 1
                if not self.left[follower]:
                    self.offer(follower, ended)

    def offer(self, number: int, ended: list[int]) -> None:
        if number > self.graph.count:
            ended.append(number)
        else:
            heapq.heappush(self.ready, (-self.ranks[number], number))

    def outcome(self) -> tuple[int, int]:
        for number in range(1, len(self.left)):
            if not self.left[number] and number <= self.graph.count:
                heapq.heappush(self.ready, (-self.ranks[number], number))
        while self.ready or self.running:
            while self.ready and self.idle:
                _, task = heapq.heappop(self.ready)
                self.idle -= 1
                self.used += self.need(task)
                heapq.heappush(self.running, (self.now + self.graph.times[task], task))
            self.most = max(self.most, self.used)
            self.now, task = heapq.heappop(self.running)
            self.idle += 1
            self.end(task)
            while self.running and self.running[0][0] == self.now:
                self.idle += 1
                self.end(heapq.heappop(self.running)[1])
        if self.over < self.graph.count:
            raise Wrong("the run stops")
        return self.now, self.most


class Trial:
    """One graph, with the program's files in a folder."""

    def __init__(self, program: Path, folder: Path, family: str, given: argparse.Namespace) -> None:
        self.program, self.folder, self.family = program, folder, family
        self.fewest = ["--fewest"] if given.fewest else []
        self.graph = Graph(families.graph_of(family, given.tasks, given.seed), given.seed)
        self.write("graph", self.graph.text())
        plan = self.answer("plan", "--graph", self.name("graph"), *([] if given.effort is None else ["--effort", str(given.effort)])).text.split("\n")
        count = int(plan[1].split()[1])
        self.order = [int(it) for it in plan[2 : 2 + count]]
        self.peak = int(plan[2 + count].split()[1])
        self.write("order", "".join(f"{it}\n" for it in self.order))
        self.plain = self.graph.waits([])
        ranks = self.graph.ranks(self.plain)
        self.write("ranks", "".join(f"{it}\n" for it in sorted(self.order, key=lambda task: -ranks[task])))
        self.unbounded = {workers: self.graph.scheduled(self.plain, workers)[0] for workers in WORKERS}

    def name(self, role: str) -> str:
        return str(self.folder / f"it.{role}")

    def write(self, role: str, text: str) -> None:
        Path(self.name(role)).write_text(text)

    def answer(self, *words: str) -> Answer:
        before = resource.getrusage(resource.RUSAGE_CHILDREN).ru_utime
        ran = subprocess.run([self.program, *words], stdout=subprocess.PIPE, text=True)
        seconds = resource.getrusage(resource.RUSAGE_CHILDREN).ru_utime - before
        if ran.returncode:
            raise Wrong(f"{words[0]} ends with {ran.returncode}: {ran.stdout[:80]!r}")
        return Answer(ran.stdout, ran.returncode, seconds)

    def along(self) -> list[str]:
        return ["--graph", self.name("graph"), "--order", self.name("order")]

    def fenced(self, bound: int, workers: Optional[int]) -> Fenced:
        made = self.answer("fence", *self.along(), "--bound", str(bound), *(["--workers", str(workers)] if workers else []), *self.fewest)
        self.write("fences", made.text)
        if self.answer("check", "--graph", self.name("graph"), "--fences", self.name("fences")).text != f"yes {bound}\n":
            raise Wrong("the fences are not accepted")
        lines = made.text.split("\n")
        at = next(place for place, line in enumerate(lines) if line.startswith("fences ") and place)
        rows = lines[at + 1 : at + 1 + int(lines[at].split()[1])]
        return Fenced([(int(before), int(after)) for before, after in map(str.split, rows)], made.seconds)

    def run(self, fenced: Fenced, bound: int, workers: int) -> float:
        """The makespan, in units of that without a bound."""
        makespan, most = self.graph.scheduled(self.graph.waits(fenced.fences), workers)
        if most > bound:
            raise Wrong(f"{workers} workers use {most}, and the bound is {bound}")
        return makespan / self.unbounded[workers]

    def simulated(self, bound: int, workers: int) -> float:
        words = ["simulate", *self.along(), "--bound", str(bound), "--workers", str(workers)]
        spans = [int(self.answer(*words, *more).text.split("\n", 1)[0].split()[1]) for more in ([], ["--priority", self.name("ranks")])]
        return min(spans) / self.unbounded[workers]


class Figures(NamedTuple):
    """Fences for each task, for any number of workers and for so many; makespans; and the seconds of `fence`."""

    fences: list[float]
    simulated: list[float]
    any: list[float]
    few: list[float]
    seconds: float

    def cells(self) -> list[str]:
        spans = [", ".join(f"{it:.3f}" for it in spans) for spans in (self.simulated, self.any, self.few)]
        return [f"{self.fences[0]:.2f}", ", ".join(f"{it:.2f}" for it in self.fences[1:]), *spans, f"{self.seconds:.3f}"]


def figures(trial: Trial, factor: float) -> Figures:
    bound = math.floor(trial.peak * factor)
    whole = trial.fenced(bound, None)
    few = [trial.fenced(bound, workers) for workers in WORKERS]
    return Figures(
        [len(it.fences) / trial.graph.count for it in [whole, *few]],
        [trial.simulated(bound, workers) for workers in WORKERS],
        [trial.run(whole, bound, workers) for workers in WORKERS],
        [trial.run(it, bound, workers) for it, workers in zip(few, WORKERS)],
        max(it.seconds for it in [whole, *few]),
    )


def mean(values: Iterable[float]) -> float:
    """The geometric mean, in which nothing counts as a thousandth."""
    logs = [math.log(max(value, 0.001)) for value in values]
    return math.exp(sum(logs) / len(logs))


def means(rows: list[Figures]) -> Figures:
    lists = [[mean(row[place][it] for row in rows) for it in range(len(rows[0][place]))] for place in range(4)]  # type: ignore[index]
    return Figures(lists[0], lists[1], lists[2], lists[3], max(row.seconds for row in rows))


def arguments() -> argparse.Namespace:
    parser = argparse.ArgumentParser(description=__doc__, formatter_class=argparse.RawDescriptionHelpFormatter, usage=argparse.SUPPRESS)
    parser.add_argument("program", type=Path, help=argparse.SUPPRESS)
    parser.add_argument("--tasks", type=int, default=1_000, help=argparse.SUPPRESS)
    parser.add_argument("--seed", type=int, default=1, help=argparse.SUPPRESS)
    parser.add_argument("--effort", type=int, help=argparse.SUPPRESS)
    parser.add_argument("--families", type=families_of, default=list(families.FAMILIES), help=argparse.SUPPRESS)
    parser.add_argument("--fewest", action="store_true", help=argparse.SUPPRESS)
    parser.add_argument("--means", action="store_true", help=argparse.SUPPRESS)
    given = parser.parse_args()
    if given.tasks < families.FEWEST_TASKS:
        parser.error(f"--tasks is at least {families.FEWEST_TASKS}")
    if not given.program.is_file():
        parser.error(f"there is no program {given.program}")
    return given


def main() -> int:
    given = arguments()
    wrongs, rows = 0, {factor: [] for factor in FACTORS}  # type: tuple[int, dict[float, list[Figures]]]
    print_row(HEAD)
    print_row(["---"] + ["--:"] * (len(HEAD) - 1))
    with tempfile.TemporaryDirectory() as folder:
        for family in given.families:
            try:
                trial = Trial(given.program.resolve(), Path(folder), family, given)
                for factor in FACTORS:
                    rows[factor].append(figures(trial, factor))
                    if not given.means:
                        print_row([family, f"{factor}", *rows[factor][-1].cells()])
            except Wrong as wrong:
                wrongs += 1
                print(f"{family}: {wrong}", file=sys.stderr, flush=True)
    for factor in FACTORS:
        if rows[factor]:
            print_row([f"mean of {len(rows[factor])}", f"{factor}", *means(rows[factor]).cells()])
    return 1 if wrongs else 0


if __name__ == "__main__":
    sys.exit(main())
