"""Graphs with fences for a test, and what a run of an engine came to."""

from __future__ import annotations

import contextlib
import os
import subprocess
import sys
import tempfile
from collections.abc import Callable, Iterator
from pathlib import Path
from typing import NamedTuple, Optional

from fenced_graph import FencedGraph, read

HERE = Path(__file__).resolve().parent
ROOT = HERE.parent.parent
PROGRAM = Path(os.environ.get("MEMPLAN_PROGRAM") or ROOT / "prebuilt" / "Linux-x86_64" / "memplan").resolve()


def printed(*words: object, cwd: Optional[Path] = None) -> str:
    done = subprocess.run([str(word) for word in words], cwd=cwd, stdout=subprocess.PIPE, stderr=subprocess.PIPE, text=True)
    assert done.returncode == 0, (words, done.returncode, done.stdout[-400:], done.stderr[-1000:])
    return done.stdout


@contextlib.contextmanager
def folder() -> Iterator[Path]:
    with tempfile.TemporaryDirectory() as made:
        yield Path(made)


# What the engines run


class Case(NamedTuple):
    """A graph in a folder, with an order and fences for a bound; `graph.fences` has them, `bare.fences` has none."""

    folder: Path
    bound: int

    def path(self, name: str) -> Path:
        return self.folder / name

    def read(self, fences: str) -> FencedGraph:
        return read(str(self.path("graph")), str(self.path(f"{fences}.fences")), str(self.path("order")))


def order_of_plan(plan: str) -> list[str]:
    lines = plan.splitlines()
    at = next(number for number, line in enumerate(lines) if line.startswith("order "))
    return lines[at + 1 : at + 1 + int(lines[at].split()[1])]


def without_fences(text: str) -> str:
    """The same joins."""
    lines = text.splitlines()
    at = next(number for number, line in enumerate(lines) if line.startswith("fences ") and number)
    return "\n".join([*lines[:at], "fences 0", "amounts 0", "end\n"])


def without_extras(text: str) -> str:
    """Tasks need nothing beside their items, and what is there from the start is made by none."""
    lines = text.splitlines()
    tasks = int(lines[1].split()[1])
    return "\n".join([*lines[:2], *(f"0 0 {line.split()[2]}" for line in lines[2 : 2 + tasks]), *lines[2 + tasks :], ""])


def case(where: Path, family: str, tasks: int, percent: int, workers: int = 0, change: Callable[[str], str] = str) -> Case:
    """The bound is so many percent of the peak of a plan."""
    graph, order = where / "graph", where / "order"
    graph.write_text(change(printed(sys.executable, ROOT / "bench" / "families.py", family, tasks)))
    plan = printed(PROGRAM, "plan", "--graph", graph, "--effort", 1000000)
    order.write_text("\n".join(order_of_plan(plan)) + "\n")
    peak = int(printed(PROGRAM, "replay", "--graph", graph, "--order", order).split()[1])
    bound = peak * percent // 100
    limit = ("--workers", workers) if workers else ()
    fences = printed(PROGRAM, "fence", "--graph", graph, "--order", order, "--bound", bound, *limit)
    (where / "graph.fences").write_text(fences)
    (where / "bare.fences").write_text(without_fences(fences))
    return Case(where, bound)


def exported(engine: str, it: Case, fences: str) -> str:
    words = ("--graph", it.path("graph"), "--fences", it.path(f"{fences}.fences"), "--order", it.path("order"))
    return printed(sys.executable, HERE / f"to_{engine}.py", *words)


# A small case


SMALL = "graph 2\ntasks 4\n0 0 3\n0 0 1\n0 0 1\n0 0 5\n# 1 load it\n# 2 a-b\n# 3 a.b\nitems 2\n7 1 2 3\n0 0 4\nend\n"
SMALL_FENCES = "fences 1\nbound 9\nworkers 2\nroom 0\njoins 1\n1\nfences 2\n5 4\n2 3\namounts 0\nend\n"


def small(where: Path) -> Case:
    (where / "graph").write_text(SMALL)
    (where / "graph.fences").write_text(SMALL_FENCES)
    (where / "order").write_text("1 2 3 4\n")
    return Case(where, 9)


# What a run came to


class Run:
    """Starts and ends as they come, with the memory that they take; a start that comes too early is told."""

    def __init__(self, graph: FencedGraph) -> None:
        self.graph = graph
        self.items: list[list[int]] = [[] for _ in range(graph.size + 1)]
        self.made = [0] * (graph.size + 1)
        self.left = [len(item.readers) for item in graph.graph.items]
        self.used = sum(item.size for item in graph.graph.items if not item.maker)
        self.greatest, self.at_once, self.most_at_once = self.used, 0, 0
        self.waits = graph.waits()
        self.ended: set[int] = set()
        for place, item in enumerate(graph.graph.items):
            self.made[item.maker] += item.size
            for reader in item.readers:
                self.items[reader].append(place)

    def beside(self, task: int) -> int:
        extra, share, _ = self.graph.graph.tasks[task - 1]
        return extra - share

    def start(self, task: int) -> None:
        before = {self.graph.graph.items[place].maker for place in self.items[task]} - {0}
        before.update(reader for number in self.waits[task] for reader in self.graph.joins.get(number, (number,)))
        assert before <= self.ended, f"task {task} came too early"
        self.used += self.beside(task) + self.made[task]
        self.at_once += 1
        self.greatest, self.most_at_once = max(self.greatest, self.used), max(self.most_at_once, self.at_once)

    def end(self, task: int) -> None:
        self.ended.add(task)
        self.at_once -= 1
        self.used -= self.beside(task)
        for place in self.items[task]:
            self.left[place] -= 1
            if not self.left[place]:
                self.used -= self.graph.graph.items[place].size


def run_of(graph: FencedGraph, events: str) -> Run:
    """Of lines `S TASK` and `E TASK`: each task starts and ends once."""
    lines = [line.split() for line in events.splitlines()]
    assert sorted(int(task) for what, task in lines if what == "S") == list(graph.tasks), "not every task ran once"
    run = Run(graph)
    for what, task in lines:
        (run.start if what == "S" else run.end)(int(task))
    return run


def judge(name: str, it: Case, events: Callable[[str], str]) -> None:
    """Within the bound with fences, and past it without; on as many workers as the fences are for."""
    fenced, bare = (run_of(it.read(fences), events(fences)) for fences in ("graph", "bare"))
    graph = fenced.graph
    print(f"{name}: {graph.size} tasks, {len(graph.fences)} fences, {len(graph.used_joins)} of the joins are waited for", flush=True)
    print(f"{name}: bound {it.bound}, greatest {fenced.greatest}, without fences {bare.greatest}", flush=True)
    assert not graph.workers or fenced.most_at_once <= graph.workers, fenced.most_at_once
    assert fenced.greatest <= it.bound, "the fences do not keep the bound"
    assert bare.greatest > it.bound, "the run without fences shows nothing"
