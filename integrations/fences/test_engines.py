"""Real engines on graphs with fences: they keep within the bound with them, and pass it without.

MEMPLAN_PROGRAM in the environment makes the plans and the fences; else it is the program of prebuilt/. Each run tells in which order its tasks start and
end, and memory is counted from that; of Snakemake the bytes of its files are looked at too, and of Dask which results are there. An engine that is
missing is told in a line `not run: ..`.
"""

from __future__ import annotations

import contextlib
import importlib.util
import os
import shutil
import subprocess
import sys
import threading
import time
import weakref
from collections.abc import Callable, Iterator
from functools import partial
from pathlib import Path
from typing import Any

HERE = Path(__file__).resolve().parent
sys.path[:0] = [str(HERE), str(HERE.parent / "trials")]

from fenced_graph import FencedGraph  # noqa: E402
from harness import run_all  # noqa: E402
from runs import PROGRAM, Case, Run, case, exported, folder, judge, printed, small, without_extras  # noqa: E402

KIB = 1024


# The engines

TELL = """#!/bin/sh
echo "S $1" >>events
sleep 0.0$(($1 % 4 + 1))
task=$1
shift
for file; do head -c "$(cat "sizes/${file##*/}")" /dev/zero >"$file"; done
echo "E $task" >>events
"""


def runner(where: Path) -> Path:
    """A program that tells when a task starts and ends, and writes its files. A short line is appended as a whole."""
    program = where / "run"
    program.write_text(TELL)
    program.chmod(0o755)
    (where / "events").write_text("")
    return program


def make_events(it: Case, jobs: int, fences: str) -> str:
    runner(it.folder)
    it.path("fenced.mk").write_text(exported("make", it, fences))
    printed("make", "-s", f"-j{jobs}", "-f", "fenced.mk", cwd=it.folder)
    return it.path("events").read_text()


def make_keeps_the_bound(family: str, percent: int, workers: int) -> None:
    with folder() as where:
        it = case(where, family, 200, percent, workers)
        judge(f"make, {family}", it, partial(make_events, it, workers or 16))


def starpu_events(it: Case, fences: str) -> str:
    it.path("fenced_tasks.h").write_text(exported("starpu", it, fences))
    flags = printed("pkg-config", "--cflags", "--libs", "starpu-1.3").split()
    program = it.path("events_of")
    printed("gcc", "-Wall", "-Wextra", "-Werror", "-I", it.folder, HERE / "starpu_events.c", "-o", program, *flags)
    settings = ("STARPU_NCPU=4", "STARPU_SCHED=prio", "STARPU_WORKERS_NOBIND=1", "STARPU_SILENT=1", f"STARPU_HOME={it.folder}")
    return printed("env", *settings, program)


def starpu_keeps_the_bound(family: str) -> None:
    with folder() as where:
        it = case(where, family, 200, 100)
        judge(f"StarPU, {family}", it, partial(starpu_events, it))


def bytes_in(data: Path) -> int:
    found = 0
    for entry in os.scandir(data):
        with contextlib.suppress(FileNotFoundError):
            found += entry.stat().st_size
    return found


def watched(words: list[str], where: Path) -> int:
    """The most bytes in `data` that were seen while a program ran."""
    most = 0
    with open(where / "log", "w") as log:
        program = subprocess.Popen(words, cwd=where, stdout=log, stderr=log)
        while program.poll() is None:
            most = max(most, bytes_in(where / "data"))
            time.sleep(0.01)
    assert program.returncode == 0, (where / "log").read_text()[-1000:]
    return most


def snakemake_events(it: Case, most: dict[str, int], fences: str) -> str:
    """In a folder of its own: what a run leaves would be taken for done by the next."""
    where = it.folder / f"of-{fences}"
    for name in ("data", "sizes", "fences"):
        (where / name).mkdir(parents=True)
    runner(where)
    graph = it.read(fences)
    count: dict[int, int] = {}
    for item in graph.graph.items:
        if item.maker and item.size:
            count[item.maker] = count.get(item.maker, 0) + 1
            (where / "sizes" / f"{graph.word(item.maker)}.{count[item.maker]}").write_text(str(item.size * KIB))
    (where / "Snakefile").write_text(exported("snakemake", it, fences))
    words = ["snakemake", "--cores", "16", "--scheduler", "greedy", "--nolock", "--quiet", "all"]
    most[fences] = watched(words, where) // KIB
    return (where / "events").read_text()


def snakemake_keeps_the_bound() -> None:
    with folder() as where:
        it = case(where, "snakemake", 60, 110, 0, without_extras)
        most: dict[str, int] = {}
        judge("Snakemake", it, partial(snakemake_events, it, most))
        print(f"Snakemake: KiB on disk {most['graph']}, without fences {most['bare']}", flush=True)
        # Of the run without fences a look now and then may miss the greatest.
        assert most["graph"] <= it.bound, most


class Result:
    """What a task leaves, as an object that can be seen to go."""


class Held:
    """The memory of results that are there, and of tasks that run."""

    def __init__(self) -> None:
        self.turn = threading.Lock()
        self.used = self.greatest = 0

    def add(self, amount: int) -> None:
        with self.turn:
            self.used += amount
            self.greatest = max(self.greatest, self.used)


def dask_events(it: Case, greatest: dict[str, int], fences: str) -> str:
    import dask.threaded
    from dask_fences import fenced

    graph = it.read(fences)
    run, held, events = Run(graph), Held(), []

    def work(task: int, *_inputs: Result) -> Result:
        events.append(f"S {task}")
        held.add(run.made[task] + run.beside(task))
        time.sleep(0.002 + task * 7919 % 4000 / 1000000)
        result = Result()
        weakref.finalize(result, held.add, -run.made[task])
        held.add(-run.beside(task))
        events.append(f"E {task}")
        return result

    dsk = {str(task): (work, task, *(str(supplier) for supplier in before)) for task, before in graph.suppliers().items()}
    read_by_none = set(graph.tasks) - {start for start, _ in graph.arcs}
    dask.threaded.get(fenced(dsk, graph), [str(task) for task in read_by_none], num_workers=16)
    greatest[fences] = held.greatest
    return "\n".join(events)


def dask_keeps_the_bound(family: str) -> None:
    with folder() as where:
        it = case(where, family, 200, 120)
        greatest: dict[str, int] = {}
        judge(f"Dask, {family}", it, partial(dask_events, it, greatest))
        print(f"Dask, {family}: results are there of {greatest['graph']}, without fences {greatest['bare']}", flush=True)
        assert greatest["graph"] <= it.bound < greatest["bare"], greatest


def graphviz_draws() -> None:
    with folder() as where:
        it = small(where)
        it.path("drawing.dot").write_text(exported("dot", it, "graph"))
        drawing = printed("dot", "-Tsvg", it.path("drawing.dot"))
        assert "load it" in drawing and "5&#45;&gt;4" in drawing, drawing


def a_result_goes_before_the_fenced_task() -> None:
    """Of task 1, whose readers are done: a marker holds none, a plain dependency does."""
    import dask.threaded
    from dask_fences import fenced

    def held_while_4_runs(through: Callable[[dict[Any, Any], FencedGraph], dict[Any, Any]]) -> bool:
        results: list[Any] = []
        seen: list[bool] = []

        def made(*_: Any) -> Result:
            result = Result()
            results.append(weakref.ref(result))
            return result

        def look(*_: Any) -> None:
            seen.append(results[0]() is not None)

        dsk = {"load it": (made,), "a-b": (len, ["load it"]), "a.b": (len, ["load it"]), "4": (look,)}
        dask.threaded.get(through(dsk, graph), ["a-b", "a.b", "4"], num_workers=2)
        return seen[0]

    with folder() as where:
        graph = small(where).read("graph")
    assert not held_while_4_runs(fenced)
    assert held_while_4_runs(lambda dsk, graph: {**dsk, "4": (dsk["4"][0], "load it", "a-b", "a.b")})


# What is there


def has_module(name: str) -> bool:
    return importlib.util.find_spec(name) is not None


def has_starpu() -> bool:
    tools = shutil.which("gcc") and shutil.which("pkg-config")
    return bool(tools) and subprocess.run(["pkg-config", "--exists", "starpu-1.3"]).returncode == 0


def has_fence() -> bool:
    """Whether the program has the command: an older one takes its words for wrong, status 2."""
    if not PROGRAM.is_file():
        return False
    with folder() as where:
        (where / "one.order").write_text("1\n")
        (where / "one.tree").write_text("tree 1\nnodes 1\n0 1 0 1\nend\n")
        words = ["fence", "--tree", str(where / "one.tree"), "--order", str(where / "one.order"), "--bound", "1"]
        return subprocess.run([str(PROGRAM), *words], capture_output=True).returncode == 0


ENGINES: list[tuple[str, Callable[[], bool], list[tuple[str, Callable[[], None]]]]] = [
    (
        "make",
        lambda: shutil.which("make") is not None,
        [
            ("make -j16 keeps the bound of tiles that are multiplied", partial(make_keeps_the_bound, "dask-matmul", 120, 0)),
            ("make -j16 keeps the peak of a random tree", partial(make_keeps_the_bound, "randtree", 100, 0)),
            ("make -j4 keeps a bound for 4 workers", partial(make_keeps_the_bound, "erdos", 150, 4)),
        ],
    ),
    (
        "libstarpu-dev",
        has_starpu,
        [(f"StarPU keeps the bound, {family}", partial(starpu_keeps_the_bound, family)) for family in ("dask-matmul", "randtree")],
    ),
    ("snakemake", lambda: shutil.which("snakemake") is not None, [("Snakemake keeps the bound", snakemake_keeps_the_bound)]),
    ("graphviz", lambda: shutil.which("dot") is not None, [("Graphviz draws a graph with fences", graphviz_draws)]),
    (
        "python3-dask",
        lambda: has_module("dask"),
        [
            *((f"Dask keeps the bound, {family}", partial(dask_keeps_the_bound, family)) for family in ("dask-rechunk", "dask-matmul")),
            ("a result goes before the fenced task", a_result_goes_before_the_fenced_task),
        ],
    ),
]


def checks_of_engines() -> Iterator[tuple[str, Callable[[], None]]]:
    if not has_fence():
        print(f"not run: fences: {PROGRAM} has no command `fence`", flush=True)
        return
    for package, is_there, checks in ENGINES:
        if is_there():
            yield from checks
        else:
            print(f"not run: fences: {package} is missing (apt-get install {package})", flush=True)


if __name__ == "__main__":
    sys.exit(run_all([*checks_of_engines()]))
