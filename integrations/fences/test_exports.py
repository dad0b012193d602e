"""What the scripts make of a small graph, and what they refuse: without an engine, and without the program."""

from __future__ import annotations

import subprocess
import sys
from functools import partial
from pathlib import Path

HERE = Path(__file__).resolve().parent
sys.path[:0] = [str(HERE), str(HERE.parent / "trials")]

from dask_fences import fenced  # noqa: E402
from fenced_graph import Unfit, read, read_graph  # noqa: E402
from harness import raised, run_all  # noqa: E402
from runs import ROOT, SMALL, SMALL_FENCES, exported, folder, printed, small  # noqa: E402


def names_are_kept() -> None:
    with folder() as where:
        it = small(where)
        assert [it.read("graph").word(number) for number in range(1, 6)] == ["load_it", "a_b", "a_b_3", "task_4", "join_5"]
        made = exported("make", it, "graph")
        assert "load_it:\n\t$(RUN) 'load it'\n" in made and "a_b_3: | load_it a_b\n\t$(RUN) a.b\n" in made, made
        assert "join_5: | a_b a_b_3\n" in made and "task_4: | join_5\n" in made, made
        drawn = exported("dot", it, "graph")
        assert "5 [shape=point]" in drawn and "5 -> 4 [style=dashed, constraint=false]" in drawn and "1 -> 2 [label=7]" in drawn, drawn


def commands_are_run() -> None:
    with folder() as where:
        it = small(where)
        it.path("commands").write_text("# of the tasks\n4 echo ${HOME} {x}\n")
        words = ("--graph", it.path("graph"), "--fences", it.path("graph.fences"), "--command-of", it.path("commands"))
        assert "\techo $${HOME} {x}\n" in printed(sys.executable, HERE / "to_make.py", *words)
        assert 'shell: "echo ${{HOME}} {{x}}"' in printed(sys.executable, HERE / "to_snakemake.py", *words)


def the_longest_path_goes_first() -> None:
    """In the small graph with fences: 1, 2, 3, and 4 behind the join of 2 and 3."""
    with folder() as where:
        it = small(where)
        assert read(str(it.path("graph")), str(it.path("graph.fences"))).order == [1, 2, 3, 4]
        it.path("graph.fences").write_text(SMALL_FENCES.replace("fences 2\n5 4\n2 3\n", "fences 0\n"))
        assert read(str(it.path("graph")), str(it.path("graph.fences"))).order == [4, 1, 2, 3]
        it.path("order").write_text("4 3\n# then\n2 1\n")
        assert it.read("graph").priorities == {4: 4, 3: 3, 2: 2, 1: 1}


def a_tree_is_read() -> None:
    graph = read_graph(str(ROOT / "examples" / "five.tree"))
    assert graph.tasks[0] == (9, 0, 1) and graph.items[0] == (1, 1, (2,)) and graph.items[4].readers == ()


def readers_wait_for_the_marker_too() -> None:
    """A marker that runs late would else keep the result longer than its readers do."""
    with folder() as where:
        it = small(where)
        it.path("graph.fences").write_text(SMALL_FENCES.replace("5 4\n2 3\n", "1 4\n5 4\n"))
        graph = it.read("graph")
    dsk = fenced({name: 0 for name in graph.names}, graph)
    assert dsk["a-b"][2:] == dsk["a.b"][2:] == ("memplan-over-load_it",), dsk
    assert dsk["4"][2:] == ("memplan-over-load_it", "memplan-over-join_5"), dsk
    assert dsk["memplan-over-join_5"][1:] == ("memplan-over-a_b", "memplan-over-a_b_3"), dsk


def several_results_are_refused() -> None:
    with folder() as where:
        it = small(where)
        it.path("graph").write_text(SMALL.replace("0 0 4", "1 1 4"))
        graph = it.read("graph")
    told = raised(Unfit, fenced, {name: 0 for name in graph.names}, graph)
    assert str(told) == "task 1 makes several items, and a result of Dask is one", told


REFUSED = [
    ("graph", "tasks 4", "tasks 5", "graph: line 10: `EXTRA SHARE TIME` should stand here"),
    ("graph", "7 1 2 3", "7 1 3 2", "graph: line 11: a task or 0, and other tasks that rise should stand here"),
    ("graph", "end\n", "", "graph: the end: `end`, and nothing after it, should stand here"),
    ("graph.fences", "fences 1\nbound", "fences 2\nbound", "graph.fences: line 1: `fences 1` should stand here"),
    ("graph.fences", "5 4\n", "6 4\n", "fence 1 is not from a task or a join of the graph to another task"),
    ("graph.fences", "2 3\n", "3 1\n", "with the fences a task of the graph waits for itself"),
    ("graph.fences", "joins 1\n1\n", "joins 0\n", "the joins of the fence file are not the items of the graph that have several readers"),
    ("order", "1 2 3 4", "1 2 3", "order: each task from 1 to 4 should stand here once"),
]


def what_does_not_fit_is_told(file: str, text: str, other: str, line: str) -> None:
    with folder() as where:
        it = small(where)
        it.path(file).write_text(it.path(file).read_text().replace(text, other))
        told = str(raised(Unfit, it.read, "graph"))
        assert told.replace(f"{where}/", "") == line, told


def a_refusal_is_one_line() -> None:
    with folder() as where:
        it = small(where)
        it.path("graph").unlink()
        words = [sys.executable, str(HERE / "to_make.py"), "--graph", str(it.path("graph")), "--fences", str(it.path("graph.fences"))]
        done = subprocess.run(words, capture_output=True, text=True)
        assert (done.returncode, done.stdout, done.stderr) == (1, "", f"to_make.py: {it.path('graph')}: No such file or directory\n"), done


CHECKS = [
    ("names are kept", names_are_kept),
    ("commands are run", commands_are_run),
    ("the longest path goes first", the_longest_path_goes_first),
    ("a tree is read", a_tree_is_read),
    *((f"refused: {line}", partial(what_does_not_fit_is_told, file, text, other, line)) for file, text, other, line in REFUSED),
    ("readers wait for the marker too", readers_wait_for_the_marker_too),
    ("several results are refused", several_results_are_refused),
    ("a refusal is one line", a_refusal_is_one_line),
]

if __name__ == "__main__":
    sys.exit(run_all(CHECKS))
