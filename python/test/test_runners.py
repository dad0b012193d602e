"""The tasks of graphs for the runners, and the names that these had; the runs themselves are tried by `integrations/test`."""

from __future__ import annotations

import importlib
import sys
import unittest
from pathlib import Path
from typing import Any, Dict, Tuple

from memplan import Graph, TaskRefused, admission, threads
from samples import SIZES, STEPS, Case

FOLDERS = [str(Path(__file__).resolve().parents[2] / "integrations" / name) for name in ("dask", "threads")]


def joined(*parts: Any) -> Tuple[Any, ...]:
    return parts


FUNCTIONS: Dict[str, Any] = {"load": lambda: 1, "count": lambda it: it + 1, "sort": lambda it: it + 2, "merge": joined}


class OfGraphs(Case):
    def setUp(self) -> None:
        self.graph = Graph.of_mapping(STEPS, SIZES, extra={"sort": 3})

    def test_a_run_along_a_plan_needs_its_peak(self) -> None:
        plan = self.graph.plan()
        tasks = threads.of_graph(self.graph, FUNCTIONS, plan, unit=1000)
        self.assertEqual(threads.graph_of(tasks).least_bound(range(4)), 1000 * plan.peak)
        results = threads.run(tasks, 1000 * plan.peak, 2, range(4))
        self.assertEqual(list(results.values()), [(2, 3)])
        with self.assertRaises(admission.BoundTooLow):
            threads.run(tasks, 1000 * plan.peak - 1, 2, range(4))

    def test_without_an_order_they_are_numbered_as_they_stand(self) -> None:
        tasks = threads.of_graph(self.graph, FUNCTIONS)
        wanted = [((), 10, 0), ((0,), 1, 0), ((0,), 10, 3), ((1, 2), 2, 0)]
        self.assertEqual([(task.inputs, task.size, task.extra) for task in tasks], wanted)

    def test_graphs_that_are_refused(self) -> None:
        call = threads.of_graph
        self.says(TypeError, "graph: a int is no Graph", call, 7, FUNCTIONS)
        self.says(ValueError, "functions: there is none for 'merge'", call, self.graph, dict(list(FUNCTIONS.items())[:3]))
        self.says(ValueError, "items[1]: no task makes it", call, Graph([0, 0], [(1, 1, [2]), (2, None, [1])]), {1: joined, 2: joined})
        several = Graph([0, 0], [(1, 1, [2]), (2, 1, [])])
        self.says(ValueError, "items[1]: task 1 makes another one too", call, several, {1: joined, 2: joined})
        self.says(TypeError, "unit: 0.5 is no whole number", call, self.graph, FUNCTIONS, unit=0.5)
        words = "order[0], task 'sort': a task stands before one that produces what it consumes"
        self.says(TaskRefused, words, call, self.graph, FUNCTIONS, ["sort", "load", "count", "merge"])
        circle = Graph([0, 0], [(1, 1, [2]), (1, 2, [1])])
        words = "task 1: the parents lead to no root, or the tasks wait for each other"
        self.says(TaskRefused, words, call, circle, {1: joined, 2: joined})


class OldNames(unittest.TestCase):
    def setUp(self) -> None:
        sys.path[:0] = FOLDERS
        self.addCleanup(sys.path.__delitem__, slice(0, len(FOLDERS)))

    def test_they_are_the_same(self) -> None:
        self.assertIs(importlib.import_module("memplan_threads"), threads)
        self.assertIs(admission.Graph, admission.ResultGraph)
        try:
            runner: Any = importlib.import_module("memplan.dask")
        except ImportError:
            self.skipTest("there is no distributed")
        self.assertIs(importlib.import_module("memplan_dask"), runner)
        for name in ("errors", "inside", "placement", "remote", "runner", "sizes", "structure", "summary", "tasks", "versions"):
            self.assertIs(importlib.import_module(f"memplan_dask.{name}"), importlib.import_module(f"memplan.dask.{name}"))


if __name__ == "__main__":
    unittest.main()
