"""Graphs of Dask: the same tasks as the mapping that they come of, with their keys as names."""

from __future__ import annotations

import operator
import unittest
from random import Random
from typing import Any, Dict, List

from memplan import Graph, TaskRefused
from samples import SIZES, STEPS, Case

try:
    import dask
    from dask.base import is_dask_collection
    from dask.delayed import Delayed, delayed
except ImportError:
    raise unittest.SkipTest("there is no dask") from None

try:
    import distributed
    import memplan.dask
except ImportError:
    distributed = None



def total(*parts: int) -> int:
    return sum(parts) + 1


def plain(inputs: Dict[Any, List[Any]]) -> Dict[Any, Any]:
    """A graph of Dask of tasks that read these."""
    return {key: (total, *read) for key, read in inputs.items()}


class Plain(Case):
    def test_it_is_the_graph_of_the_mapping(self) -> None:
        for seed in range(60):
            draw = Random(f"dask {seed}")
            keys: List[Any] = [draw.choice([f"load-{at}", ("sum", at, 0)]) for at in range(draw.randint(0, 12))]
            inputs = {key: draw.sample(keys[:at], draw.randint(0, min(at, 3))) for at, key in enumerate(keys)}
            size, extra = ({key: draw.randint(0, 9) for key in keys} for _ in range(2))
            time = {key: draw.randint(1, 5) for key in keys}
            order = draw.sample(keys, len(keys))
            tasks = {key: plain(inputs)[key] for key in order}
            told = draw.choice([{key: (size[key], extra[key]) for key in keys}, lambda key: (size[key], extra[key])])
            graph = Graph.of_dask(tasks, told, time)
            wanted = Graph.of_mapping({key: inputs[key] for key in order}, size, extra, time=time)
            self.assertEqual(graph.text(), wanted.text())
            self.assertEqual(graph.names, order)

    def test_layers_are_read_too(self) -> None:
        value = delayed(total, pure=True)(delayed(total, pure=True)(), delayed(total, pure=True)(1), dask_key_name="end")
        graph = Graph.of_dask(value.__dask_graph__(), lambda key: 3)
        self.assertEqual((len(graph), graph.plan().peak), (3, 9))
        self.assertIn("end", graph.names)

    def test_sizes_that_are_none(self) -> None:
        tasks = plain(STEPS)
        self.says(ValueError, "sizes: there is none for 'merge'", Graph.of_dask, tasks, {"load": 1, "count": 1, "sort": 1})
        self.says(TypeError, "sizes['load']: 1.5 is no whole number", Graph.of_dask, tasks, lambda key: 1.5)
        self.says(OverflowError, "sizes['load'], its extra: -1 is negative", Graph.of_dask, tasks, lambda key: (1, -1))
        self.says(TypeError, "sizes: 7 is neither a mapping nor a function of keys", Graph.of_dask, tasks, 7)
        self.says(ValueError, "time: 'other' is no task", Graph.of_dask, tasks, SIZES, {"other": 3})

    def test_tasks_that_wait_for_each_other(self) -> None:
        words = "task 'a': the parents lead to no root, or the tasks wait for each other"
        self.says(TaskRefused, words, Graph.of_dask(plain({"a": ["b"], "b": ["a"]}), lambda key: 1).plan)


@unittest.skipUnless(distributed, "there is no distributed")
class Collections(Case):
    def test_a_collection_is_optimized_and_its_result_stays(self) -> None:
        load = delayed(total)(dask_key_name="load")
        count = delayed(operator.neg)(load, dask_key_name="count")
        sort = delayed(operator.pos)(load, dask_key_name="sort")
        merge = delayed(total)(count, sort, dask_key_name="merge")
        unused = delayed(total)(load, dask_key_name="unused")
        self.assertTrue(is_dask_collection(unused) and isinstance(merge, Delayed))
        graph = Graph.of_dask(merge, SIZES)
        self.assertEqual(sorted(graph.names), sorted(STEPS))
        self.assertEqual(graph.plan().peak, Graph.of_mapping(STEPS, SIZES).plan().peak)
        both = Graph.of_dask([merge, load], SIZES)
        others = {key: size for key, size in SIZES.items() if key != "load"}
        without = Graph.of_mapping({"count": [], "sort": [], "merge": ["count", "sort"]}, others)
        self.assertEqual(both.plan().peak, 10 + without.plan().peak)

    def test_a_run_has_the_peak_of_the_plan(self) -> None:
        """The bound that a run along this plan needs is its peak."""
        value = [delayed(total)(at, dask_key_name=f"load-{at}") for at in range(4)]
        end = delayed(total)(*value, dask_key_name="end")
        graph = Graph.of_dask(end, lambda key: (5, 2))
        tasks, _ = memplan.dask.of_collection(end, lambda key: (5, 2))
        made = memplan.dask.tasks.graph_of(tasks, 0)
        plan = graph.plan()
        place = {task.key: at for at, task in enumerate(tasks)}
        self.assertEqual(made.least_bound([place[key] for key in plan.order]), plan.peak)

    def test_dask_arrays(self) -> None:
        try:
            import dask.array
            import numpy
        except ImportError:
            self.skipTest("there is no numpy")
        x = dask.array.from_array(numpy.arange(64).reshape(8, 8), chunks=4)
        graph = Graph.of_dask((x + x.T).sum(), lambda key: (128, 0))
        self.assertTrue(all(isinstance(name, (str, tuple)) for name in graph.names))
        self.assertEqual(len(graph), len(set(graph.names)))
        self.assertGreaterEqual(graph.plan().peak, 2 * 128)


if __name__ == "__main__":
    unittest.main()
