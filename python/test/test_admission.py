"""Graphs for runners: what is refused is told in the caller's tasks and places, from 0."""

from __future__ import annotations

import unittest
from typing import Any, Optional, Sequence, Tuple

import memplan
from memplan.admission import MOST_RUNNING, Admission, BoundTooLow, GraphRefused, ResultGraph
from samples import Case

# The result of 0 is shared by 1 and 2; that of 1 goes to 3, as does that of 2.
SHARED = [(), (0,), (0,), (1, 2)]


def shared(sizes: Sequence[int] = (5, 3, 4, 1), extras: Sequence[int] = (0, 0, 2, 0)) -> ResultGraph:
    return ResultGraph(SHARED, sizes, extras)


class Bounds(Case):
    # 0: 5. 1: 5 + 3. 2: 5 + 3 + 2 + 4, then the 5 goes. 3: 3 + 4 + 1.
    def test_the_least_bound_of_an_order(self) -> None:
        self.assertEqual(shared().least_bound([0, 1, 2, 3]), 14)
        self.assertEqual(shared().least_bound([0, 2, 1, 3]), 12)

    # After 0 one of 1 and 2 runs while the 5 is there and what the other leaves is not: 2, which needs more, goes first.
    def test_a_plan_is_never_worse_than_its_start(self) -> None:
        self.assertEqual(shared().planned_from([0, 1, 2, 3]), [0, 2, 1, 3])
        self.assertEqual(shared().planned_from([0, 2, 1, 3], 0), [0, 2, 1, 3])
        self.assertLessEqual(shared().least_bound(shared().planned_from([0, 1, 2, 3], 0)), 14)
        self.assertEqual(ResultGraph([], [], []).planned_from([]), [])

    def test_a_bound_that_is_too_low(self) -> None:
        with self.assertRaises(BoundTooLow) as caught:
            Admission(shared(), 13, [0, 1, 2, 3])
        self.assertEqual((caught.exception.bound, caught.exception.least), (13, 14))
        self.assertEqual(Admission(shared(), 14, [0, 1, 2, 3]).ready(), [0])

    def test_no_task(self) -> None:
        self.assertEqual(ResultGraph([], [], []).least_bound([]), 0)
        self.assertEqual(Admission(ResultGraph([], [], []), 0, []).left, 0)


class Runs(Case):
    """What is reported, and what may start then."""

    def run_next(self, runs: Admission, task: int) -> int:
        """Runs a task by itself, whose spent results are gone at once: what is held then."""
        runs.ready()
        self.assertTrue(runs.start(task))
        spent = runs.spent(task)
        runs.done(task)
        for result in spent:
            runs.gone(result)
        return runs.used

    # The result of 0 is there till both consumers have run and it is gone; whichever runs last waits for that.
    def test_a_shared_result_goes_with_its_last_consumer(self) -> None:
        for first, last in ((1, 2), (2, 1)):
            runs = Admission(shared(), 99, [0, 1, 2, 3])
            self.assertEqual((runs.ready(), runs.start(0), runs.spent(0)), ([0], True, []))
            runs.done(0)
            self.assertEqual((runs.ready(), runs.used), ([1, 2], 5))
            self.assertTrue(runs.start(first) and runs.start(last))
            self.assertEqual((runs.used, runs.spent(first), runs.spent(last)), (5 + 3 + 2 + 4, [], [0]))
            runs.done(first)
            self.assertEqual((runs.left, runs.ready()), (2, []))
            runs.done(last)
            self.assertEqual((runs.left, runs.ready()), (2, []), "the result of 0 is not gone yet")
            self.assertGreaterEqual(runs.used, 5 + 3 + 4)
            runs.gone(0)
            self.assertEqual((runs.left, runs.ready(), runs.used), (1, [3], 3 + 4))

    # It may be told that a result is gone before it is told that its last consumer has run.
    def test_a_result_that_is_gone_early(self) -> None:
        runs = Admission(shared(), 99, [0, 1, 2, 3])
        self.run_next(runs, 0)
        self.run_next(runs, 1)
        self.assertTrue(runs.start(2))
        runs.gone(0)
        runs.done(2)
        self.assertEqual((runs.left, runs.used, runs.ready()), (1, 3 + 4, [3]))

    # A result that is kept makes its consumers wait, and stays.
    def test_a_kept_result_stays(self) -> None:
        graph = ResultGraph(SHARED, (5, 3, 4, 1), (0, 0, 2, 0), kept=[0])
        self.assertEqual(graph.least_bound([0, 1, 2, 3]), 14)
        runs = Admission(graph, 14, [0, 1, 2, 3])
        self.assertEqual([self.run_next(runs, task) for task in range(4)], [5, 5 + 3, 5 + 3 + 4, 5 + 1])
        self.assertEqual((runs.left, runs.ready()), (0, []))

    # As many as a core has workers, and one more.
    def test_as_many_run_as_may(self) -> None:
        count = MOST_RUNNING + 1
        runs = Admission(ResultGraph([()] * count, [0] * count, [0] * count), 0, range(count))
        self.assertEqual([runs.start(task) for task in runs.ready()], [True] * MOST_RUNNING + [False])
        runs.done(0)
        self.assertTrue(runs.start(MOST_RUNNING))


class Refusals(Case):
    def told(self, call: Any, *arguments: Any) -> Tuple[int, int, Optional[int], Optional[int], str]:
        """Kind, place from 1, task and place from 0, and the words of the refusal with which the call ends."""
        with self.assertRaises(GraphRefused) as caught:
            call(*arguments)
        error = caught.exception
        self.assertIsInstance(error, memplan.Refused)
        return error.kind, error.at, error.task, error.place, str(error)

    def check_order(self, order: Sequence[int], *told: Any) -> None:
        self.assertEqual(self.told(shared().least_bound, order), told)
        self.assertEqual(self.told(shared().planned_from, order), told)
        self.assertEqual(self.told(Admission, shared(), 99, order), told)

    def test_orders_that_are_none(self) -> None:
        self.check_order([0, 1, 7, 3], 20, 3, None, 2, "order[2]: there is no task 7")
        self.check_order([0, 1, 1, 2], 21, 3, 1, 2, "order[2]: task 1 stands there again")
        self.check_order([1, 0, 2, 3], 22, 1, 1, 0, "order[0]: task 1 stands before one whose result it consumes")
        self.check_order([0, 1, 2], 23, 4, None, 3, "order[3]: the order ends here, and has not every task")
        self.check_order([], 23, 1, None, 0, "order[0]: the order ends here, and has not every task")

    # Places behind the last consumer of the shared result, and the number that the next task would have.
    def test_places_behind_a_shared_result(self) -> None:
        self.check_order([0, 1, 2, 2], 21, 4, 2, 3, "order[3]: task 2 stands there again")
        self.check_order([0, 1, 2, 4], 20, 4, None, 3, "order[3]: there is no task 4")
        self.check_order([0, 4, 1, 2, 3], 20, 2, None, 1, "order[1]: there is no task 4")
        self.check_order([0, 1, 2, 2 ** 32 - 1], 20, 4, None, 3, "order[3]: there is no task 4294967295")

    def test_sizes_past_the_limit(self) -> None:
        words = "task 2: its extra, or the size of its result, is greater than 2^40"
        large = 2 ** 40 + 1
        for graph in (shared(sizes=(5, 3, large, 1)), shared(extras=(0, 0, large, 0))):
            kind = 52 if large in graph.sizes else 14
            self.assertEqual(self.told(graph.least_bound, [0, 1, 2, 3]), (kind, 3, 2, None, words))
            self.assertEqual(self.told(Admission, graph, 99, [0, 1, 2, 3]), (kind, 3, 2, None, words))
        forest = [(), (0,), (1,)]
        self.assertEqual(self.told(ResultGraph(forest, [1, 1, large], [0, 0, 0]).planned), (14, 3, 2, None, words))
        self.assertEqual(self.told(Admission, ResultGraph(forest, [1, 1, 1], [0, 0, large]), 99), (14, 3, 2, None, words))

    def test_other_limits(self) -> None:
        self.assertEqual(self.told(ResultGraph([], [], []).planned), (10, 0, None, None, "there is no task"))
        count = 1_000_001
        graph = ResultGraph([()] * count, [0] * count, [0] * count)
        words = "there are more than 1,000,000 tasks"
        self.assertEqual(self.told(graph.planned), (11, 0, None, None, words))
        self.assertEqual(self.told(graph.least_bound, range(count)), (11, 0, None, None, words))
        count = 2 ** 19 + 1  # of twice 2^40 each
        graph = ResultGraph([()] * count, [2 ** 40] * count, [2 ** 40] * count)
        self.assertEqual(self.told(graph.planned), (16, 0, None, None, "all sizes together are greater than 2^60"))
        graph = ResultGraph([(), (0,)], [0, 0], [0, 0])
        graph.consumers[0] = [1] * 10_000_001  # by hand: graphs with so many take long to make
        words = "the tasks have more than 10,000,000 inputs together"
        self.assertEqual(self.told(graph.least_bound, [0, 1]), (53, 0, None, None, words))

    def test_circles(self) -> None:
        def made(*inputs: Sequence[int]) -> ResultGraph:
            return ResultGraph(inputs, [1] * len(inputs), [0] * len(inputs))

        self.assertEqual(self.told(made, (), (1,)), (17, 2, 1, None, "task 1 waits for itself"))
        self.assertEqual(self.told(made, (1,), (0,)), (17, 1, 0, None, "the tasks [0, 1] wait for each other"))
        # 1, 3 and 2 in a circle, before which 0 runs, and after which 4 and 5 would.
        self.assertEqual(
            self.told(made, (), (0, 2), (3,), (1,), (2,), (4, 0)), (17, 2, 1, None, "the tasks [1, 2, 3] wait for each other")
        )
        many = [((task - 1) % 100_000,) for task in range(100_000)]
        self.assertEqual(self.told(made, *many)[4], "the tasks [0, 1, 2, 3, 4, 5, ...] wait for each other")

    def test_tasks_that_are_none(self) -> None:
        self.says(ValueError, "task 1 consumes the result of task 2, and there is none", ResultGraph, [(), (2,)], [1, 1], [0, 0])
        self.says(ValueError, "the result of task 2 is to be kept, and there is none", ResultGraph, [(), (0,)], [1, 1], [0, 0], {0, 2})
        self.says(ValueError, "inputs, sizes and extras have different lengths", ResultGraph, [(), (0,)], [1], [0, 0])
        self.says(ValueError, "inputs, sizes and extras have different lengths", ResultGraph, [()], [1, 1], [0, 0])
        self.says(TypeError, "inputs[1]: 5 is no list or array of whole numbers", ResultGraph, [(), 5], [1, 1], [0, 0])


class Forms(Case):
    def test_sets_and_other_integers(self) -> None:
        graph = ResultGraph([set(), {0}, frozenset([0]), range(1, 3)], range(1, 5), [0] * 4, kept={0})
        self.assertEqual(graph.inputs, [(), (0,), (0,), (1, 2)])
        self.assertEqual((graph.sizes, graph.kept), ([1, 2, 3, 4], {0, 3}))


if __name__ == "__main__":
    unittest.main()
