"""The activation core: its calls, several threads on one, and what it does not allow."""

from __future__ import annotations

import copy
import gc
import pickle
import sys
import threading
import unittest
from typing import Any, Callable, List
from unittest import mock

import memplan
from samples import ACROSS, EXTRA, FORK, FORKED, ITEMS, OUT, PARENT, TASKS, Case


def core() -> memplan.Core:
    return memplan.Core.of_tree(PARENT, OUT, EXTRA, ACROSS, 11, 2)


class Calls(Case):
    def test_of_a_tree(self) -> None:
        self.assertEqual(self.refused(memplan.Core.of_tree, PARENT, OUT, EXTRA, ACROSS, 10, 2), (5, 30, 0, 11))
        runs, ran, top = core(), [], 0
        while task := runs.activate():
            self.assertEqual(runs.next(), task)
            self.assertTrue(runs.is_startable(task) and runs.start(task))
            self.assertEqual(runs.next(), 0)
            top = max(top, runs.used)
            self.assertLessEqual(runs.booked, 11)
            self.assertTrue(runs.finish(task) and runs.is_done(task))
            ran.append(task)
        self.assertEqual((ran, top), (ACROSS, 11))

    def test_of_a_system(self) -> None:
        runs = memplan.Core.of_system(TASKS, ITEMS, [1, 2, 3, 4], 13, 2)
        self.assertEqual((runs.used, runs.activate(), runs.booked), (6, 1, 13))


    def test_of_items_with_readers(self) -> None:
        self.assertEqual(self.refused(memplan.Core.of_shared, FORK, FORKED, [1, 2, 3, 4], 21, 2), (5, 30, 0, 22))
        runs = memplan.Core.of_shared(FORK, FORKED, [1, 2, 3, 4], 22, 2)
        held, needed = [runs.used], []
        while task := runs.activate():
            self.assertTrue(runs.start(task))
            needed.append(runs.used)
            self.assertTrue(runs.finish(task) and runs.is_done(task))
            held.append(runs.used)
        self.assertEqual((held, needed), ([10, 13, 17, 12, 2], [19, 18, 22, 14]))


def in_threads(work: Callable[[List[int]], None]) -> List[List[int]]:
    """What each of four threads has put into a list of its own, where the interpreter changes threads as often as it can."""
    lists: List[List[int]] = [[] for _ in range(4)]
    threads = [threading.Thread(target=work, args=(mine,)) for mine in lists]
    pause = sys.getswitchinterval()
    sys.setswitchinterval(1e-6)
    try:
        for thread in threads:
            thread.start()
        for thread in threads:
            thread.join()
    finally:
        sys.setswitchinterval(pause)
    return lists


class Threads(Case):
    """Tasks that need 1 each, on one core that four threads call at once."""

    def test_each_task_is_activated_once(self) -> None:
        count = 150_000
        for _ in range(4):
            runs = memplan.Core.of_system([1] * count, [], range(1, count + 1), count, 4)
            lists = in_threads(lambda mine: mine.extend(iter(runs.activate, 0)))
            self.assertEqual(sum(map(len, lists)), count)
            self.assertTrue(sorted(sum(lists, [])) == list(range(1, count + 1)), "a task is activated twice")
            self.assertEqual(runs.booked, count)

    def test_the_bound_is_kept(self) -> None:
        count, bound = 60_000, 3
        runs = memplan.Core.of_system([1] * count, [], range(1, count + 1), bound, 4)
        faults: List[Any] = []

        def work(mine: List[int]) -> None:
            while task := runs.activate():
                mine.append(task)
                if runs.booked > bound or not runs.start(task) or runs.used > bound or not runs.finish(task):
                    faults.append(task)

        lists = in_threads(work)
        self.assertEqual(faults, [])
        self.assertTrue(sorted(sum(lists, [])) == list(range(1, count + 1)), "a task is activated twice, or not at all")
        self.assertEqual((runs.booked, runs.used), (0, 0))


class Lives(Case):
    WORDS = "a Core cannot be copied or pickled: it is a place in memory that it frees itself"

    def setUp(self) -> None:
        gc.collect()  # cores of the tests before, which are not to be counted

    def test_no_copy(self) -> None:
        for call in (copy.copy, copy.deepcopy, pickle.dumps):
            self.says(TypeError, self.WORDS, call, core())
        self.says(TypeError, self.WORDS, copy.deepcopy, [core()])

    def test_it_is_ended_once(self) -> None:
        with mock.patch.object(memplan.Core, "_end") as end:
            runs = core()
            runs.__del__()
            del runs
            gc.collect()
        self.assertEqual(end.call_count, 1)

    def test_one_that_does_not_begin_is_ended_once(self) -> None:
        with mock.patch.object(memplan.Core, "_end") as end:
            self.refused(memplan.Core.of_tree, PARENT, OUT, EXTRA, ACROSS, 10, 2)
            gc.collect()
        self.assertEqual(end.call_count, 1)

    def test_one_that_was_never_made_is_not_ended(self) -> None:
        with mock.patch.object(memplan.Core, "_end") as end, mock.patch.object(sys, "unraisablehook") as hook:
            with mock.patch.object(memplan._steps, "memplan_core_new", side_effect=KeyboardInterrupt):
                self.assertRaises(KeyboardInterrupt, memplan.Core)
            gc.collect()
        self.assertEqual((end.call_count, hook.call_count), (0, 0))


if __name__ == "__main__":
    unittest.main()
