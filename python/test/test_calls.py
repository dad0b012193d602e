"""The calls on trees, matrices and systems that are worked by hand."""

from __future__ import annotations

import pathlib
import re
import unittest
from typing import Any
from unittest import mock

import memplan
from samples import ACROSS, ARROW, EXTRA, FORK, FORKED, IN_TURN, ITEMS, OUT, PARENT, TASKS, Case, numpy, put

try:
    import scipy.sparse
except ImportError:
    scipy = None

PAGE = pathlib.Path(__file__).resolve().parents[2] / "c" / "README.md"


class Trees(Case):
    def test_a_plan_has_the_least_peak(self) -> None:
        order, peak = memplan.plan(PARENT, OUT, EXTRA)
        self.assertEqual(peak, 11)
        self.assertEqual(memplan.replay(PARENT, OUT, EXTRA, order), 11)

    def test_a_best_postorder(self) -> None:
        order, peak = memplan.best_postorder(PARENT, OUT, EXTRA)
        self.assertEqual((peak, list(order)), (15, IN_TURN))

    def test_a_share_is_taken_over(self) -> None:
        self.assertEqual(memplan.replay([2, 0], [4, 4], [0, 0], [1, 2]), 8)
        self.assertEqual(memplan.replay([2, 0], [4, 4], [0, 0], [1, 2], share=[0, 3]), 5)
        self.assertEqual(memplan.plan([2, 0], [4, 4], [0, 0], [0, 3])[1], 5)

    def test_what_is_no_tree_is_refused(self) -> None:
        self.assertEqual(self.refused(memplan.plan, [2, 5, 4, 6, 0], OUT, EXTRA), (3, 12, 4, 0))
        self.assertEqual(self.refused(memplan.plan, [], [], []), (3, 10, 0, 0))
        self.assertEqual(self.refused(memplan.replay, PARENT, OUT, EXTRA, [1, 4, 3, 2, 5]), (1, 22, 2, 0))

    def test_what_goes_to_disk(self) -> None:
        amounts, volume = memplan.spill(PARENT, OUT, EXTRA, IN_TURN, 11)
        self.assertEqual((volume, list(amounts)), (4, [0, 4, 0, 0, 0]))
        self.assertEqual(self.refused(memplan.spill, PARENT, OUT, EXTRA, IN_TURN, 9), (10, 31, 1, 10))

    def test_arrays_of_different_lengths(self) -> None:
        words = "parent, out, extra and share have different lengths"
        self.says(ValueError, words, memplan.plan, PARENT, OUT, EXTRA[:4])
        self.says(ValueError, words, memplan.plan, PARENT, OUT, EXTRA, [0])


class Certificates(Case):
    def test_a_certificate_is_accepted(self) -> None:
        certificate = memplan.certify(PARENT, OUT, EXTRA)
        self.assertEqual((certificate.peak, len(certificate.claims)), (11, 4))
        self.assertEqual({type(number) for claim in certificate.claims for number in claim}, {int})
        memplan.check(PARENT, OUT, EXTRA, certificate)

    def test_another_peak_is_refused(self) -> None:
        certificate = memplan.certify(PARENT, OUT, EXTRA)
        self.assertEqual(self.refused(memplan.check, PARENT, OUT, EXTRA, certificate._replace(peak=10)), (1, 44, 0, 11))

    # This tree, whose second node alone needs 8 + 4, has more claims than nodes and one, the first room. The library tells a room that is
    # enough: here the least one, and a greater one.
    def test_claims_for_which_the_first_room_is_too_small(self) -> None:
        tree = [4, 5, 4, 5, 0], [2, 4, 4, 0, 3], [3, 8, 2, 0, 4]
        call = memplan._plans.memplan_certify_tree
        for more in (0, 50):

            def asked(*arguments: Any) -> int:
                status = call(*arguments)
                if status:
                    arguments[-1]._obj.value += more
                return status

            with mock.patch.object(memplan._plans, "memplan_certify_tree", side_effect=asked) as calls:
                certificate = memplan.certify(*tree)
            self.assertEqual((calls.call_count, certificate.peak), (2, 12))
            self.assertGreater(len(certificate.claims), 6)
            memplan.check(*tree, certificate)


class Fronts(Case):
    def check_arrow(self, arrow: Any) -> None:
        for order in ([1, 2, 0, 3], None):
            made = memplan.fronts(arrow, order)
            found = [list(field) for field in made]
            self.assertEqual(found, [[3, 3, 0], [1, 1, 0], [2, 2, 3], [0, 0, 0], [1, 1, 2], [3, 1, 2, 3]])
            self.assertEqual(memplan.plan(made.parent, made.out, made.extra, made.share)[1], 5)
        made = memplan.fronts(arrow, [1, 2, 0, 3], shape="square", in_place=True)
        self.assertEqual((list(made.extra), list(made.share)), ([3, 3, 4], [0, 0, 1]))
        made = memplan.fronts(arrow, [1, 2, 0, 3], zeros=1)
        self.assertEqual((list(made.parent), list(made.columns), list(made.front_of)), ([2, 0], [1, 3], [2, 2, 1, 2]))
        self.assertEqual(self.refused(memplan.fronts, arrow, [1, 2, 0, 1]), (3, 69, 4, 0))

    def test_of_columns(self) -> None:
        self.check_arrow(ARROW)
        self.assertEqual(self.refused(memplan.fronts, ([0, 3, 3, 3, 3], [1, 2, 4])), (3, 66, 3, 0))

    def test_of_an_analysis(self) -> None:
        for order in ([1, 2, 0, 3], None):
            made = memplan.analyse(ARROW, order)
            found = [list(field) for field in made]
            self.assertEqual(found, [[3, 3, 0], [1, 1, 0], [2, 2, 3], [0, 0, 0], [1, 1, 2], [3, 1, 2, 3], [1, 2, 0, 3]])
            self.assertEqual(list(memplan.columns(made.order, made.front_of, [2, 1, 3])), [2, 1, 0, 3])
        # two chains that meet in the last column: the postorder takes the first chain, then the second one
        chains = [0, 1, 2, 3, 4, 4], [2, 3, 4, 4]
        made = memplan.analyse(chains, range(5))
        self.assertEqual((list(made.front_of), list(made.order)), ([1, 3, 2, 4, 5], [0, 2, 1, 3, 4]))
        along = memplan.columns(made.order, made.front_of, [3, 4, 1, 2, 5])
        self.assertEqual(list(along), [1, 3, 0, 2, 4])
        again = memplan.analyse(chains, along)
        self.assertEqual((list(again.front_of), list(again.order)), ([3, 1, 4, 2, 5], [1, 3, 0, 2, 4]))
        self.assertEqual(self.refused(memplan.analyse, ARROW, [1, 2, 0, 1]), (3, 69, 4, 0))

    def test_of_minimum_degree(self) -> None:
        self.assertEqual(list(memplan.minimum_degree(ARROW)), [1, 2, 0, 3])
        self.assertEqual(self.refused(memplan.minimum_degree, ([0, 3, 3, 3, 3], [1, 2, 4])), (3, 66, 3, 0))
        self.assertEqual(self.refused(memplan.minimum_degree, ([0] * 50_002, [])), (4, 70, 0, 0))

    def test_columns_that_are_refused(self) -> None:
        for order, front_of, fronts, fault in (
            ([1, 2, 0, 3], [3, 1, 2], [1, 2, 3], (2, 73, 0, 0)),
            ([1, 2, 0, 2], [3, 1, 2, 3], [1, 2, 3], (3, 69, 4, 0)),
            ([1, 4, 0, 2], [3, 1, 2, 3], [1, 2, 3], (3, 68, 2, 0)),
            ([1, 2, 0, 3], [3, 1, 2, 3], [1, 2, 4], (1, 20, 3, 0)),
            ([1, 2, 0, 3], [3, 1, 2, 3], [2, 1, 2], (1, 21, 3, 0)),
            ([1, 2, 0, 3], [3, 1, 4, 3], [2, 1, 3], (3, 74, 3, 0)),
        ):
            self.assertEqual(self.refused(memplan.columns, order, front_of, fronts), fault)
        self.assertEqual(list(memplan.columns([], [], [])), [])

    @unittest.skipUnless(scipy, "there is no scipy")
    def test_of_sparse_matrices(self) -> None:
        self.check_arrow(scipy.sparse.csc_matrix([[1, 0, 0, 0], [5, 1, 0, 0], [5, 0, 1, 0], [5, 0, 0, 1]]))
        self.check_arrow(scipy.sparse.coo_matrix([[1, 5, 5, 5], [5, 1, 0, 0], [5, 0, 1, 0], [5, 0, 0, 1]]))
        self.says(ValueError, "matrix: it is not square", memplan.fronts, scipy.sparse.csc_matrix((2, 3)))

    def test_what_is_no_sparse_matrix(self) -> None:
        taken = "matrix: taken is a sparse matrix of scipy, or the pair (indptr, indices) of its columns, and not this"
        self.says(TypeError, f"{taken} list", memplan.fronts, [[1, 0], [0, 1]])
        self.says(TypeError, f"{taken} tuple", memplan.fronts, (*ARROW, []))
        self.says(TypeError, f"{taken} NoneType", memplan.fronts, None)
        if numpy:
            self.says(TypeError, f"{taken} ndarray", memplan.fronts, numpy.eye(2))

    def test_options_that_are_none(self) -> None:
        self.says(ValueError, "shape: 'rect' is neither 'triangle' nor 'square'", memplan.fronts, ARROW, shape="rect")
        self.says(ValueError, "shape: ['square'] is neither 'triangle' nor 'square'", memplan.fronts, ARROW, shape=["square"])
        for value in (1, 0, None, "no"):
            self.says(TypeError, f"in_place: {value!r} is no bool", memplan.fronts, ARROW, in_place=value)
        self.says(ValueError, "order: it has no place", memplan.fronts, ARROW, order=[])

    @unittest.skipUnless(scipy, "there is no scipy")
    def test_the_lines_of_the_page(self) -> None:
        scope = {"matrix": scipy.sparse.csc_matrix([[1, 0, 0, 0], [5, 1, 0, 0], [5, 0, 1, 0], [5, 0, 0, 1]])}
        found = re.search(r"```python\n(.*?)```", PAGE.read_text(encoding="utf-8"), re.DOTALL)
        exec(found[1], scope)
        self.assertEqual((scope["peak"], len(scope["order"])), (5, 3))


class Systems(Case):
    def test_the_peak_of_an_order(self) -> None:
        self.assertEqual(memplan.replay_system(TASKS, ITEMS, [1, 2, 3, 4]), 13)
        self.assertEqual(memplan.replay_system(TASKS, ITEMS, [1, 3, 2, 4]), 14)
        self.assertEqual(memplan.replay_system(TASKS, [list(item) for item in ITEMS], [1, 2, 3, 4]), 13)
        self.assertEqual(memplan.replay_system([7], [], [1]), 7)
        self.assertEqual(memplan.replay_system([], [], []), 0)

    def test_what_is_no_item(self) -> None:
        fields = "(size, from, to)"
        short, long = put_item((4, 1)), put_item((4, 1, 3, 0))
        self.says(ValueError, f"items[2]: (4, 1) has not the 3 numbers {fields}", memplan.replay_system, TASKS, short, [1, 2, 3, 4])
        self.says(ValueError, f"items[2]: (4, 1, 3, 0) has not the 3 numbers {fields}", memplan.replay_system, TASKS, long, [1, 2, 3, 4])
        self.says(ValueError, f"items[2]: (4, 1) has not the 3 numbers {fields}", memplan.Core.of_system, TASKS, short, ACROSS, 20, 2)
        self.says(TypeError, f"items[2]: 4 is no tuple {fields}", memplan.replay_system, TASKS, put_item(4), [1, 2, 3, 4])
        self.says(TypeError, f"items: None is no list of tuples {fields}", memplan.replay_system, TASKS, None, [1, 2, 3, 4])


class Readers(Case):
    def test_the_peak_of_an_order(self) -> None:
        self.assertEqual(memplan.replay_shared(FORK, FORKED, [1, 2, 3, 4]), 22)
        self.assertEqual(memplan.replay_shared(FORK, FORKED, [3, 2, 1, 4]), 28)
        self.assertEqual(memplan.replay_shared(FORK, [memplan.SharedItem(*item) for item in FORKED], [1, 2, 3, 4]), 22)
        self.assertEqual(memplan.replay_shared([7], [], [1]), 7)
        self.assertEqual(memplan.replay_shared([0], [memplan.SharedItem(3, 0)], [1]), 3)

    def test_a_plan_of_readers(self) -> None:
        for start in (None, [3, 2, 1, 4]):
            plan = memplan.plan_shared(FORK, FORKED, start)
            self.assertEqual((plan.peak, plan.bound, plan.is_least), (22, 22, True))
            self.assertEqual(memplan.replay_shared(FORK, FORKED, plan.order), 22)
        self.assertEqual(tuple(memplan.plan_shared([], [(7, 0, [])]))[1:], (7, 7))

    # 1 makes 10 that 3 and 4 read, and 2 makes 3 for 4 alone: no term tells these orders. 4 needs 14 for itself, and 16 after 3.
    def test_a_plan_is_never_worse_than_its_start(self) -> None:
        tasks, items = [0] * 4, [(10, 1, [3, 4]), (3, 2, [4]), (2, 3, []), (1, 4, [])]
        for start, effort, most in (([1, 3, 2, 4], 0, 16), ([2, 1, 4, 3], 0, 14), ([1, 3, 2, 4], memplan.EFFORT, 14)):
            plan = memplan.plan_shared(tasks, items, start, effort)
            self.assertTrue(plan.bound <= 14 <= plan.peak <= most)
            self.assertEqual(memplan.replay_shared(tasks, items, plan.order), plan.peak)
            self.assertEqual(plan.is_least, plan.bound == plan.peak)

    def test_the_plan_of_a_diamond_needs_no_effort(self) -> None:
        shared = [(size, maker, [user] if user else []) for size, maker, user in ITEMS]
        plan = memplan.plan_shared(TASKS, shared, [1, 3, 2, 4], 0)
        self.assertEqual((list(plan.order), plan.peak, plan.bound), ([1, 2, 3, 4], 13, 13))

    def test_a_start_that_is_refused(self) -> None:
        self.assertEqual(self.refused(memplan.plan_shared, FORK, FORKED, [1, 2, 4, 3]), (1, 22, 3, 0))
        self.assertEqual(self.refused(memplan.plan_shared, FORK, FORKED, [1, 2, 3]), (1, 23, 4, 0))
        self.says(ValueError, "start: it has no place", memplan.plan_shared, FORK, FORKED, [])

    def test_items_of_one_reader_are_those_of_a_system(self) -> None:
        shared = [(size, maker, [user] if user else []) for size, maker, user in ITEMS]
        for order in ([1, 2, 3, 4], [1, 3, 2, 4]):
            self.assertEqual(memplan.replay_shared(TASKS, shared, order), memplan.replay_system(TASKS, ITEMS, order))

    @unittest.skipUnless(numpy, "there is no numpy")
    def test_readers_in_an_array(self) -> None:
        arrays = [(size, maker, numpy.array(readers, "int64")) for size, maker, readers in FORKED]
        self.assertEqual(memplan.replay_shared(numpy.array(FORK), arrays, numpy.array([3, 2, 1, 4])), 28)

    def test_what_is_no_system_is_refused(self) -> None:
        for at, item, told in (
            (3, (5, 5, [4]), (3, 51, 4, 0)),
            (0, (10, 0, [1, 2, 5]), (3, 55, 1, 0)),
            (2, (4, 2, [0]), (3, 55, 3, 0)),
            (0, (10, 2, [1, 2, 3]), (3, 56, 1, 0)),
            (0, (10, 0, [1, 3, 2]), (3, 57, 1, 0)),
            (0, (10, 0, [1, 1, 2]), (3, 57, 1, 0)),
            (4, (2**40 + 1, 4, []), (4, 52, 5, 0)),
            (4, (2, 4, [1]), (3, 17, 1, 0)),
        ):
            items = put(FORKED, at, item)
            self.assertEqual(self.refused(memplan.replay_shared, FORK, items, [1, 2, 3, 4]), told)
            self.assertEqual(self.refused(memplan.plan_shared, FORK, items), told)
            self.assertEqual(self.refused(memplan.Core.of_shared, FORK, items, [1, 2, 3, 4], 22, 2), told)
        self.assertEqual(self.refused(memplan.replay_shared, FORK, FORKED, [1, 2, 4, 3]), (1, 22, 3, 0))
        self.assertEqual(self.refused(memplan.replay_shared, put(FORK, 1, 2**40 + 1), FORKED, [1, 2, 3, 4]), (4, 14, 2, 0))

    # The package counts the readers itself, so the library is asked with one fewer.
    def test_readers_that_are_fewer_than_the_items_say(self) -> None:
        call = memplan._plans.memplan_replay_shared

        def asked(*arguments: Any) -> int:
            return int(call(*arguments[:5], arguments[5] - 1, *arguments[6:]))

        with mock.patch.object(memplan._plans, "memplan_replay_shared", side_effect=asked):
            self.assertEqual(self.refused(memplan.replay_shared, FORK, FORKED, [1, 2, 3, 4]), (2, 54, 0, 0))

    def test_more_readers_than_there_may_be(self) -> None:
        items = [(1, 0, [1] * 10_000_001)]
        self.assertEqual(self.refused(memplan.replay_shared, [0], items, [1]), (4, 53, 0, 0))

    def test_what_is_no_item(self) -> None:
        def said(kind: Any, words: str, item: Any) -> None:
            self.says(kind, words, memplan.replay_shared, FORK, put(FORKED, 1, item), [1, 2, 3, 4])
            self.says(kind, words, memplan.Core.of_shared, FORK, put(FORKED, 1, item), [1, 2, 3, 4], 22, 2)

        said(ValueError, "items[1]: (3, 1) has not the 3 parts (size, from, readers)", (3, 1))
        said(TypeError, "items[1]: 3 is no tuple (size, from, readers)", 3)
        said(TypeError, "items[1].readers: 4 is no list or array of whole numbers", (3, 1, 4))
        said(TypeError, "items[1].readers: {4} is no list or array of whole numbers", (3, 1, {4}))
        said(TypeError, "items[1].readers[0]: 4.0 is no whole number", (3, 1, [4.0]))
        said(OverflowError, "items[1].readers[1]: -4 is negative", (3, 1, [4, -4]))
        said(OverflowError, f"items[1].readers[0]: {2**32} does not fit 32 bits", (3, 1, [2**32]))
        said(TypeError, "items[1].size: 3.5 is no whole number", (3.5, 1, [4]))


def put_item(item: Any) -> Any:
    return [*ITEMS[:2], item, *ITEMS[3:]]


class Results(Case):
    @unittest.skipUnless(numpy, "there is no numpy")
    def test_arrays_are_signed(self) -> None:
        fronts = memplan.fronts(ARROW, [1, 2, 0, 3])
        self.assertEqual((fronts.parent - 1).tolist(), [2, 2, -1])
        order, _ = memplan.plan(fronts.parent, fronts.out, fronts.extra, fronts.share)
        amounts, _ = memplan.spill(PARENT, OUT, EXTRA, IN_TURN, 11)
        orders = [order, memplan.best_postorder(PARENT, OUT, EXTRA)[0], memplan.plan_shared(FORK, FORKED).order]
        arrays = [*fronts, *orders, memplan.certify(PARENT, OUT, EXTRA).order, amounts]
        self.assertEqual({str(array.dtype) for array in arrays}, {"int64"})

    @unittest.skipIf(numpy, "there is numpy")
    def test_lists_come_where_numpy_is_not(self) -> None:
        fronts = memplan.fronts(ARROW, [1, 2, 0, 3])
        self.assertEqual({type(value) for value in (*fronts, memplan.plan(PARENT, OUT, EXTRA)[0])}, {list})


if __name__ == "__main__":
    unittest.main()
