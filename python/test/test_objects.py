"""Trees, graphs and workflows: how they are made, what is refused by name, and what comes back under the caller's names."""

from __future__ import annotations

import dataclasses
import os
import pickle
import unittest
from typing import Any, List
from unittest import mock

import memplan
from memplan import Claims, Fences, Graph, Item, Join, Need, Plan, Readers, States, TaskRefused, Tree, Workflow, _program
from samples import ARROW, EXTRA, FORK, FORKED, IN_TURN, NAMES, OUT, PARENT, SIZES, STEPS, Case, numpy, put

try:
    import scipy.sparse
except ImportError:
    scipy = None

try:
    import networkx
except ImportError:
    networkx = None



class Trees(Case):
    def test_parents_count_from_0_or_from_1(self) -> None:
        one, zero = Tree(PARENT, OUT, EXTRA), Tree([parent - 1 for parent in PARENT], OUT, EXTRA, base=0)
        self.assertEqual(list(one.parent), list(zero.parent))
        self.assertEqual([it - 1 for it in one.plan().order], list(zero.plan().order))
        self.assertEqual((one.names, zero.names), ([1, 2, 3, 4, 5], [0, 1, 2, 3, 4]))
        self.assertEqual(zero.replay([2, 0, 3, 1, 4]), 11)
        self.says(ValueError, "base: 2 is neither 0 nor 1", Tree, PARENT, OUT, EXTRA, base=2)

    def test_names_come_back(self) -> None:
        tree = Tree(PARENT, OUT, EXTRA, names=NAMES)
        plan = tree.plan()
        self.assertEqual(sorted(plan.order), NAMES)
        self.assertEqual((plan.peak, tree.replay(plan)), (11, 11))
        self.assertEqual(tree.post(), (["a", "b", "c", "d", "top"], 15))
        run = tree.simulate(plan, 11, 2)
        self.assertEqual([task for task, _, _ in run.spans()], list(plan.order))
        self.assertEqual(repr(tree), "<Tree of 5 tasks>")

    def test_nothing_can_be_changed(self) -> None:
        tree = Tree(PARENT, OUT, EXTRA)
        with self.assertRaises(dataclasses.FrozenInstanceError):
            tree.parent = [0]  # type: ignore[misc, assignment]
        if numpy:
            with self.assertRaises(ValueError):
                tree.parent[0] = 3
            given = numpy.asarray(OUT, "int32")
            tree = Tree(PARENT, given, EXTRA)
            given[0] = 100
            self.assertEqual(tree.plan().peak, 11)
            named = Tree(PARENT, OUT, EXTRA, names=numpy.asarray(NAMES))
            self.assertEqual({type(name) for name in named.plan().order}, {str})

    def test_numbers_that_are_none(self) -> None:
        whole = "is no whole number"
        for value, kind, words in (
            (2.9, TypeError, f"2.9 {whole}"),
            (True, TypeError, f"True {whole}"),
            ("3", TypeError, f"'3' {whole}"),
            (float("nan"), TypeError, f"nan {whole}"),
            (None, TypeError, f"None {whole}"),
            (-1, OverflowError, "-1 is negative"),
            (2**63, OverflowError, f"{2**63} does not fit 63 bits"),
            (2**64, OverflowError, f"{2**64} does not fit 63 bits"),
        ):
            for at, name in ((1, "out"), (2, "extra"), (3, "share"), (4, "time")):
                columns: List[Any] = [PARENT, OUT, EXTRA, [0] * 5, [1] * 5]
                columns[at] = put(columns[at], 3, value)
                self.says(kind, f"{name}[3]: {words}", Tree, *columns)
            self.says(kind, f"items[0].size: {words}", Graph, [1], [(value, None, [1])])
            tree = Tree(PARENT, OUT, EXTRA)
            self.says(kind, f"workers: {words.replace('63', '32')}", tree.simulate, IN_TURN, 15, value)
            if value is not None:
                self.says(kind, f"out['b']: {words}", Tree.of_mapping, {"b": None}, {"b": value})
                self.says(kind, f"size['b']: {words}", Graph.of_mapping, {"b": []}, {"b": value})
            if value != 2**63:
                words = words.replace("63", "64")
                self.says(kind, f"bound: {words}", tree.spill, IN_TURN, value)
                self.says(kind, f"bound: {words}", tree.fence, IN_TURN, value)
                self.says(kind, f"positions[0].size: {words}", Workflow, [("data", value)])
                self.says(kind, f"edges[0].size: {words}", Graph.of_edges, [("a", "b", value)])
        self.says(OverflowError, "parent[0]: -1 is negative; the parent of a root is 0", Tree, [-1], [0], [0])
        self.says(OverflowError, "parent[0]: -2 does not fit 32 bits", Tree, [-2], [0], [0], base=0)
        self.says(OverflowError, f"parent[1]: {2**32} does not fit 32 bits", Tree, [0, 2**32], [0, 0], [0, 0], base=0)
        self.says(OverflowError, "items[0].producer: -2 does not fit 32 bits", Graph, [0], [(1, -2, [])], base=0)
        self.says(TypeError, "items[0].readers[1]: 1.5 is no whole number", Graph, [0, 0], [(1, None, [1, 1.5])])

    def test_shapes_that_do_not_fit(self) -> None:
        self.says(ValueError, "out: there are 1 numbers, and 5 parents", Tree, PARENT, [0], EXTRA)
        self.says(ValueError, "names: there are 1, and 5 tasks", Tree, PARENT, OUT, EXTRA, names=["a"])
        self.says(ValueError, "names[1]: 'a' is the name of an earlier task too", Tree, [0, 0], [0, 0], [0, 0], names=["a", "a"])
        self.says(ValueError, "names[0]: None is no name", Tree, [0], [0], [0], names=[None])
        self.says(TypeError, "names[0]: [] is no name, as it cannot be hashed", Tree, [0], [0], [0], names=[[]])
        self.says(TypeError, "names: 'a' is no list of names", Tree, [0], [0], [0], names="a")
        self.says(TypeError, "out: 7 is no list or array of whole numbers", Tree, [0], 7, [0])
        if numpy:
            self.says(TypeError, "out[0]: array([1, 2]) is no whole number", Tree, [0, 0], numpy.asarray([[1, 2], [3, 4]]), [0, 0])
            self.says(TypeError, "out[0]: 1.0 is no whole number", Tree, [0], numpy.asarray([1.0]), [0])
            self.says(OverflowError, "out[0]: -3 is negative", Tree, [0], numpy.asarray([-3]), [0])
            self.says(OverflowError, f"out[0]: {2**63} does not fit 63 bits", Tree, [0], numpy.asarray([2**63], "uint64"), [0])

    def test_orders_of_names_that_are_none(self) -> None:
        tree = Tree(PARENT, OUT, EXTRA, names=NAMES)
        self.assertEqual(self.told(tree.replay, ["c", "a", "x"]), (1, 20, 3, "unknown", None))
        self.assertEqual(self.told(tree.replay, ["c", "d", "c"]), (1, 21, 3, "repeated", "c"))
        self.assertEqual(self.told(tree.replay, ["c", "top"]), (1, 22, 2, "too-early", "top"))
        self.assertEqual(self.told(tree.replay, ["c"]), (1, 23, 2, "missing", None))
        self.says(TypeError, "order: 'abcd' is no list of tasks", tree.replay, "abcd")
        self.says(TypeError, "order[1]: ['a'] is no name, as it cannot be hashed", tree.replay, ["c", ["a"]])
        words = "order[1], task 'top': a task stands before one that produces what it consumes"
        self.says(TaskRefused, words, tree.simulate, ["c", "top", "a"], 11, 2)

    def told(self, call: Any, *arguments: Any) -> Any:
        with self.assertRaises(TaskRefused) as caught:
            call(*arguments)
        it = caught.exception
        return it.status, it.kind, it.at, it.reason, it.task

    def test_trees_that_are_none_name_the_task(self) -> None:
        for columns, wanted in (
            (([2, 9], [1, 1], [1, 1]), (3, 12, 2, "parent", "b")),
            (([2, 1], [1, 1], [1, 1]), (3, 17, 1, "cycle", "a")),
            (([2, 0], [1, 1], [1, 1], [0, 2]), (3, 18, 2, "share", "b")),
            (([2, 0], [1, 1], [1, 1], [0, 0], [1, 0]), (3, 13, 2, "time", "b")),
            (([2, 0], [1, 2**40 + 1], [1, 1]), (4, 14, 2, "size", "b")),
        ):
            tree = Tree(*columns, names=["a", "b"])  # type: ignore[misc]
            self.assertEqual(self.told(tree.plan), wanted)
            self.assertEqual(self.told(tree.simulate, ["a", "b"], 9, 1), wanted)
            self.assertEqual(self.told(tree.segments), wanted)
        self.assertEqual(self.told(Tree([], [], []).plan), (3, 10, 0, "count", None))

    def test_bounds_that_are_too_low(self) -> None:
        tree = Tree(PARENT, OUT, EXTRA, names=NAMES)
        self.says(TaskRefused, "the bound is below the peak of the order (11)", tree.simulate, tree.plan(), 10, 1)
        self.assertEqual(self.told(tree.fence, tree.plan(), 10), (5, 30, 0, "bound", None))
        self.assertEqual(self.told(tree.spill, NAMES, 9), (10, 31, 1, "working-set", "a"))
        self.assertEqual(self.told(tree.simulate, tree.plan(), 11, 0), (2, 4, 0, "workers", None))
        self.assertEqual(self.told(tree.simulate, tree.plan(), 11, 2**32 - 1), (2, 4, 0, "workers", None))

    def test_a_ranking_of_the_tasks(self) -> None:
        tree = Tree([0, 0, 0], [0, 0, 0], [1, 1, 1], names=["a", "b", "c"])
        plan = tree.plan()._replace(priority=["c", "b", "a"])
        self.assertEqual([task for task, _, _ in tree.simulate(plan, 9, 1).spans()], ["c", "b", "a"])
        self.assertEqual([task for task, _, _ in tree.simulate(plan, 9, 1, priority=["b", "a", "c"]).spans()], ["b", "a", "c"])
        self.assertEqual(self.told(tree.simulate, plan, 9, 1, ["b", "a", "x"])[:1], (3,))

    def test_of_mappings(self) -> None:
        tree = Tree.of_mapping({"b": "a", "a": None}, out={"a": 1, "b": 2}, extra={"b": 5}, time={"a": 3})
        self.assertEqual((tree.names, list(tree.parent), list(tree.extra), list(tree.time)), (["b", "a"], [2, 0], [5, 0], [1, 3]))
        self.says(ValueError, "parents['b']: 'x' is no task", Tree.of_mapping, {"b": "x"}, {"b": 1})
        self.says(ValueError, "out: there is none for 'b'", Tree.of_mapping, {"b": None}, {})
        self.says(ValueError, "extra: 'x' is no task", Tree.of_mapping, {"b": None}, {"b": 1}, {"x": 1})
        self.says(TypeError, "out: 7 is no mapping of numbers by tasks", Tree.of_mapping, {"b": None}, 7)
        self.says(TypeError, "names: frozenset({'b'}) is no list of names", Tree, [0], [0], [0], names=frozenset("b"))

    def test_plans_that_are_none(self) -> None:
        tree = Tree(PARENT, OUT, EXTRA, names=NAMES)
        plan = tree.plan(evidence=True)
        assert isinstance(plan.evidence, Claims)
        self.assertEqual(self.told(tree.check, plan._replace(peak=10, bound=10)), (1, 44, 0, "peak", None))
        self.assertEqual(self.told(tree.check, plan._replace(order=NAMES[::-1])), (1, 22, 1, "too-early", "top"))
        self.says(ValueError, "plan: it has no claims; plan(evidence=True) makes it with claims", tree.check, tree.plan())
        wrong = plan._replace(evidence=plan.evidence._replace(rest=[1]))
        self.says(ValueError, "claims: their columns have different lengths", tree.check, wrong)
        wrong = plan._replace(evidence=plan.evidence._replace(position=put(list(plan.evidence.position), 1, 2.5)))
        self.says(TypeError, "claims.position[1]: 2.5 is no whole number", tree.check, wrong)
        wrong = plan._replace(evidence=plan.evidence._replace(position=list(plan.evidence.position)[::-1]))
        self.assertEqual(self.told(tree.check, wrong), (3, 43, 2, "claim", None))
        self.says(TypeError, "plan: a tuple is no Plan", tree.check, tuple(plan))

    @unittest.skipUnless(scipy, "there is no scipy")
    def test_fronts_of_matrices_of_every_format(self) -> None:
        dense = [[1, 5, 5, 5], [5, 1, 0, 0], [5, 0, 1, 0], [5, 0, 0, 1]]
        for form in ("bsr", "coo", "csc", "csr", "dia", "dok", "lil"):
            for container in (getattr(scipy.sparse, f"{form}_matrix"), getattr(scipy.sparse, f"{form}_array")):
                self.check_arrow(container(dense))

    def test_fronts_of_columns(self) -> None:
        self.check_arrow(ARROW)
        self.says(ValueError, "the tree is of no matrix", Tree(PARENT, OUT, EXTRA).elimination, IN_TURN)

    # 1 is joined to 0 and 2: eliminated first it joins these, so all are one front. 0 before 1 would be a front of its own.
    def test_columns_of_a_front_keep_their_order(self) -> None:
        path = [0, 0, 2, 2], [0, 2]
        tree = Tree.of_matrix(path, [1, 0, 2])
        self.assertEqual(([list(columns) for columns in tree.columns()], list(tree.elimination([1]))), ([[1, 0, 2]], [1, 0, 2]))
        self.assertEqual([list(rows) for rows in tree.fronts().rows], [[1, 0, 2]])
        self.assertEqual(len(Tree.of_matrix(path, [0, 1, 2])), 2)

    def test_rows_of_fronts(self) -> None:
        made = Tree.of_matrix(ARROW, [1, 2, 0, 3], base=0).fronts(4, workers=2)
        self.assertEqual([list(rows) for rows in made.rows], [[1, 0], [2, 0], [0, 3]])
        self.assertEqual(([list(it) for it in made.rounds], made.used), ([[0, 1], [2]], 4))
        self.assertEqual(self.told(Tree.of_matrix(ARROW).fronts, 3), (5, 30, 0, "bound", None))
        self.assertEqual(self.told(Tree.of_matrix(ARROW).fronts, 4, 4097), (2, 4, 0, "workers", None))
        self.says(ValueError, "the tree is of no matrix", Tree(PARENT, OUT, EXTRA).fronts)
        self.says(ValueError, "the tree has no pattern of its matrix", Tree([0], [0], [1], front_of=[1]).fronts)
        words = "the fronts of the tree are not those of its matrix, or are merged"
        self.says(ValueError, words, Tree.of_matrix(ARROW, zeros=1).fronts)
        self.says(ValueError, words, Tree([0], [0], [1], front_of=[1, 1], pattern=([0, 0, 0], [])).fronts)

    def check_arrow(self, arrow: Any) -> None:
        tree = Tree.of_matrix(arrow, [1, 2, 0, 3], base=0)
        self.assertEqual([list(columns) for columns in tree.columns()], [[1], [2], [0, 3]])
        plan = tree.plan(evidence=True)
        tree.check(plan)
        self.assertEqual((plan.peak, sorted(plan.order), list(tree.time)), (5, [0, 1, 2], [1, 1, 2]))
        self.assertEqual(list(tree.elimination([1, 0, 2])), [2, 1, 0, 3])
        again = Tree.of_matrix(arrow, tree.elimination(plan))
        self.assertEqual(sorted(again.extra), sorted(tree.extra))

    @unittest.skipUnless(networkx, "there is no networkx")
    def test_of_networkx(self) -> None:
        graph = networkx.DiGraph([("left", "top"), ("right", "top")])
        networkx.set_node_attributes(graph, {"left": 3, "right": 4, "top": 0}, "block")
        graph.nodes["left"]["front"] = 8
        tree = Tree.of_networkx(graph, out="block", extra="front")
        rows = sorted(zip(tree.names, tree.parent, tree.out, tree.extra))
        self.assertEqual(rows, [("left", 2, 3, 8), ("right", 2, 4, 0), ("top", 0, 0, 0)])
        self.says(ValueError, "graph: node 'left' has no attribute 'out'", Tree.of_networkx, graph)
        graph.add_edge("left", "right")
        self.says(ValueError, "graph: 'left' has several parents, 'top' and 'right'", Tree.of_networkx, graph, out="block")
        self.says(ValueError, "graph: its edges have no direction", Tree.of_networkx, networkx.Graph())
        self.says(TypeError, "graph: a dict is no digraph of networkx", Tree.of_networkx, {})


class Graphs(Case):
    def test_items_with_several_readers(self) -> None:
        graph = Graph(FORK, FORKED)
        self.assertEqual(graph.replay([1, 2, 3, 4]), memplan.replay_shared(FORK, FORKED, [1, 2, 3, 4]))
        self.assertEqual(graph.plan().peak, memplan.plan_shared(FORK, FORKED).peak)
        moved = Graph(FORK, [(size, producer - 1, {it - 1 for it in readers}) for size, producer, readers in FORKED], base=0)
        self.assertEqual(moved.text(), graph.text())
        self.assertEqual(moved.items[0], Item(10, None, (0, 1, 2)))
        self.assertEqual(Graph([0, 0], [(1, None, [2, 1])]).text(), Graph([0, 0], [(1, 0, (1, 2))]).text())

    def test_of_columns(self) -> None:
        graph = Graph.of_columns([0, 0, 0], [10, 3], [-1, 0], [0, 2, 3], [1, 0, 2], base=0, names=["a", "b", "c"])
        self.assertEqual(graph.items, [Item(10, None, ("a", "b")), Item(3, "a", ("c",))])
        self.says(ValueError, "starts: they do not rise from 0 to the 2 readers", Graph.of_columns, [0], [1], [0], [0, 1], [1, 1])
        words = "size, producer, starts: there are 1, 1 and 1, and not one start more"
        self.says(ValueError, words, Graph.of_columns, [0], [1], [0], [0], [])

    def test_of_mappings_and_edges(self) -> None:
        graph = Graph.of_mapping(STEPS, SIZES, extra={"sort": 4}, time={"sort": 9})
        self.assertEqual(graph.items[0], Item(10, "load", ("count", "sort")))
        self.assertEqual((list(graph.extra), list(graph.time)), ([0, 0, 4, 0], [1, 1, 9, 1]))
        self.says(ValueError, "inputs['a']: 'x' is no task", Graph.of_mapping, {"a": ["x"]}, {"a": 1})
        graph = Graph.of_edges([(None, "a", 5), ("a", "b", 3), ("b", None, 1)], extra={"b": 2, "c": 7})
        self.assertEqual(graph.text(1), "graph 1\ntasks 3\n0 0 1\n2 0 1\n7 0 1\narcs 3\n0 1 5\n1 2 3\n2 0 1\nend\n# 1 a\n# 2 b\n# 3 c\n")
        self.says(TypeError, "edges[0]: ('a', 'b') is no tuple (from, to, size)", Graph.of_edges, [("a", "b")])
        self.says(OverflowError, "edges[0].size: -4 is negative", Graph.of_edges, [("a", "b", -4)])

    @unittest.skipUnless(networkx, "there is no networkx")
    def test_of_networkx(self) -> None:
        graph = networkx.DiGraph([(step, after) for after, steps in STEPS.items() for step in steps])
        networkx.set_node_attributes(graph, SIZES, "bytes")
        graph.edges["count", "merge"]["moved"] = 7
        graph.nodes["sort"].update(work=4, hours=2)
        made = Graph.of_networkx(graph, out="bytes", size="moved", extra="work", time="hours")
        items = sorted(map(tuple, made.items))
        alone = [(1, "count", ()), (2, "merge", ()), (7, "count", ("merge",))]
        self.assertEqual(items, [*alone, (10, "load", ("count", "sort")), (10, "sort", ("merge",))])
        self.assertEqual(dict(zip(made.names, made.extra))["sort"], 4)
        words = "graph: edge 'load', 'count' has no attribute 'size', and node 'load' no attribute 'out'"
        self.says(ValueError, words, Graph.of_networkx, networkx.DiGraph([("load", "count")]))

    @unittest.skipUnless(networkx, "there is no networkx")
    def test_nodes_that_are_numbers_or_tuples(self) -> None:
        graph = networkx.DiGraph([((0, 0), (0, 1)), ((0, 1), 7)])
        networkx.set_node_attributes(graph, 5, "out")
        plan = Graph.of_networkx(graph).plan()
        self.assertEqual((plan.order, plan.peak), ([(0, 0), (0, 1), 7], 10))
        graph = networkx.MultiDiGraph([("a", "b"), ("a", "b")])
        networkx.set_node_attributes(graph, 5, "out")
        self.assertEqual(Graph.of_networkx(graph).items[0], Item(5, "a", ("b",)))

    def test_graphs_that_are_none_name_the_task_or_the_item(self) -> None:
        whole: List[Any] = [
            (Graph([0, 0], [(1, 1, [2]), (1, 2, [1])], names=["a", "b"]), (3, 17, 1, "cycle", "a"), "task 'a'"),
            (Graph([0, 0], [(1, 1, [2])], share=[0, 2], names=["a", "b"]), (3, 18, 2, "share", "b"), "task 'b'"),
            (Graph([0, 0], [(1, 3, [2])], names=["a", "b"]), (3, 51, 1, "item", None), "items[0]"),
            (Graph([0, 0], [(1, 0, [1]), (1, 2, [2])]), (3, 56, 2, "item", None), "items[1]"),
            (Graph([0, 0], [(1, 0, [1]), (1, 0, [2, 2])]), (3, 57, 2, "item", None), "items[1]"),
            (Graph([0, 0], [(1, 0, [1]), (1, 0, [3])]), (3, 55, 2, "item", None), "items[1]"),
            (Graph([0, 2**40 + 1], [], names=["a", "b"]), (4, 14, 2, "size", "b"), "task 'b'"),
        ]
        for graph, wanted, where in whole:
            for call, arguments in ((graph.plan, ()), (graph.reduce, ()), (graph.bound, ()), (graph.fence, (graph.names, 99))):
                with self.assertRaises(TaskRefused) as caught:
                    call(*arguments)
                it = caught.exception
                self.assertEqual((it.status, it.kind, it.at, it.reason, it.task), wanted)
                self.assertTrue(str(it).startswith(f"{where}: "), str(it))

    def test_reductions_that_are_none(self) -> None:
        bridge = Graph.of_edges([("a", "b", 1), ("a", "c", 1), ("b", "c", 1), ("b", "d", 1), ("c", "d", 1)])
        with self.assertRaises(TaskRefused) as caught:
            bridge.reduce()
        self.assertEqual((caught.exception.status, caught.exception.reason), (9, "rest"))
        self.assertIn(("b", "c"), caught.exception.arcs)
        self.assertIn((None, "a"), caught.exception.arcs)
        apart = Graph([0, 0, 0], [(1, None, [1, 2]), (1, 1, [3])])
        with self.assertRaises(TaskRefused) as caught:
            apart.reduce()
        self.assertEqual((caught.exception.reason, caught.exception.at), ("item", 1))

    def test_a_plan_without_evidence(self) -> None:
        graph = Graph.of_mapping(STEPS, SIZES)
        words = "plan: it has no evidence; plan(evidence=True) makes it with some"
        self.says(ValueError, words, graph.check, graph.plan())
        self.says(ValueError, "need.task: 'x' is no task", graph.check, graph.plan()._replace(evidence=Need("x")))
        half: Any = graph.plan()._replace(evidence=States(1.5))  # type: ignore[arg-type]
        self.says(TypeError, "states.many: 1.5 is no whole number", graph.check, half)
        self.says(TypeError, "plan: a list is no evidence", graph.check, half._replace(evidence=[]))
        told = graph.plan()._replace(evidence=Need("sort"), bound=12)
        words = "what is needed is below the bound"
        graph.check(told)
        self.says(TaskRefused, words, graph.check, told._replace(bound=21))

    def test_fences_that_are_none(self) -> None:
        graph = Graph.of_mapping(STEPS, SIZES, extra={"count": 9, "sort": 9})
        fences = graph.fence(["load", "count", "sort", "merge"], 30)
        self.assertEqual(fences.joins, [Readers(0, ("count", "sort"))])
        self.assertEqual(fences.edges(), [("count", "sort")])
        graph.check_fences(fences)
        self.says(ValueError, "pairs[0][1]: 'x' is no task", graph.check_fences, fences._replace(pairs=[("count", "x")]))
        wrong = fences._replace(pairs=[(Readers(3, ()), "sort")])
        self.says(ValueError, "pairs[0][0]: item 3 is none of the joins", graph.check_fences, wrong)
        with self.assertRaises(TaskRefused) as caught:
            graph.check_fences(fences._replace(pairs=[("merge", "count")], amounts=list(fences.amounts)))
        self.assertEqual((caught.exception.reason, caught.exception.task), ("fences cycle", "count"))
        self.says(TypeError, "fences: a list is no Fences", graph.check_fences, [])
        self.assertIsInstance(fences, Fences)

    def test_efforts_and_starts(self) -> None:
        graph = Graph.of_mapping(STEPS, SIZES)
        self.says(TypeError, "effort: 1.5 is no whole number", graph.plan, effort=1.5)
        self.says(ValueError, "start: it has no place", graph.plan, [])
        self.assertEqual(graph.plan(graph.plan(), effort=0).peak, 21)

    def test_joins_of_reductions(self) -> None:
        items = [(10, 1, [2, 3, 4]), (2, 2, [5]), (2, 3, [5]), (2, 4, [5])]
        shared = Graph([0] * 5, items, names=["one", "two", "three", "four", "five"])
        workflow = shared.reduce()
        self.assertEqual([name for name in workflow.names if isinstance(name, Join)], [Join(1)])
        plan = workflow.plan()
        workflow.check(plan)
        self.assertEqual(shared.replay([task for task in plan.order if not isinstance(task, Join)]), plan.peak)


class Workflows(Case):
    def test_positions_that_are_none(self) -> None:
        self.says(TypeError, "positions[0]: ('date', 4) begins with none of 'data', 'task' and 'par'", Workflow, [("date", 4)])
        self.says(TypeError, "positions[0]: 4 begins with none of 'data', 'task' and 'par'", Workflow, [4])
        words = "positions[1]: ('task', 3) has not the numbers (extra, share, time) behind its word"
        self.says(ValueError, words, Workflow, [("data", 1), ("task", 3)])
        for positions, reason, at, task in (
            ([("data", 1), ("task", 3, 0, 1)], "stack-short", "positions[1], task 'a'", "a"),
            ([("data", 1), ("data", 1), ("task", 3, 2, 1)], "share", "positions[2], task 'a'", "a"),
            ([("data", 1), ("data", 1), ("task", 3, 0, 1), ("data", 1)], "not-one-term", "positions[4]", None),
        ):
            with self.assertRaises(TaskRefused) as caught:
                Workflow(positions, names=["a"]).plan()
            self.assertEqual((caught.exception.reason, caught.exception.task), (reason, task))
            self.assertTrue(str(caught.exception).startswith(f"{at}: "), str(caught.exception))

    def test_a_plan_of_another_maker(self) -> None:
        workflow = Workflow([("data", 4), ("data", 1), ("task", 3, 0, 1)], names=["sum"])
        plan = workflow.plan()
        self.says(TaskRefused, "the order has another peak (8)", workflow.check, plan._replace(peak=7, bound=7))
        words = "plan: that of a tree or a workflow has claims as its evidence, and its peak as its bound"
        self.says(ValueError, words, workflow.check, plan._replace(bound=7))


class Copies(Case):
    def test_works_and_refusals_go_from_one_process_to_another(self) -> None:
        tree = Tree(PARENT, OUT, EXTRA, names=NAMES)
        again = pickle.loads(pickle.dumps(tree))
        self.assertEqual((again.text(), again.plan().order), (tree.text(), tree.plan().order))
        for call, argument in ((tree.replay, ["c", "top"]), (Tree.of_text, "tree 3")):
            with self.assertRaises(ValueError) as caught:
                call(argument)
            told = pickle.loads(pickle.dumps(caught.exception))
            self.assertEqual((type(told), str(told), vars(told)), (type(caught.exception), str(caught.exception), vars(caught.exception)))


class TheProgram(Case):
    def test_where_it_is_found(self) -> None:
        with mock.patch.dict(os.environ, {"MEMPLAN_PROGRAM": "/no/such/program"}):
            self.assertEqual(_program.find("plan"), "/no/such/program")
            with self.assertRaises(FileNotFoundError):
                Tree([0], [1], [2]).segments()
        nowhere = mock.patch("memplan._program.Path.is_file", return_value=False)
        with mock.patch.dict(os.environ, {"MEMPLAN_PROGRAM": "", "PATH": ""}), nowhere:
            with self.assertRaisesRegex(FileNotFoundError, "memplan finds no program for the command plan"):
                _program.find("plan")

    def test_how_it_may_end(self) -> None:
        for status, kind in ((8, MemoryError), (6, OSError), (7, OSError), (-9, OSError), (99, OSError)):
            ended = mock.Mock(returncode=status, stdout=b"", stderr=b"memplan: said")
            with mock.patch("memplan._program.subprocess.run", return_value=ended), self.assertRaises(kind):
                Tree([0], [1], [2]).segments()

    def test_the_library_is_not_asked_by_files(self) -> None:
        """What the library has a call for runs no program."""
        tree, graph = Tree(PARENT, OUT, EXTRA), Graph(FORK, FORKED)
        with mock.patch("memplan._program.subprocess.run", side_effect=AssertionError):
            tree.check(tree.plan(evidence=True))
            self.assertEqual((tree.post()[1], tree.replay(tree.plan()), tree.spill(IN_TURN, 11).volume), (15, 11, 4))
            self.assertEqual(graph.replay(graph.plan()), graph.plan().peak)
        self.assertIsInstance(graph.plan(), Plan)


if __name__ == "__main__":
    unittest.main()
