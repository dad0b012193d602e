"""The calls of the library, and the methods of trees, graphs and workflows, against the program, on random inputs.

Tasks are called by numbers or by names, and numbers stand in lists, tuples and arrays. Some two hundred inputs are drawn; `python/compare`
draws more. What is the same run of the program for a call and for a method is made once.
"""

from __future__ import annotations

import unittest
from random import Random
from typing import Any, Callable, Dict, Iterator, List, Tuple

import memplan
from against import INPUTS, Against, Input, claim_lines, given, simulated, spill_text, ways, wrong_order
from memplan import Certificate, Gaps, Graph, Plan, SharedItem, Tree, Workflow
from works import TOP, Drawn, drawn_graph, drawn_matrix, drawn_order, drawn_tree, drawn_workflow, graph_text, listed, tree_text

try:
    from scipy import io
except ImportError:
    io = None

MOST = 10_000
"""How much is searched for plans of graphs."""


class Works(Against):
    kind: Any
    drawn_work: Callable[[Random], Drawn]

    def inputs(self, share: int) -> Iterator[Input]:
        for draw in self.draws(share):
            drawn = self.drawn_work(draw)
            self.case += f": {drawn.text}"
            yield Input(drawn, ways(self.kind, drawn, draw), drawn_order(draw, drawn.before), draw)


class Trees(Works):
    option, kind, drawn_work = "tree", Tree, staticmethod(drawn_tree)

    def test_what_the_program_says(self) -> None:
        for one in self.inputs(40):
            self.check_common(one)
            self.check_plans(one)
            self.check_disks_and_segments(one)
            self.check_calls(one)
            self.check_core(one)
            self.check_none(one)

    def check_plans(self, one: Input) -> None:
        drawn, it, order, _ = one
        plan = it.work.plan(evidence=True)
        self.assertEqual(self.plan_text(it, plan, 1), self.says_of(drawn.text, "plan").report)
        it.work.check(plan)
        self.assertEqual((it.numbers(it.work.plan().order), it.work.plan().peak), (it.numbers(plan.order), plan.peak))
        best, peak = it.work.post()
        text = f"peak {peak}\norder {len(best)}\n{listed(it.numbers(best))}end\n"
        self.assertEqual(text, self.says_of(drawn.text, "post").report)
        fewer = plan._replace(evidence=type(plan.evidence)(*(column[:-1] for column in plan.evidence)))
        for other in (plan._replace(order=it.told(order)), fewer):
            said = self.says_of(drawn.text, "check", plan=self.plan_text(it, other, 1))
            self.refused_alike(it.work.check, (other,), said)

    def check_disks_and_segments(self, one: Input) -> None:
        drawn, it, order, draw = one
        bound = draw.randint(0, it.work.replay(it.told(order)))
        said = self.says_of(drawn.text, "spill", "--bound", bound, order=listed(order))
        columns = [drawn.columns[name] for name in ("parent", "out", "extra")]
        if said.status:
            self.refused_alike(it.work.spill, (it.told(order), bound), said)
            self.refused_alike(memplan.spill, (*columns, order, bound, drawn.columns["share"]), said)
        else:
            spill = it.work.spill(it.told(order), bound)
            self.assertEqual(spill_text(spill.volume, spill.amounts), said.report)
            amounts, volume = memplan.spill(*columns, given(draw, order), bound, share=drawn.columns["share"])
            self.assertEqual(spill_text(volume, amounts), said.report)
        segments = it.work.segments()
        self.assertEqual(list(segments), it.names)
        self.assertEqual(self.segments_text(list(segments.values())), self.says_of(drawn.text, "segments").report)

    def check_calls(self, one: Input) -> None:
        drawn, _, order, draw = one
        columns = [given(draw, drawn.columns[name]) for name in ("parent", "out", "extra")]
        share = given(draw, drawn.columns["share"])
        made, peak = memplan.plan(*columns, share)
        certificate = memplan.certify(*columns, share)
        self.assertEqual((list(made), peak), (list(certificate.order), certificate.peak))
        self.assertEqual(certificate_text(certificate), self.says_of(drawn.text, "plan").report)
        memplan.check(*columns, certificate, share)
        best, highest = memplan.best_postorder(*columns, share)
        text = f"peak {highest}\norder {len(best)}\n{listed(best)}end\n"
        self.assertEqual(text, self.says_of(drawn.text, "post").report)
        self.assertEqual(f"peak {memplan.replay(*columns, order, share)}\n", self.says_of(drawn.text, "replay", order=listed(order)).report)
        wrong = wrong_order(draw, order)
        said = self.says_of(drawn.text, "replay", order=listed(wrong))
        self.refused_alike(memplan.replay, (*columns, given(draw, wrong), share), said)
        for other in (certificate._replace(peak=peak + 1), certificate._replace(order=order), altered(draw, certificate)):
            said = self.says_of(drawn.text, "check", plan=certificate_text(other))
            self.refused_alike(memplan.check, (*columns, other, share), said)

    def check_core(self, one: Input) -> None:
        drawn, _, order, draw = one
        columns, share = [drawn.columns[name] for name in ("parent", "out", "extra")], drawn.columns["share"]
        peak, workers = memplan.replay(*columns, order, share), draw.randint(1, 3)
        for bound in (peak + draw.choice([0, 2, 20]), max(peak - 1, 0)):
            said = self.says_of(drawn.text, "simulate", "--bound", bound, "--workers", workers, order=listed(order))
            told = (*columns, order, bound, workers, share)
            if said.status:
                self.refused_alike(memplan.Core.of_tree, told, said)
            else:
                core = memplan.Core.of_tree(*told)
                self.assertEqual(simulated(core, order, drawn.columns["time"], workers), said.report)

    def check_none(self, one: Input) -> None:
        """Trees with one number that may be wrong."""
        drawn, _, order, draw = one
        columns: Dict[str, List[int]] = {name: list(values) for name, values in drawn.columns.items()}
        at, name = draw.randrange(len(order)), draw.choice(["parent", "out", "extra", "share"])
        columns[name][at] = draw.choice([0, at + 1, len(order) + 1, 40, 2**40, 2**40 + 1]) if name != "parent" else draw.randint(0, 13)
        said = self.says_of(tree_text(columns), "post")
        told = [columns[it] for it in ("parent", "out", "extra", "share")]
        self.refused_alike(memplan.best_postorder, told, said)
        self.refused_alike(memplan.plan, told, said)
        tree = Tree(**columns)
        self.refused_alike(tree.post, (), said)
        self.refused_alike(tree.segments, (), said)


def certificate_text(it: Certificate) -> str:
    return "\n".join(["plan 1", f"order {len(it.order)}", *map(str, it.order), f"peak {it.peak}", *claim_lines(it.claims), "end", ""])


def altered(draw: Random, certificate: Certificate) -> Certificate:
    """With one claim that says a little more, or is left out."""
    if not certificate.claims:
        return certificate
    claims: List[Any] = list(certificate.claims)
    at = draw.randrange(len(claims))
    position, backward, bound, rest = claims.pop(at)
    if draw.random() < 0.7:
        claims.insert(at, (position, backward, bound + draw.randint(0, 2), rest + draw.randint(0, 1)))
    return certificate._replace(claims=claims)


class Graphs(Works):
    option, kind, drawn_work = "graph", Graph, staticmethod(drawn_graph)

    def test_what_the_program_says(self) -> None:
        reduced = 0
        for one in self.inputs(25):
            self.check_common(one)
            for start in (None, one.order):
                self.check_plans(one, start)
            self.check_disks(one)
            reduced += self.check_reduction(one)
            self.check_calls(one)
            self.check_systems(one)
        self.assertGreater(reduced, INPUTS // 40)

    def check_plans(self, one: Input, start: Any) -> None:
        drawn, it, _, _ = one
        if start == []:
            return
        begun, files = (None, {}) if start is None else (it.told(start), {"order": listed(start)})
        plan = it.work.plan(begun, MOST, evidence=True)
        self.assertEqual(self.plan_text(it, plan, 3), self.says_of(drawn.text, "plan", "--effort", MOST, **files).report)
        it.work.check(plan, workers=2)
        short = it.work.plan(begun, MOST)
        self.assertEqual((it.numbers(short.order), *short[1:4]), (it.numbers(plan.order), plan.peak, plan.bound, None))
        low = plan._replace(peak=plan.peak + 1)
        self.refused_alike(it.work.check, (low,), self.says_of(drawn.text, "check", plan=self.plan_text(it, low, 3)))
        found = it.work.bound(begun, MOST)
        head = "" if found.peak is None else f"peak {found.peak}\n"
        text = self.plan_text(it, Plan([], 0, found.bound, found.evidence), 3)
        wanted = self.says_of(drawn.text, "bound", "--effort", MOST, **files).report
        self.assertEqual(head + text[text.index("bound ") :], wanted)

    def check_disks(self, one: Input) -> None:
        drawn, it, order, draw = one
        bound = draw.randint(0, it.work.replay(it.told(order)))
        said = self.says_of(drawn.text, "spill", "--bound", bound, order=listed(order))
        if said.status:
            self.refused_alike(it.work.spill, (it.told(order), bound), said)
            return
        spill: Gaps = it.work.spill(it.told(order), bound)
        gaps = [f"{item + 1} {0 if reader is None else it.number[reader]} {amount}" for item, reader, amount in spill.gaps]
        self.assertEqual(f"volume {spill.volume}\ngaps {len(gaps)}\n{listed(gaps)}end\n", said.report)

    def check_reduction(self, one: Input) -> bool:
        """Whether there is one."""
        drawn, it, order, _ = one
        said = self.says_of(drawn.text, "reduce")
        if said.status:
            self.refused_alike(it.work.reduce, (), said)
            return False
        workflow = it.work.reduce()
        names = [name if it.number.get(name) else f"join {len(order) + name.number}" for name in workflow.names]
        told = [f"# {at} {it.number.get(name, str(name).replace('join ', ''))}" for at, name in enumerate(names, 1)]
        self.assertEqual(Workflow(workflow.positions).text() + listed(told), said.report)
        kept = [task for task in workflow.plan().order if it.number.get(task)]
        self.assertEqual(it.work.replay(kept), it.work.plan().peak)
        return True

    def check_calls(self, one: Input) -> None:
        """Of the same graph without shares, which the calls on arrays do not take."""
        drawn, _, order, draw = one
        extra, items, time = (drawn.columns[name] for name in ("extra", "items", "time"))
        text = graph_text(extra, items, [0] * len(extra), time)
        shared = [draw.choice([SharedItem, lambda *it: it])(size, producer, given(draw, readers)) for size, producer, readers in items]
        peak = memplan.replay_shared(given(draw, extra), shared, given(draw, order))
        self.assertEqual(f"peak {peak}\n", self.says_of(text, "replay", order=listed(order)).report)
        start = draw.choice([None, order]) if order else None
        plan = memplan.plan_shared(extra, shared, start, MOST)
        files = {} if start is None else {"order": listed(start)}
        lines = self.says_of(text, "plan", "--effort", MOST, **files).report.split("\n")
        wanted = ["plan 3", f"order {len(plan.order)}", *map(str, plan.order), f"peak {plan.peak}", f"bound {plan.bound}"]
        self.assertEqual(wanted, lines[: len(wanted)])
        wrong = wrong_order(draw, order)
        said = self.says_of(text, "replay", order=listed(wrong))
        self.refused_alike(memplan.replay_shared, (extra, shared, wrong), said)
        if wrong:
            self.refused_alike(memplan.plan_shared, (extra, shared, wrong, MOST), said)
        self.check_core(text, (extra, shared), memplan.Core.of_shared, peak, one)

    def check_systems(self, one: Input) -> None:
        """Of items that one task reads at most."""
        drawn, _, order, draw = one
        extra, time = drawn.columns["extra"], drawn.columns["time"]
        items = [(size, producer, readers[:1]) for size, producer, readers in drawn.columns["items"]]
        text = graph_text(extra, items, [0] * len(extra), time)
        rows = [draw.choice([tuple, list])([size, producer, *(readers or [0])]) for size, producer, readers in items]
        peak = memplan.replay_system(extra, rows, order)
        self.assertEqual(f"peak {peak}\n", self.says_of(text, "replay", order=listed(order)).report)
        self.check_core(text, (extra, rows), memplan.Core.of_system, peak, one)

    def check_core(self, text: str, work: Tuple[Any, Any], begin: Any, peak: int, one: Input) -> None:
        drawn, _, order, draw = one
        bound, workers = max(peak + draw.choice([-1, 0, 2, 20]), 0), draw.randint(1, 3)
        said = self.says_of(text, "simulate", "--bound", bound, "--workers", workers, order=listed(order))
        if said.status:
            self.refused_alike(begin, (*work, order, bound, workers), said)
        else:
            self.assertEqual(simulated(begin(*work, order, bound, workers), order, drawn.columns["time"], workers), said.report)


class Workflows(Works):
    option, kind, drawn_work = "workflow", Workflow, staticmethod(drawn_workflow)

    def test_what_the_program_says(self) -> None:
        for one in self.inputs(15):
            self.check_common(one)
            self.check_plans_disks_and_segments(one)

    def check_plans_disks_and_segments(self, one: Input) -> None:
        drawn, it, order, draw = one
        plan = it.work.plan()
        self.assertEqual(self.plan_text(it, plan, 1), self.says_of(drawn.text, "plan").report)
        it.work.check(plan)
        other = plan._replace(order=it.told(order))
        self.refused_alike(it.work.check, (other,), self.says_of(drawn.text, "check", plan=self.plan_text(it, other, 1)))
        self.assertEqual(self.segments_text(it.work.segments()), self.says_of(drawn.text, "segments").report)
        bound = draw.randint(0, it.work.replay(it.told(order)))
        said = self.says_of(drawn.text, "spill", "--bound", bound, order=listed(order))
        if said.status:
            self.refused_alike(it.work.spill, (it.told(order), bound), said)
        else:
            spill = it.work.spill(it.told(order), bound)
            self.assertEqual(spill_text(spill.volume, spill.amounts), said.report)


class Matrices(Against):
    option = "matrix"

    def test_what_the_program_says(self) -> None:
        for draw in self.draws(20):
            matrix = drawn_matrix(draw)
            self.case += f": {matrix.text}"
            order = draw.choice([None, draw.sample(range(matrix.count), matrix.count)])
            shape, in_place = draw.choice(["triangle", "square"]), draw.choice([True, False])
            zeros = draw.choice([None, None, 0, 1, 5])
            words: List[object] = ["--shape", shape, "--inplace", "yes" if in_place else "no"]
            words += [] if zeros is None else ["--amalgamate", zeros]
            words += ["--ordering", "mindeg"] if order is None else []
            files = {} if order is None else {"perm": listed([column + 1 for column in order])}
            pattern = given(draw, matrix.starts), given(draw, matrix.rows)
            told = None if order is None else given(draw, order)
            made = memplan.fronts(pattern, told, shape, in_place, zeros)
            names = ("parent", "out", "extra", "share")
            columns = {name: list(map(int, getattr(made, name))) for name in names}
            text = tree_text({**columns, "time": list(map(int, made.columns))}, 2 if any(made.share) else 1)
            self.assertEqual(text, self.says_of(matrix.text, "tree", *words, **files).report)
            tree = Tree.of_matrix(pattern, told, shape, in_place, zeros, base=draw.randint(0, 1))
            self.assertEqual((columns, list(made.columns)), ({name: list(getattr(tree, name)) for name in names}, list(tree.time)))
            said = self.says_of(matrix.text, "columns", *words, **files).report.split("\n")[1:-2]
            own = [list(map(int, line.split())) for line in said]
            found = [[column + 1 for column in front] for front in map(list, tree.columns())]
            if order is None or zeros is not None:  # ties of minimum degree, and branches in one front, come in any order
                self.assertEqual(list(map(sorted, found)), list(map(sorted, own)))
            else:
                self.assertEqual(found, own)
            self.check_analysis(draw, matrix.text, words, files, pattern, memplan.analyse(pattern, told, shape, in_place, zeros))
            self.check_elimination(draw, tree, Tree.of_matrix(pattern, told))
            if zeros is None:
                self.check_rows(draw, matrix.text, tree, [column - 1 for front in own for column in front])

    def check_analysis(
        self, draw: Random, text: str, words: List[object], files: Dict[str, str], pattern: Any, made: memplan.Analysis
    ) -> None:
        """The columns along an order of the fronts are those that the program prints, and the order of minimum degree is the one that it takes."""
        fronts = (memplan.plan if draw.choice([True, False]) else memplan.best_postorder)(made.parent, made.out, made.extra, made.share)[0]
        along = [int(column) + 1 for column in memplan.columns(made.order, made.front_of, fronts)]
        said = self.says_of(text, "columns", "--print", "perm", *words, **files, order=listed(list(map(int, fronts))))
        self.assertEqual(listed(along), said.report)
        if not files:
            degree = listed([int(column) + 1 for column in memplan.minimum_degree(pattern)])
            same = [word for word in words if word not in ("--ordering", "mindeg")]
            self.assertEqual(self.says_of(text, "tree", *same, perm=degree).report, self.says_of(text, "tree", *words).report)

    @unittest.skipUnless(io, "there is no scipy")
    def test_a_matrix_file_by_scipy(self) -> None:
        path = TOP / "examples/grid.mtx"
        tree = Tree.of_matrix(io.mmread(path))
        self.assertEqual(tree.text(), self.says_of(path.read_text(), "tree", "--ordering", "mindeg").report)

    def check_elimination(self, draw: Random, tree: Tree, plain: Tree) -> None:
        """The columns along a plan, or the best postorder, have the fronts that were not merged; numbers of these may be others."""
        assert tree.pattern is not None
        again = Tree.of_matrix(tree.pattern, tree.elimination(draw.choice([tree.plan().order, tree.post()[0]])))
        fronts = [sorted((sorted(map(int, own)), size) for own, size in zip(it.columns(), it.extra)) for it in (plain, again)]
        self.assertEqual(*fronts)

    def check_rows(self, draw: Random, text: str, tree: Tree, placed: List[int]) -> None:
        bound, workers = draw.randint(1, 30), draw.randint(1, 3)
        files = {"perm": listed([column + 1 for column in placed])}
        said = self.says_of(text, "fronts", "--bound", bound, "--workers", workers, **files)
        if said.status:
            self.refused_alike(tree.fronts, (bound, workers), said)
            return
        made = tree.fronts(bound, workers)
        _, _, used, *lines, _, _ = said.report.split("\n")
        base = tree.naming.base
        rounds = [[front - 1 + base for front in map(int, line.split())] for line in lines[: len(made.rounds)]]
        rows = [sorted(placed[int(place) - 1] for place in line.split()) for line in lines[len(made.rounds) :]]
        self.assertEqual([list(it) for it in made.rounds], rounds)
        self.assertEqual(([sorted(it) for it in map(list, made.rows)], f"used {made.used}"), (rows, used))


if __name__ == "__main__":
    unittest.main()
