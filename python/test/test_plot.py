"""Pictures: what they show is what `replay` and `simulate` say, nothing stands outside the axes, and nothing else of matplotlib changes."""

from __future__ import annotations

import copy
import pickle
import subprocess
import sys
import tempfile
import time
import unittest
from pathlib import Path
from typing import Any, Dict

import memplan
from memplan import Graph, Plan, Tree, Workflow
from samples import EXTRA, FORK, FORKED, NAMES, OUT, PARENT, Case
from works import works

try:
    import matplotlib
    import numpy
except ImportError:
    raise unittest.SkipTest("there is no matplotlib") from None

matplotlib.use("Agg")
from matplotlib import pyplot  # noqa: E402
from memplan import _plot_look as look  # noqa: E402
from memplan import _systems, plot  # noqa: E402

TOP = Path(__file__).resolve().parents[2]


class Pictures(Case):
    def tearDown(self) -> None:
        pyplot.close("all")

    def assert_inside(self, axes: Any) -> None:
        """All that is written in the axes lies inside them, but for the title and what the axes themselves have."""
        axes.get_figure().draw_without_rendering()
        box = axes.get_window_extent()
        legend = axes.get_legend()
        for told in [*axes.texts, *axes.patches, *([legend] if legend else [])]:
            extent = told.get_window_extent()
            if extent.width or extent.height:
                where = f"{told}: {extent} is not in {box}"
                self.assertTrue(box.x0 - 1 <= extent.x0 and extent.x1 <= box.x1 + 1, where)
                self.assertTrue(box.y0 - 1 <= extent.y0 and extent.y1 <= box.y1 + 1, where)


class Against(Pictures):
    """What is drawn is what the library and the program say."""

    def test_memory_is_that_of_replay(self) -> None:
        for work, drawn, order, _ in works(12):
            course = _systems.course_of(_systems.system_of(work), numpy.array(order, "int64"))
            self.assertEqual(course.peak, work.replay(order), drawn.text)
            self.assertEqual(len(course.between), len(order) + 1)
            self.assertTrue((course.between >= 0).all(), drawn.text)

    def test_blocks_that_are_there_are_the_memory(self) -> None:
        for work, drawn, order, _ in works(12):
            system, tasks = _systems.system_of(work), numpy.array(order, "int64")
            lives = _systems.lives_of(system, tasks)
            for at, level in enumerate(_systems.course_of(system, tasks).between):
                there = (lives.starts <= at) & (at < lives.ends)
                self.assertEqual(int(system.sizes[there].sum()), int(level), drawn.text)

    def test_runs_use_and_book_what_simulate_says(self) -> None:
        for work, drawn, order, draw in works(12):
            run = work.simulate(order, work.replay(order) + draw.choice([0, 5, 60]), draw.randint(1, 4))
            system = _systems.system_of(work)
            events = plot._events(work, run)
            levels = plot._levels(work, run, events)  # which compares them
            self.assertEqual((int(levels.used.max()), int(levels.booked.max())), (run.used, run.booked), drawn.text)
            self.assertEqual(int(levels.used[-1]), int(_systems.course_of(system, numpy.array(order, "int64")).between[-1]))

    def test_all_is_inside(self) -> None:
        for at, (work, _, order, draw) in enumerate(works(12)):
            if at % 4:
                continue
            names = [draw.choice(["x", "align_3", "a very long name of a task", "$\\x$", "ü\n"]) + str(k) for k in range(len(order))]
            named = work.renamed(names) if isinstance(work, Workflow) else type(work)(**{**self.columns(work), "names": names})
            told = [names[task - 1] for task in order]
            plan = Plan(told, named.replay(told), 0)
            self.assert_inside(plan.plot(work=named))
            self.assert_inside(plan.plot(work=named, by="time", bound=2 * plan.peak))
            for axes in named.simulate(told, plan.peak + 5, 2).plot():
                self.assert_inside(axes)
            if not isinstance(named, Workflow):
                self.assert_inside(named.plot())
            pyplot.close("all")

    @staticmethod
    def columns(work: Any) -> Dict[str, Any]:
        if isinstance(work, Tree):
            return {name: getattr(work, name) for name in ("parent", "out", "extra", "share", "time")}
        return {"extra": work.extra, "items": work.items, "share": work.share, "time": work.time}


class Drawn(Pictures):
    def setUp(self) -> None:
        self.tree = Tree(PARENT, OUT, EXTRA, names=NAMES)
        self.plan = self.tree.plan()

    def test_the_peak_is_dark_among_many(self) -> None:
        count = 20_000
        tree = Tree([0] * count, [0] * count, [1000 if at == 9_000 else 10 for at in range(count)])
        axes = tree.plan()._replace(order=numpy.arange(1, count + 1)).plot()
        figure = axes.get_figure()
        figure.canvas.draw()
        pixels = numpy.asarray(figure.canvas.buffer_rgba())[:, :, :3].astype(int)
        is_dark = numpy.abs(pixels - 255 * numpy.array(look.darker(look.RED))).max(axis=2) < 20
        self.assertGreater(is_dark.sum(axis=0).max(), 100)

    def test_axes_that_are_given_come_back_and_nothing_else_changes(self) -> None:
        before = dict(matplotlib.rcParams)
        figure, rows = pyplot.subplots(8, 1, figsize=(8, 20))
        run = self.tree.simulate(self.plan, bound=15, workers=2)
        self.assertIs(self.plan.plot(rows[0]), rows[0])
        self.assertEqual(run.plot((rows[1], rows[2])), (rows[1], rows[2]))
        self.assertIs(self.tree.plot(rows[3]), rows[3])
        self.assertIs(self.tree.segments()["b"].plot(rows[4]), rows[4])
        self.assertIs(Graph(FORK, FORKED).plot(rows[5]), rows[5])
        self.assertIs(plot.makespans([run], rows[6]), rows[6])
        self.assertIs(plot.workers(self.tree, run, rows[7]), rows[7])
        self.assertEqual(pyplot.get_fignums(), [figure.number])
        self.assertEqual(dict(matplotlib.rcParams), before)
        for axes in rows:
            self.assert_inside(axes)

    def test_units_legends_and_titles(self) -> None:
        axes = self.plan.plot(unit="MB", label="mine")
        self.assertEqual((axes.get_title(loc="left"), axes.get_ylabel()), ("mine: peak 11 MB", "memory (MB)"))
        told = [it.get_text() for it in axes.get_legend().get_texts()]
        self.assertEqual(told, ["while a task runs", "between tasks", "peak 11"])
        self.assertEqual(self.plan.plot(by="time").get_xlabel(), "time")
        fronts = Tree.of_matrix(([0, 3, 3, 3, 3], [1, 2, 3]))
        self.assertEqual(fronts.plan().plot().get_ylabel(), "memory (entries)")
        graph = Graph(FORK, FORKED)
        told = [it.get_text() for it in graph.plan()._replace(bound=3).plot().get_legend().get_texts()]
        self.assertIn("no order is below 3", told)
        _, below = self.tree.simulate(self.plan, bound=15, workers=2).plot()
        self.assertIn("bound 15", [it.get_text() for it in below.get_legend().get_texts()])

    def test_graphs_of_many_tasks_are_told_by_levels(self) -> None:
        count = 50
        items = [(at, at, [at + 1]) for at in range(1, count)]
        axes = Graph([0] * count, items).plot()
        self.assertEqual(axes.get_title(loc="left"), "graph of 50 tasks in 50 levels")
        self.assert_inside(axes)

    def test_nothing_to_draw_is_drawn(self) -> None:
        nothing = Graph([], [])
        for axes in (nothing.plan().plot(), *nothing.simulate([], 0, 1).plot(), nothing.plot(), Workflow([("data", 7)]).plan().plot()):
            self.assert_inside(axes)

    def test_what_is_no_order_and_no_run_is_refused(self) -> None:
        run = self.tree.simulate(self.plan, bound=15, workers=2)
        words = "order[1], task 'top': a task stands before one that produces what it consumes"
        self.says(memplan.TaskRefused, words, plot.memory, self.tree, ["a", "top"])
        told = "simulation: it is no run of these tasks, each activated, started and finished once, its time later"
        self.says(ValueError, told, run._replace(what=["start"] * 15).plot)
        self.says(ValueError, told, run._replace(time=run.time * 2).plot)
        self.says(ValueError, told, run._replace(task=["a"] * 15).plot)
        self.says(ValueError, "simulation: what it has used and booked is not that of such a run", run._replace(used=13).plot)
        self.says(ValueError, "courses: there is no order", plot.orders, self.tree, {})
        self.says(TypeError, "work: a int is no Tree, Graph or Workflow", _systems.system_of, 7)
        cyclic = Tree([2, 1], [1, 1], [1, 1])
        self.assertEqual(self.refused(cyclic.plot), (3, 17, 1, 0))
        words = "work: a Plan that was made by hand has none; say of which tasks it is"
        self.says(TypeError, words, Plan(NAMES, 15, 11).plot)

    def test_results_know_their_work_and_copies_do_not(self) -> None:
        run = self.tree.simulate(self.plan, bound=15, workers=2)
        self.assertIs(self.plan.work, self.tree)
        self.assertEqual((run.work, run.bound, run.workers), (self.tree, 15, 2))
        self.assertIs(self.plan._replace(peak=7).work, self.tree)
        for it in (self.plan, run):
            for made in (pickle.loads(pickle.dumps(it)), copy.copy(it)):
                self.assertIs(type(made), type(it))
                self.assertIsNone(made.work)
                self.assertEqual([str(part) for part in made], [str(part) for part in it])
        self.assertEqual(self.plan, Plan(list(self.plan.order), 11, 11))
        self.assertEqual(hash(Plan((), 0, 0)), hash(((), 0, 0, None, None)))

    def test_200_000_tasks_take_seconds(self) -> None:
        count = 200_000
        draw = numpy.random.default_rng(1)
        parent = numpy.minimum(numpy.arange(1, count + 1) + draw.integers(1, 10, count), count)
        parent[-1] = 0
        tree = Tree(parent, draw.integers(0, 100, count), draw.integers(0, 100, count))
        plan, start = tree.plan(), time.process_time()
        for name, axes in (("plan", plan.plot()), ("tree", tree.plot())):
            with tempfile.TemporaryDirectory() as folder:
                picture = Path(folder) / f"{name}.svg"
                axes.get_figure().savefig(picture)
                self.assertLess(picture.stat().st_size, 1_000_000)
        self.assertLess(time.process_time() - start, 15)


class Missing(Case):
    def test_what_is_missing_is_told_with_the_extra(self) -> None:
        """As where there is no matplotlib, or no numpy either."""
        for lacking in ("matplotlib", "numpy"):
            with tempfile.TemporaryDirectory() as folder:
                (Path(folder) / f"{lacking}.py").write_text("raise ImportError\n")
                words = "import memplan; memplan.Tree([0], [1], [1]).plan().plot()"
                path = f"{folder}:{Path(memplan.__file__).parents[1]}"
                environment = {"PYTHONPATH": path, "PATH": "/usr/bin:/bin", "MEMPLAN_LIBRARY": memplan._library()}
                done = subprocess.run([sys.executable, "-B", "-c", words], env=environment, stderr=subprocess.PIPE, text=True)
                self.assertEqual(done.returncode, 1)
                self.assertIn("pip install 'memplan[plot]'", done.stderr.splitlines()[-1])
                self.assertIn(lacking, done.stderr.splitlines()[-1])


if __name__ == "__main__":
    unittest.main()
