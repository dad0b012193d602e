#!/usr/bin/python3
"""Tests of draw.py: what its pictures show, how it copes with much, which files it refuses.

usage: test_draw.py [-v]

With MEMPLAN_PROGRAM, the built program, what that prints is drawn too. Everything is written into
a temporary folder.
"""
import contextlib
import io
import json
import os
import random
import subprocess
import sys
import tempfile
import time
import unittest
from pathlib import Path
from typing import Optional
from xml.etree import ElementTree

TOOLS = Path(__file__).resolve().parent.parent
EXAMPLES = TOOLS.parent / "examples"
sys.path[:0] = [str(TOOLS), str(TOOLS / "fuzz")]

try:
    import matplotlib
except ImportError:
    print("not run: test_draw.py: matplotlib is missing", file=sys.stderr)
    sys.exit(0)

import draw

try:
    from drawing import drawn
except ImportError as lack:
    print(f"not run: test_draw.py: {lack}", file=sys.stderr)
    sys.exit(0)

import models
import numpy as np
from drawing import order, system, text
from drawing.look import STYLE
from matplotlib import image, pyplot
from memplan import _plot_look as look
from memplan import _plot_run as run
from memplan import _systems as systems

PROGRAM = os.environ.get("MEMPLAN_PROGRAM")
FIVE = str(EXAMPLES / "five.tree")
ORDER = [1, 3, 2, 4, 5]
SECONDS, BYTES = 30, 1_000_000


class Drawing(unittest.TestCase):
    """Tests with a folder to write into."""

    def setUp(self) -> None:
        folder = tempfile.TemporaryDirectory()
        self.addCleanup(folder.cleanup)
        self.folder = Path(folder.name)
        self.addCleanup(pyplot.close, "all")

    def file(self, name: str, content: str | bytes) -> str:
        path = self.folder / name
        path.write_bytes(content.encode() if isinstance(content, str) else content)
        return str(path)

    def picture(self, kind: str, words: list[str], ending: str = "svg") -> Path:
        """The picture that is drawn from these words."""
        path = self.folder / f"{kind}.{ending}"
        self.assertEqual(draw.main([kind, str(path), *words]), 0)
        return path

    def figure(self, kind: str, words: list[str]) -> pyplot.Figure:
        """The same as matplotlib has it."""
        with pyplot.rc_context(STYLE):
            drawn.draw(draw.parser_of_words().parse_args([kind, str(self.folder / "x.png"), *words]))
        return pyplot.gcf()


def forest(lengths: list[int], extra: int = 1) -> str:
    """A tree file of single nodes, which leave nothing."""
    nodes = "".join(f"0 0 {extra} {length}\n" for length in lengths)
    return f"tree 1\nnodes {len(lengths)}\n{nodes}end\n"


def busy_run(count: int, workers: int) -> tuple[str, str]:
    """A forest of nodes of length 1, and its run on workers of whom none ever waits."""
    assert count % workers == 0
    lines = []
    for moment in range(count // workers):
        tasks = range(moment * workers + 1, (moment + 1) * workers + 1)
        for word, when in (("activate", moment), ("start", moment), ("finish", moment + 1)):
            lines += [f"{when} {word} {task}\n" for task in tasks]
    head = f"makespan {count // workers}\nused {workers}\nbooked {workers}\nevents {len(lines)}\n"
    return forest([1] * count), head + "".join(lines) + "end\n"


def spiked(count: int, at: int, height: int) -> str:
    """A tree file of single nodes of which each needs 10, but one a height."""
    nodes = [f"0 0 {height if node == at else 10} 1\n" for node in range(1, count + 1)]
    return f"tree 1\nnodes {count}\n{''.join(nodes)}end\n"


def pixels_of(path: Path) -> np.ndarray:
    return np.rint(255 * image.imread(path)[:, :, :3]).astype(int)


SHARED = EXAMPLES / "shared.graph"


class Graphs(Drawing):
    """Task graphs, of which an item may have several readers."""

    def test_memory_by_hand(self) -> None:
        # while task 1 runs there is what it makes, 10; then 10 and 2 for each of the three, 16 at the last; and 6 while task 5 reads
        for orders in (["x=1..n"], [f"x={EXAMPLES / 'shared.plan'}"], [f"x={EXAMPLES / 'shared.order'}"]):
            figure = self.figure("memory", ["--graph", str(SHARED), *orders])
            axes = figure.axes[0]
            self.assertEqual(axes.get_title(loc="left"), "x: peak 16 units")
            during, between = (patch.get_data().values.tolist() for patch in axes.patches[:2])
            self.assertEqual(during, [10, 12, 14, 16, 6])
            self.assertEqual(between, [0, 10, 12, 14, 6])
            self.assertEqual(figure._suptitle.get_text(), "memory over time: shared.graph, 5 tasks")

    def test_a_run_and_version_1(self) -> None:
        # task 1 makes 3, which the end keeps
        events = "0 activate 1\n0 start 1\n2 finish 1\n"
        report = self.file("x.run", f"makespan 2\nused 4\nbooked 4\nevents 3\n{events}end\n")
        graph = self.file("x.graph", "graph 1\ntasks 1\n1 0 2\narcs 1\n1 0 3\nend\n")
        figure = self.figure("run", ["--graph", graph, report])
        self.assertEqual(figure.axes[1].get_title(loc="left"), "most used 4 · most booked 4 units")

    def test_what_is_no_graph_is_refused(self) -> None:
        head = "graph 2\ntasks 2\n0 0 1\n0 0 1\n"
        for what, line, told in [
            ("graph 3\n", 1, "whose first line is 'graph 1' or 'graph 2'"),
            ("graph 2\ntasks 1\n0 0\n", 3, "extra share time"),
            (f"{head}arcs 0\nend\n", 5, "'items' and a number"),
            (f"{head}items 1\n3\nend\n", 6, "size from reader reader .."),
            (f"{head}items 1\n3 1 x\nend\n", 6, "size from reader reader .."),
            (f"{head}items 1\nend\n", 7, "the file ends here"),
            (f"{head}items 1\n3 1\n3 1\nend\n", 7, "'end'"),
        ]:
            with self.subTest(what):
                self.check_refused(what, f"x.graph, line {line}: expected ", told)
        self.check_refused(f"{head}items 2\n3 1\n3 1 1\nend\n", "x.graph: expected a graph that memplan takes; item 2: ", "read by the task")

    def check_refused(self, content: str, *told: str) -> None:
        error = io.StringIO()
        with contextlib.redirect_stderr(error):
            words = ["memory", str(self.folder / "x.svg"), "--graph", self.file("x.graph", content), "1..n"]
            self.assertEqual(draw.main(words), 3)
        for word in told:
            self.assertIn(word, error.getvalue())


class Looks(Drawing):
    """Titles, and the mark of a peak."""

    def test_titles(self) -> None:
        segments = self.file("x.segments", "segments 1\n1 F 0\n1 R 0\nend\n")
        for kind, words in [("memory", ["--tree", FIVE, "1..n"]), ("fronts", [FIVE]), ("stairs", ["--number", "1", segments])]:
            figure = self.figure(kind, ["--title", "My own $words$", *words])
            axes = figure.axes[0]
            self.assertIn("My own $words$", [axes.get_title(loc="left"), figure._suptitle.get_text() if figure._suptitle else ""])

    def test_the_mark_of_a_peak_is_inside_the_axes_and_above_the_peak(self) -> None:
        for at in (1, 2, 150, 299, 300):
            tree = self.file("spiked.tree", spiked(300, at, 500))
            figure = self.figure("memory", ["--tree", tree, "1..n"])
            axes = figure.axes[0]
            figure.canvas.draw()
            (mark,) = (line for line in axes.lines if line.get_label().startswith("peak"))
            box, inside = mark.get_window_extent(), axes.get_window_extent()
            self.assertTrue(inside.x0 <= box.x0 and box.x1 <= inside.x1, (at, box, inside))
            self.assertEqual((mark.get_ydata()[0], mark.get_marker()), (500, matplotlib.markers.CARETDOWN))

    def test_what_a_peak_holds_is_darker_than_what_it_needs(self) -> None:
        # before task 3 there are 5, and it needs 10 beside: with the edge three patches
        axes = self.figure("memory", ["--tree", FIVE, "x=1..n"]).axes[0]
        held, needed, edge = axes.patches[2:]
        self.assertEqual([(it.get_y(), it.get_height()) for it in (held, needed, edge)], [(0, 5), (5, 10), (0, 15)])
        self.assertLess(sum(held.get_facecolor()), sum(needed.get_facecolor()))
        self.assertFalse(edge.get_fill())


class BusyWorkers(Drawing):
    """A worker that works looks so."""

    def test_who_always_works_is_busy_in_every_column(self) -> None:
        starts = np.arange(5000) // 5
        bars = run.Bars(starts, starts + 1, np.arange(5000) % 5)
        for columns in (7, 1000, 3000):
            shares = run.busy_shares(bars, 1000, columns)
            self.assertEqual(shares.shape, (5, columns))
            np.testing.assert_allclose(shares, 1, atol=1e-9)

    def test_shares_by_hand(self) -> None:
        # worker 0 works from 0 to 3 and from 5 to 8, worker 1 from 2 to 4
        bars = run.Bars(np.array([0, 5, 2]), np.array([3, 8, 4]), np.array([0, 0, 1]))
        shares = run.busy_shares(bars, 8, 4)
        np.testing.assert_allclose(shares, [[1, 0.5, 0.5, 1], [0, 1, 0, 0]], atol=1e-9)

    def busy_part(self, count: int, workers: int) -> tuple[int, float]:
        """How many rows of bars a picture shows, and how much of these rows is coloured."""
        tree, report = busy_run(count, workers)
        words = ["--tree", self.file("busy.tree", tree), self.file("busy.run", report)]
        pixels = pixels_of(self.picture("run", words, "png"))
        low, high = pixels.min(axis=2), pixels.max(axis=2)
        # letters and axes are black or grey
        is_coloured = high - low > 40
        rows = np.flatnonzero(is_coloured.sum(axis=1) > 0.3 * is_coloured.shape[1])
        bands = np.split(rows, np.flatnonzero(np.diff(rows) > 1) + 1)
        # the last band is used memory; a thin one is a line
        bands = [band[2:-2] for band in bands[:-1] if len(band) > 8]
        self.assertTrue(bands)
        columns = np.flatnonzero(is_coloured[bands[0][0]])
        shown = is_coloured[:, columns[0] : columns[-1] + 1]
        return len(bands), float(shown[np.concatenate(bands)].mean())

    def test_who_always_works_is_seen_to(self) -> None:
        # the first has bars with edges and numbers, the next two bars, the others columns
        for count, workers in ((8, 2), (120, 2), (1000, 4), (1004, 4), (40_000, 4), (32_000, 16)):
            with self.subTest(count=count, workers=workers):
                bands, share = self.busy_part(count, workers)
                self.assertEqual(bands, workers)
                self.assertGreater(share, 0.97)

    def test_more_workers_than_rows_are_all_busy(self) -> None:
        tree, report = busy_run(4096, 1024)
        words = ["--tree", self.file("busy.tree", tree), self.file("busy.run", report)]
        axes = self.figure("run", words).axes[0]
        (shown,) = axes.get_images()
        self.assertEqual(shown.get_array().shape[0], run.MOST_ROWS)
        self.assertEqual(len(np.unique(shown.get_array().reshape(-1, 3), axis=0)), 1)


class Columns(unittest.TestCase):
    def test_a_column_has_its_greatest_level(self) -> None:
        count = 3 * look.MOST_STEPS
        levels = np.arange(count) % 7
        levels[1000] = 99
        edges, found = look.in_columns(look.Steps(np.arange(count + 1), levels))
        self.assertEqual(len(found), look.MOST_STEPS)
        by_hand = [max(levels[3 * at : 3 * at + 3]) for at in range(look.MOST_STEPS)]
        self.assertEqual(found.tolist(), by_hand)

    def test_a_long_step_is_in_all_its_columns(self) -> None:
        levels = np.append(np.full(look.MOST_STEPS, 1), 5)
        times = np.append(np.arange(look.MOST_STEPS + 1), 2 * look.MOST_STEPS)
        _, found = look.in_columns(look.Steps(times, levels))
        half = look.MOST_STEPS // 2
        self.assertEqual(found.tolist(), [1] * half + [5] * half)


class WhatIsSeen(Drawing):
    """Peaks, units, titles, and no text outside."""

    def test_the_peak_of_many_steps_is_dark(self) -> None:
        tree = self.file("spiked.tree", spiked(20_000, 9_000, 1000))
        pixels = pixels_of(self.picture("memory", ["--tree", tree, "a=1..n"], "png"))
        dark = 255 * np.array(look.darker(look.RED))
        is_dark = np.abs(pixels - dark).max(axis=2) < 16
        # the panel is about 200 pixels high
        self.assertGreater(is_dark.sum(axis=0).max(), 100)

    def test_units(self) -> None:
        words = ["--tree", FIVE, "a=1..n"]
        self.assertIn("(entries)", self.figure("memory", words).axes[0].get_ylabel())
        in_bytes = self.figure("memory", ["--unit", "bytes", *words])
        self.assertIn("(bytes)", in_bytes.axes[0].get_ylabel())
        branches = ["--workflow", str(EXAMPLES / "branches.workflow")]
        figure = self.figure("memory", [*branches, str(EXAMPLES / "branches.order")])
        self.assertIn("(units)", figure.axes[0].get_ylabel())

    def test_peaks_and_titles(self) -> None:
        # README computes 11 and 15 by hand
        words = ["--tree", FIVE, "best=" + self.file("o", "1 3 2 4 5"), "other=1..n"]
        figure = self.figure("memory", words)
        titles = [axes.get_title(loc="left") for axes in figure.axes]
        told = "other: peak 15 entries, 36 % more than the least here"
        self.assertEqual(titles, ["best: peak 11 entries", told])
        self.assertIn("five.tree", figure._suptitle.get_text())

    def test_each_of_seven_orders_is_drawn(self) -> None:
        figure = self.figure("memory", ["--tree", FIVE, *["same=1..n"] * 7])
        self.assertTrue(all(axes.get_title(loc="left") for axes in figure.axes))

    def test_text_of_stairs_stays_in_the_axes(self) -> None:
        great = f"segments 1\n1 F 0\n1 R {10**9} {2 * 10**9} 7 {3 * 10**9} 0\nend\n"
        for report in (SEGMENTS, great):
            number = "2" if report is SEGMENTS else "1"
            figure = self.figure("stairs", ["--number", number, self.file("s", report)])
            figure.draw_without_rendering()
            (axes,) = figure.axes
            box = axes.get_window_extent()
            self.assertTrue(axes.texts)
            for told in axes.texts:
                extent = told.get_window_extent()
                self.assertGreaterEqual(extent.x0, box.x0)
                self.assertLessEqual(extent.x1, box.x1)
                self.assertLessEqual(extent.y1, box.y1)

    def test_odd_names_are_drawn(self) -> None:
        for name in ("$\\x$ y.tree", "<b>&amp;.tree", "a\nb\x01.tree", "\udcff.tree"):
            with self.subTest(name=name):
                tree = self.file(name, FIVE_NODES)
                words = ["--unit", name[:4], "--tree", tree, f"{name[:6]}=1..n"]
                ElementTree.parse(self.picture("memory", words))
                ElementTree.parse(self.picture("fronts", ["--unit", name[:4], tree]))

    def test_no_front_is_drawn_where_none_is_asked_for(self) -> None:
        self.assertIn("0 of 5", self.picture("fronts", ["--most", "0", FIVE]).read_text())

    def test_nothing_to_draw_is_drawn(self) -> None:
        empty = self.file("empty", "workflow 1\ntasks 0\ndata 0\nend\n")
        self.picture("memory", ["--workflow", empty, "a=1..n"])
        idle = self.file("idle.run", "makespan 0\nused 0\nbooked 0\nevents 0\nend\n")
        self.picture("run", ["--workflow", empty, idle])
        zeros = self.file("zeros.tree", "tree 1\nnodes 2\n0 0 0 1\n0 0 3 1\nend\n")
        self.picture("memory", ["--tree", zeros, "a=1..n"])


SEGMENTS = (
    "segments 5\n1 F 0\n1 R 1 10 0\n2 F 0\n2 R 5 6 1 10 0\n3 F 0\n3 R 1 10 0\n4 F 0\n"
    "4 R 5 6 1 10 0\n5 F 0\n5 R 0\nend\n"
)


class Large(Drawing):
    """200,000 tasks, each kind of picture by a command of its own."""

    def check_command(self, words: list[str], ending: str = "svg") -> None:
        path = self.folder / f"large.{ending}"
        start = time.monotonic()
        command = [sys.executable, str(TOOLS / "draw.py"), words[0], str(path), *words[1:]]
        done = subprocess.run(command, capture_output=True, text=True, timeout=2 * SECONDS)
        self.assertEqual((done.returncode, done.stderr), (0, ""))
        self.assertLess(time.monotonic() - start, SECONDS)
        self.assertLess(path.stat().st_size, BYTES)

    def test_run(self) -> None:
        tree, report = busy_run(200_000, 8)
        self.check_command(["run", "--tree", self.file("t", tree), self.file("r", report)])

    def test_memory(self) -> None:
        count = 200_000
        parents = [*range(2, count + 1), 0]
        nodes = "".join(f"{parent} {parent % 97} 5 3\n" for parent in parents)
        tree = self.file("t", f"tree 1\nnodes {count}\n{nodes}end\n")
        numbers = self.file("o", "\n".join(map(str, range(1, count + 1))))
        self.check_command(["memory", "--by", "time", "--tree", tree, f"a={numbers}", "b=1..n"])

    def test_stairs(self) -> None:
        count = 200_000
        steps = " ".join(f"{count + step} {count - step}" for step in range(1, count))
        report = self.file("s", f"segments 1\n1 F 0\n1 R {count} {steps}\nend\n")
        self.check_command(["stairs", "--number", "1", report])

    def test_fronts(self) -> None:
        count = 200_000
        draws = random.Random(3)
        parents = [draws.randint(node + 1, min(node + 9, count)) for node in range(1, count)] + [0]
        nodes = "".join(f"{parent} {parent % 89} {parent % 83} 3\n" for parent in parents)
        self.check_command(["fronts", self.file("t", f"tree 1\nnodes {count}\n{nodes}end\n")])


class Readers(Drawing):
    """Files are read as plain models read them."""

    def check_system(self, mine: system.Read, plain: models.System) -> None:
        drawn = mine.system
        made, taken = (systems.sums(mine.count + 1, ends, drawn.sizes) for ends in self.ends(drawn))
        self.assertEqual(made[0], plain.first)
        self.assertEqual(drawn.needs.tolist(), plain.needs)
        self.assertEqual((made - taken)[1:].tolist(), plain.gains)
        self.assertEqual(drawn.times.tolist(), plain.times)
        arcs = {(int(maker), int(taker)) for maker, taker in zip(mine.makers, mine.takers)}
        pairs = enumerate(plain.suppliers, 1)
        self.assertEqual(arcs, {(maker + 1, taker) for taker, them in pairs for maker in them})

    @staticmethod
    def ends(drawn: systems.System) -> tuple[np.ndarray, np.ndarray]:
        """Who makes and who reads each item of a system in which one task at most does."""
        readers = np.zeros(len(drawn.sizes), np.int64)
        readers[np.diff(drawn.starts) > 0] = drawn.readers
        return drawn.producers, readers

    def check_orders(self, mine: system.Read, plain: models.System, draws: random.Random) -> None:
        for _ in range(8):
            numbers = draws.sample(range(1, plain.count + 1), plain.count)
            if draws.random() < 0.3:
                numbers[draws.randrange(plain.count)] = draws.randint(0, plain.count + 1)
            if draws.random() < 0.2:
                numbers.pop()
            fault = plain.fault(numbers)
            given = order.Order("o", np.array(numbers, np.int64), np.arange(len(numbers)) + 1)
            if fault is None:
                order.expect_traversal(mine, given)
                course = systems.course_of(mine.system, given.numbers)
                self.assertEqual(course.peak, plain.peak(numbers))
                continue
            with self.assertRaises(text.Refusal) as caught:
                order.expect_traversal(mine, given)
            place, kind = fault.split()[2:]
            self.assertIn(TOLD_OF_FAULT[kind], str(caught.exception))
            if kind != "missing":
                self.assertTrue(str(caught.exception).startswith(f"o, line {place}:"))

    def test_trees(self) -> None:
        draws = random.Random(1)
        for count in range(1, 40):
            numbers = range(1, count + 1)
            above = [draws.choice([0, draws.randint(node, count)]) for node in numbers[1:]]
            nodes = [[parent, draws.randint(0, 9), draws.randint(0, 9)] for parent in [*above, 0]]
            taken = [sum(out for parent, out, _ in nodes if parent == node) for node in numbers]
            most = [min(out + extra, them) for (_, out, extra), them in zip(nodes, taken)]
            shares = [draws.randint(0, it) for it in most]
            lines = [f" {p}\t{o} 00{x} {s} 7\r\n" for (p, o, x), s in zip(nodes, shares)]
            content = f"# caf\xe9\ntree 2\n\nnodes {count}\n% 7\n{''.join(lines)}end"
            name = self.file("t", content.encode("latin-1"))
            mine = system.system_of_tree(name)
            plain = models.system_of_tree(Path(name).read_bytes())
            self.check_system(mine, plain)
            self.check_orders(mine, plain, draws)

    def test_workflows(self) -> None:
        draws = random.Random(2)
        for count in range(1, 40):
            name = self.file("w", workflow(count, draws))
            mine = system.system_of_workflow(name)
            plain = models.system_of_workflow(Path(name).read_bytes())
            self.check_system(mine, plain)
            self.check_orders(mine, plain, draws)

    def test_runs_of_models_are_runs(self) -> None:
        for workers in (1, 2, 3):
            self.picture("run", ["--tree", FIVE, self.file("r", five_run(workers))])

    def test_great_numbers(self) -> None:
        words = f"0 000 7 {2**64} {10**18 - 1} {2**60} {'0' * 30}5 1.5 +1 x"
        values = text.Text("n", words.encode()).values(np.arange(10)).tolist()
        self.assertEqual(values, [0, 0, 7, text.TOO_LARGE, 10**18 - 1, 2**60, 5, -1, -1, -1])

    def test_orders_of_each_form(self) -> None:
        for name, content in (
            ("plan", PLAN),
            ("json", '{"claims":[],"order":[1,3,2,4,5],"peak":11}'),
            ("post", "peak 11\norder 5\n1\n3\n2\n4\n5\nend\n"),
            ("order", "1 3\n# a comment\n2 4 5"),
        ):
            with self.subTest(name=name):
                self.assertEqual(order.order_of(self.file(name, content)).numbers.tolist(), ORDER)


# What is told of an order, by the word that memplan has for its fault.
TOLD_OF_FAULT = {
    "unknown": "from 1 to",
    "repeated": "a second time",
    "too-early": "before",
    "missing": "not among them",
}


def workflow(count: int, draws: random.Random) -> str:
    lines, height = [], 0
    for _ in range(count):
        while height < 2 or draws.random() < 0.5:
            lines.append(f"data {draws.randint(0, 9)}")
            height += 1
        lines.append(f"task {draws.randint(0, 9)} {draws.randint(1, 4)}")
        height -= 1
        if height > 1 and draws.random() < 0.4:
            parts = draws.randint(2, height)
            lines.append(f"par {parts}")
            height -= parts - 1
    if height > 1:
        lines.append(f"par {height}")
    return "\n".join(["workflow 1", f"tasks {count}", *lines, "end", ""])


def five_run(workers: int = 2) -> str:
    five = models.system_of_tree(Path(FIVE).read_bytes())
    return models.Simulation(five, ORDER, ORDER, 22, workers).report()


PLAN = (
    "plan 1\norder 5\n1\n3\n2\n4\n5\npeak 11\n"
    "claims 4\n5 R 5 5\n10 R 5 5\n11 R 10 10\n13 R 10 0\nend\n"
)
FIVE_NODES = Path(FIVE).read_text()


class Refusals(Drawing):
    """A bad file is refused in one line that says which, where, and what was expected."""

    def refused(self, words: list[str], name: str, line: Optional[int], *told: str) -> None:
        path = self.folder / "never.svg"
        out, err = io.StringIO(), io.StringIO()
        with contextlib.redirect_stdout(out), contextlib.redirect_stderr(err):
            status = draw.main([words[0], str(path), *words[1:]])
        said = err.getvalue()
        self.assertEqual(status, drawn.REFUSED, said)
        self.assertEqual(out.getvalue(), "")
        self.assertEqual(said.count("\n"), 1, said)
        place = f"{name}, line {line}: " if line else f"{name}: "
        self.assertTrue(said.startswith("draw.py: ") and place in said, said)
        for it in ("expected", *told):
            self.assertIn(it, said)
        self.assertFalse(path.exists())

    def tree_refused(self, content: str | bytes, line: Optional[int], *told: str) -> None:
        """A tree is refused wherever one is read."""
        name = self.file("my.tree", content)
        self.refused(["fronts", name], name, line, *told)
        self.refused(["memory", "--tree", name, "a=1..n"], name, line, *told)

    def order_refused(self, content: str | bytes, line: Optional[int], *told: str) -> None:
        name = self.file("my.order", content)
        self.refused(["memory", "--tree", FIVE, f"a={name}"], name, line, *told)

    def run_refused(self, content: str | bytes, line: Optional[int], *told: str) -> None:
        name = self.file("my.run", content)
        self.refused(["run", "--tree", FIVE, name], name, line, *told)

    def stairs_refused(
        self, content: str | bytes, number: int, line: Optional[int], *told: str
    ) -> None:
        name = self.file("my.segments", content)
        self.refused(["stairs", "--number", str(number), name], name, line, *told)

    def workflow_refused(self, content: str, line: Optional[int], *told: str) -> None:
        name = self.file("my.workflow", content)
        self.refused(["memory", "--workflow", name, "a=1..n"], name, line, *told)

    def readers(self):
        """The checks of files that are refused whatever else is said."""
        return self.tree_refused, self.order_refused, self.run_refused, self.workflow_refused

    def test_files_that_cannot_be_read(self) -> None:
        none = str(self.folder / "none")
        for name, told in ((none, "no such file"), (str(self.folder), "directory")):
            self.refused(["fronts", name], name, None, told)
            self.refused(["memory", "--tree", name, "a=1..n"], name, None, told)
            self.refused(["memory", "--workflow", name, "a=1..n"], name, None, told)
            self.refused(["memory", "--tree", FIVE, f"a={name}"], name, None, told)
            self.refused(["run", "--tree", FIVE, name], name, None, told)
            self.refused(["stairs", "--number", "1", name], name, None, told)

    def test_files_of_another_kind(self) -> None:
        matrix = Path(EXAMPLES / "arrow.mtx").read_bytes()
        self.tree_refused(matrix, 1, "a tree file", "a matrix")
        self.order_refused(matrix, 1, "an order", "a matrix")
        self.run_refused(matrix, 1, "simulate", "a matrix")
        self.tree_refused((EXAMPLES / "branches.workflow").read_bytes(), 1, "a workflow file")
        self.tree_refused(PLAN, 1, "a tree file", "a plan")
        self.workflow_refused(FIVE_NODES, 1, "a workflow file", "a tree file")
        self.order_refused(FIVE_NODES, 1, "an order", "a tree file")
        self.run_refused(PLAN, 1, "simulate", "a plan")
        self.stairs_refused(five_run(), 1, 1, "segments")

    def test_refusals_of_the_program(self) -> None:
        refusal = "refused format tree header 1\n"
        for refused in self.readers():
            refused(refusal, 1, "a refusal of memplan", "refused format tree header 1")
        self.stairs_refused("refused limit tree steps\n", 1, 1, "a refusal of memplan")
        self.order_refused("no order 1 too-early\n", 1, "a refusal of memplan")
        self.run_refused("refused bound 5 11\n", 1, "a refusal of memplan: 'refused bound 5 11'")

    def test_empty_files(self) -> None:
        for refused in self.readers():
            refused("", None, "empty")
        self.stairs_refused("", 1, None, "empty")
        self.tree_refused("# nothing\n", 2, "a tree file", "the file ends here")

    def test_files_that_are_cut_off(self) -> None:
        self.tree_refused(FIVE_NODES.removesuffix("end\n"), 8, "'end'", "the file ends here")
        half = "tree 1\nnodes 5\n2 1 9 1\n5 5 0 1\n4 1"
        self.tree_refused(half, 5, "parent out extra time", "'4 1'")
        self.tree_refused("tree 1\nnodes 5\n2 1 9 1\n", 4, "the file ends here")
        self.tree_refused("tree 1\n", 2, "'nodes'")
        self.order_refused(PLAN.removesuffix("end\n"), 14, "'end'", "the file ends here")
        self.order_refused("plan 1\norder 5\n1\n3\n", 5, "the number of a task")
        self.order_refused('{"claims":[],"order":[1,3', 1, "a plan as JSON")
        self.run_refused(five_run().removesuffix("end\n"), 20, "'end'", "the file ends here")
        self.run_refused("\n".join(five_run().split("\n")[:9]) + "\n", 10, "an event")
        self.stairs_refused(SEGMENTS.removesuffix("end\n"), 2, 12, "'end'")
        self.workflow_refused("workflow 1\ntasks 1\ndata 1\ndata 2\ntask 0 1\n", 6, "'end'")

    def test_numbers_out_of_range(self) -> None:
        def with_third(line: str) -> str:
            return FIVE_NODES.replace("4 1 9 1", line)

        self.tree_refused(with_third("6 1 9 1"), 5, "a parent of at most 5")
        self.tree_refused(with_third("4 1 9 0"), 5, "a time from 1")
        self.tree_refused(with_third(f"4 {2**40 + 1} 9 1"), 5, "sizes of at most")
        self.tree_refused(with_third(f"4 1 {10**30} 1"), 5, "sizes of at most")
        self.tree_refused(with_third("4 -1 9 1"), 5, "in whole numbers", "'4 -1 9 1'")
        self.tree_refused(with_third("4 1.5 9 1"), 5, "in whole numbers", "'4 1.5 9 1'")
        self.tree_refused(with_third("3 1 9 1"), 5, "lead to a root")
        self.tree_refused("tree 1\nnodes 1000001\n", 2, "at most 1000000")
        self.tree_refused("tree 1\nnodes 0\nend\n", 2, "a node or more")
        self.tree_refused("tree 2\nnodes 1\n0 1 1 1 1\nend\n", 3, "a share of at most")
        self.workflow_refused("workflow 1\ntasks 1\ndata 1\ntask 0 1\nend\n", 4, "as many terms")
        great = f"workflow 1\ntasks 0\ndata 1\npar {2**63}\nend\n"
        self.workflow_refused(great, 4, "as many terms")
        self.workflow_refused("workflow 1\ntasks 0\ndata 1\ndata 1\nend\n", 5, "one term")
        self.workflow_refused("workflow 1\ntasks 2\ndata 1\ndata 1\ntask 0 1\nend\n", 6, "2 tasks")
        self.order_refused('{"order":[1,3,2,4,1e99]}', 1, "whole numbers")
        self.order_refused(f'{{"order":[1,3,2,4,{10**40}]}}', None, "from 1 to 5")

    def test_orders_that_do_not_fit(self) -> None:
        self.order_refused("1\n3\n2\n4\n6\n", 5, "a task of", "five.tree", "found 6")
        self.order_refused("1\n3\n2\n4\n0\n", 5, "from 1 to 5", "found 0")
        self.order_refused(f"1\n3\n2\n4\n{10**25}\n", 5, "far too great")
        self.order_refused("2 1 3 4 5\n", 1, "expected task 1 of", "before 2")
        self.order_refused("1 3\n2 1 4 5\n", 2, "found 1 a second time")
        self.order_refused("1 3\n2 4\n", None, "the 5 tasks of", "5 is not among them")
        self.order_refused(PLAN.replace("\n2\n", "\n9\n"), 5, "found 9")
        self.order_refused("1 3 x 4 5\n", 1, "the number of a task")
        self.order_refused('{"order":[2,1,3,4,5]}', None, "before 2", "at place 1")
        self.order_refused('{"peak":11}', 1, "a plan as JSON")
        self.order_refused("[" * 100_000, 1, "an order")
        self.order_refused('{"order":' + "[" * 100_000, 1, "a plan as JSON")

    def test_runs_that_do_not_fit(self) -> None:
        report = five_run()
        self.run_refused(report.replace("finish 5", "finish 6"), 19, "a run of", "finish 6")
        self.run_refused(report.replace("0 activate 1\n", "0 activate 3\n"), 6, "activate 3")
        self.run_refused(report.replace("used 20", "used 21"), 2, "'used 20'", "found 21")
        later = report.replace("makespan 3", "makespan 4")
        self.run_refused(later, 1, "the time of the last event, 3")
        self.run_refused(report.replace("0 start 1", "0 begin 1"), 7, "an event", "'0 begin 1'")
        self.run_refused(report.replace("0 start 1", "9 start 1"), 8, "not before the last one")
        late = report.replace("activate 1", "-").replace("start 1", "activate 1")
        self.run_refused(late.replace("-", "start 1"), 9, "1 finish 1")
        name, slower = self.file("r", report), FIVE_NODES.replace("0 0 0 1\n", "0 0 0 2\n")
        words = ["run", "--tree", self.file("slower.tree", slower), name]
        self.refused(words, name, 19, "slower.tree", "3 finish 5")
        _, other = busy_run(10, 2)
        self.run_refused(other, 18, "a run of", "five.tree")
        self.run_refused("makespan 0\nused 0\nbooked 0\nevents 0\nend\n", 4, "15 events")

    def test_staircases_that_are_none(self) -> None:
        self.stairs_refused(SEGMENTS, 6, 1, "found those of 1 to 5")
        self.stairs_refused(SEGMENTS, 0, 1, "found those of 1 to 5")
        for wrong in ("2 R 5 6 1 10", "2 R 5 6 1 x 0", "2 R 5 6 1 6 0", "2 R 5 6 1 10 1", "2 R "):
            report = SEGMENTS.replace("2 R 5 6 1 10 0", wrong)
            self.stairs_refused(report, 2, 5, "rising bounds")
        self.stairs_refused(SEGMENTS.replace("2 F 0\n", ""), 2, None, "'2 F ..'")

    def test_text_that_is_no_utf_8(self) -> None:
        no_text = "no UTF-8 text"
        self.tree_refused(FIVE_NODES.encode("utf-16"), 1, "a tree file", no_text)
        self.tree_refused(b"\x1f\x8b\x08\x00\xff\xfe\xfd", 1, "a tree file", no_text)
        self.tree_refused(FIVE_NODES.encode().replace(b"4 1 9 1", b"4 1 \xff 1"), 5, no_text)
        self.order_refused(b"1 3 \xff\xfe\n", 1, no_text)
        self.order_refused(b'{"order":[1,3,2,4,5],"x":"\xff"}', 1, no_text)
        self.run_refused(five_run().encode().replace(b"0 start 1", b"0 st\xffrt 1"), 7, no_text)
        self.stairs_refused(SEGMENTS.encode().replace(b"2 R 5", b"2 R \xff"), 2, 5, no_text)

    def test_a_line_stays_one_whatever_the_file_holds(self) -> None:
        self.tree_refused("tree\x0b1\u2028\x85 7\n", 1, "a tree file")
        self.tree_refused("x" * 100_000, 1, "...")
        with self.assertRaises(text.Refusal) as caught:
            text.text_of(str(self.folder / "a\nb"), "a file")
        self.assertNotIn("\n", str(caught.exception))

    def check_command(self, words: list[str], status: int, *told: str) -> None:
        command = [sys.executable, str(TOOLS / "draw.py"), *words]
        done = subprocess.run(command, capture_output=True, text=True)
        self.assertEqual((done.returncode, done.stdout), (status, ""))
        self.assertNotIn("Traceback", done.stderr)
        self.assertEqual(done.stderr.count("\n"), 1, done.stderr)
        for it in told:
            self.assertIn(it, done.stderr)

    def test_help_needs_neither_package_nor_library(self) -> None:
        # -S and -I: no package of the system's is found
        command = [sys.executable, "-I", "-S", str(TOOLS / "draw.py")]
        away = {**os.environ, "MEMPLAN_LIBRARY": str(self.folder / "none.so")}
        for words, told in (("--help",), "stairs"), (("memory", "--help"), "--by"):
            done = subprocess.run([*command, *words], capture_output=True, text=True, env=away)
            self.assertEqual((done.returncode, done.stderr), (0, ""))
            self.assertIn(told, done.stdout)
        words = ["fronts", str(self.folder / "never.svg"), FIVE]
        done = subprocess.run([*command, *words], capture_output=True, text=True, env=away)
        self.assertEqual((done.returncode, done.stdout), (1, ""))
        self.assertIn("matplotlib is missing", done.stderr)

    def test_the_command_refuses_so_too(self) -> None:
        picture = str(self.folder / "never.svg")
        self.check_command(["fronts", picture, "nofile.tree"], 3, "nofile.tree: expected")
        nowhere = str(self.folder / "no" / "x.svg")
        self.check_command(["memory", nowhere, "--tree", FIVE, "1..n"], 1, "cannot be written")


@unittest.skipUnless(PROGRAM, "not run: there is no program")
class OfTheProgram(Drawing):
    """What the program prints is drawn, and what it refuses is refused."""

    def printed(self, name: str, *words: str) -> str:
        done = subprocess.run([PROGRAM, *words], capture_output=True, timeout=60)
        return self.file(name, done.stdout)

    def test_each_command(self) -> None:
        grid = ("--matrix", str(EXAMPLES / "grid.mtx"), "--ordering", "mindeg", "--inplace", "yes")
        tree = self.printed("grid.tree", "tree", *grid)
        plan = self.printed("grid.plan", "plan", "--tree", tree)
        as_json = self.printed("grid.json", "plan", "--tree", tree, "--print", "json")
        post = self.printed("grid.post", "post", "--tree", tree)
        peak = json.loads(Path(as_json).read_text())["peak"]
        orders = [f"a={plan}", f"b={as_json}", f"c={post}"]
        axes = self.figure("memory", ["--tree", tree, *orders]).axes[0]
        self.assertIn(f"peak {peak:,} entries", axes.get_title(loc="left"))
        bound = ["--bound", str(2 * peak)]
        words = ["simulate", "--tree", tree, "--plan", plan, *bound, "--workers", "3"]
        report = self.printed("grid.run", *words)
        self.picture("run", ["--tree", tree, *bound, report])
        segments = self.printed("grid.segments", "segments", "--tree", tree)
        self.picture("stairs", ["--number", "1", segments])

    def test_refusals(self) -> None:
        words = ("simulate", "--tree", FIVE, "--order", str(EXAMPLES / "five.order"))
        report = self.printed("low.run", *words, "--bound", "1", "--workers", "2")
        err = io.StringIO()
        with contextlib.redirect_stderr(err):
            status = draw.main(["run", str(self.folder / "x.svg"), "--tree", FIVE, report])
        self.assertEqual(status, drawn.REFUSED)
        self.assertIn("a refusal of memplan: 'refused bound 1 11'", err.getvalue())


if __name__ == "__main__":
    unittest.main()
