#!/usr/bin/env python3
"""Measures memplan beside other programs, and prints the tables of docs/BENCHMARKS.md.

usage: bench/run.py [--quick] [--program FILE] [--out FOLDER] [--turns N] [--limit SECONDS]
                    [--only TABLE,TABLE,..] [--growth TASKS,TASKS,..] [--anew]

It wants an idle machine, g++ and make, and Debian's package libsuitesparse-dev (CXSparse, CHOLMOD,
AMD) for the tables `analysis` and `mindeg`. It builds the peers in bench/peers, makes the inputs,
and runs memplan and the peers in turn. A whole run takes some 20 minutes and 3 GB of disk.
It can be stopped at any time: what is measured stands in FOLDER (bench/out), and the next run of
the same programs goes on from there; --anew forgets it. --quick tries every line on small inputs,
in some seconds; its figures mean nothing. --only makes some tables alone, of reading, replay,
analysis, mindeg, post, plan, hard, check, simulate, fences, spill, fronts, segments, reduce, graphs,
growth; --growth names the numbers of tasks of the last one.

Of each program the least of N turns (5) counts; a row that has taken 4 N seconds of processor time
has no further turn after its second one. Each run has SECONDS (100) of processor time. Where
memplan has no such command yet, the table says so. The program stops where two sides differ in what
they found. Tables go to standard output, how far it is to standard error.
"""
import argparse
import datetime
import hashlib
import os
import platform
import subprocess
import sys
from collections.abc import Callable
from contextlib import redirect_stdout
from math import log
from pathlib import Path
from time import monotonic

from inputs import HARD, QUICK, TREES, WHOLE, WORKFLOWS, Inputs, working_set
from measuring import KILLED, USAGE, Bench, Figure, Side, memory_of, ratio, ratios, table, time_of

HERE = Path(__file__).resolve().parent
SUITESPARSE = Path("/usr/include/suitesparse/cholmod.h")
PACKAGES = ("cxsparse", "cholmod")
# The tables that want SuiteSparse.
OF_SUITESPARSE = ("analysis", "mindeg")

PLAN_NOTE = """\
The model is C++ of the same algorithm, without any proof. With claims it prints the same bytes as
memplan, which was compared. Without claims it keeps no notes for them, does not look for any and
prints none: a planner without certificate. The ratio to the model is to that one. In memory it is
of the two whole runs. In time it counts the same reading on both sides:

    memplan / (model without claims - the model's reading + memplan's reading)

memplan's reading is its time on the same file without its last line, which it reads to its end and
then refuses; the model's is its time where it reads the file and does nothing else. C++ is another
planner without certificate, with a special algorithm for trees; the ratio to it is of the two whole
runs, in time too.
"""
GROWTH_NOTE = """\
At the head the number of tasks. The exponent is that with which time grows from the first size to
the last: 1 is linear, 2 quadratic; beside it that of the last two sizes.
"""


class Tables:
    """The tables, each from its rows."""

    def __init__(self, bench: Bench, inputs: Inputs, program: str) -> None:
        self.bench, self.inputs, self.program = bench, inputs, program
        self.peer, self.model = str(bench.folder / "peer"), str(bench.folder / "model")
        self.analysis = str(bench.folder / "analysis")
        self.sizes, self.wrong = inputs.sizes, inputs.wrong()

    def memplan(self, *words: str, status: int = 0, name: str = "memplan") -> Side:
        return Side(name, [self.program, *words], status)

    def beside(self, name: str, *words: str) -> Side:
        return Side(name, list(words))

    def trees(self) -> list[tuple[str, str]]:
        return [
            (f"{shape}, {self.sizes.tasks:,} nodes", self.inputs.tree(shape)) for shape in TREES
        ]

    def matrices(self) -> list[tuple[str, str, str]]:
        """Each with the file of its order of elimination, or ''."""
        sizes, make = self.sizes, self.inputs.matrix
        grid, rows = sizes.grid, sizes.rows
        dissection = make("dissection", grid, grid)
        return [
            (f"grid {grid:,} by {grid:,}, nested dissection", make("grid", grid, grid), dissection),
            (f"grid {grid:,} by {grid:,}", make("grid", grid, grid), ""),
            (f"band of {rows:,} rows, {sizes.band} wide", make("band", rows, sizes.band), ""),
            (
                f"random, {rows:,} rows, {sizes.entries:,} entries",
                make("random", rows, sizes.entries),
                "",
            ),
        ]

    def large_matrices(self) -> list[tuple[str, str]]:
        """Those of the most entries that are read."""
        rows, entries = self.sizes.many_rows, self.sizes.many_entries
        width = entries // rows
        band = self.inputs.matrix("valued_band", rows, width)
        return [
            (f"band of {rows:,} rows, {width} wide, with values", band),
            (
                f"random, {rows:,} rows, {entries:,} entries",
                self.inputs.matrix("pattern", rows, entries),
            ),
        ]

    # two programs side by side

    def pair(self, row: str, label: str, sides: list[Side], same: bool = True) -> list[str]:
        ours, other = self.bench.measure(f"{row}: {label}", sides)
        if same and ours.is_done and other.is_done and ours.said != other.said:
            raise SystemExit(
                f"{row}: {label}: memplan found {ours.said!r}, and {sides[1].name} {other.said!r}"
            )
        in_time, in_memory = ratios(ours, other)
        cells = [time_of(ours), time_of(other), in_time]
        return [label, *cells, memory_of(ours), memory_of(other), in_memory]

    @staticmethod
    def pair_head(what: str, other: str) -> list[str]:
        programs = ("memplan", other)
        cells = [[*(f"{it}, {unit}" for it in programs), "ratio"] for unit in ("ms", "MB")]
        return [what, *cells[0], *cells[1]]

    def reading(self) -> str:
        """Trees and workflows have no end, so that both sides refuse them once they are read. Of a
        matrix and of a plan memplan is then refused another file; the peers read and count."""
        found = [(f"tree: {label}", self.without_end("tree", name)) for label, name in self.trees()]
        label = f"workflow: random, {self.sizes.tasks:,} tasks"
        found.append((label, self.without_end("workflow", self.inputs.workflow("random"))))
        matrices = [(label, name) for label, name, perm in self.matrices() if not perm]
        matrices += self.large_matrices()
        found += [(f"matrix: {label}", self.reading_of(name)) for label, name in matrices]
        _, name = self.inputs.claims()
        ours = self.memplan("upgrade", "--plan", name, "--priority", self.wrong, status=3)
        label = f"plan: {4 * self.sizes.tasks + 1:,} claims"
        found.append((label, [ours, self.beside("C++", self.peer, "read", "plan", name)]))
        rows = [self.pair("read", label, sides) for label, sides in found]
        return table(self.pair_head("reading of a", "C++"), rows)

    def without_end(self, kind: str, name: str) -> list[Side]:
        cut = self.inputs.without_end(name)
        ours = self.memplan("replay", f"--{kind}", cut, "--order", self.wrong, status=3)
        return [ours, Side("C++", [self.peer, "read", kind, cut], status=1)]

    def reading_of(self, matrix: str) -> list[Side]:
        ours = self.memplan("tree", "--matrix", matrix, "--perm", self.wrong, status=3)
        return [ours, self.beside("C++", self.peer, "read", "matrix", matrix)]

    def tree_sides(self, matrix: str, perm: str) -> list[Side]:
        words = ["tree", "--matrix", matrix, *(["--perm", perm] if perm else [])]
        others = [
            self.beside(it, self.analysis, "tree", it, perm or "natural", matrix) for it in PACKAGES
        ]
        return [self.memplan(*words), *others]

    def analysis_table(self) -> str:
        """The whole of `tree`, and what is left of it without reading."""
        whole, rest = [], []
        large = [(label, matrix, "") for label, matrix in self.large_matrices()]
        for label, matrix, perm in [*self.matrices(), *large]:
            sides = self.tree_sides(matrix, perm)
            same = tuple(side.name for side in sides)
            figures = self.bench.measure(f"tree: {label}", sides, same=same)
            in_time, in_memory = ratios(figures[0], figures[1])
            times, memory = map(time_of, figures), map(memory_of, figures)
            whole.append([label, *times, in_time, *memory, in_memory])
            peer = self.beside("peer", self.analysis, "read", matrix)
            read = self.bench.measure(f"tree, reading: {label}", [self.reading_of(matrix)[0], peer])
            less = [max(0.0, it.cpu - read.cpu) for it, read in zip(figures, (*read, read[1]))]
            times = map(time_of, figures, less)
            rest.append([label, *times, ratio(less[0], less[1]) if in_time else ""])
        programs = ("memplan", "CXSparse", "CHOLMOD")
        times = [*(f"{it}, ms" for it in programs), "to CXSparse"]
        memory = [*(f"{it}, MB" for it in programs), "to CXSparse"]
        note = "\nWithout reading: elimination tree, postorder, counts, fronts, printing.\n\n"
        less_reading = table(["`tree` less reading", *times], rest)
        return table(["`tree`", *times, *memory], whole) + note + less_reading

    def mindeg(self) -> str:
        sizes, make = self.sizes, self.inputs.matrix
        side, edge, rows = sizes.small_grid, sizes.cube, sizes.rows // 2
        found = [
            (f"grid {side} by {side}", make("grid", side, side)),
            (f"cube {edge} by {edge} by {edge}", make("cube", edge, edge)),
            (f"hub, {rows:,} rows", make("hub", rows, 0)),
            *(
                (f"random, {rows:,} rows, {rows * per:,} entries", make("random", rows, rows * per))
                for per in (2, 3)
            ),
        ]
        lines = []
        for label, name in found:
            ours = self.memplan("tree", "--matrix", name, "--ordering", "mindeg")
            amd = self.beside("AMD", self.analysis, "tree", "cxsparse", "amd", name)
            row = self.pair("mindeg", label, [ours, amd], same=False)
            call = self.beside("times", self.analysis, "times", name)
            [alone] = self.bench.measure(f"mindeg: {label}", [call], turns=1)
            lines.append([*row, f"{float(alone.said.split()[1]):.1f}"])
        head = self.pair_head("`tree --ordering mindeg`", "AMD")
        return table([*head, "AMD's call alone, ms"], lines)

    def post(self) -> str:
        rows = []
        for label, name in self.trees():
            sides = [
                self.memplan("post", "--tree", name),
                self.beside("C++", self.peer, "post", name),
            ]
            rows.append(self.pair("post", label, sides))
        return table(self.pair_head("`post`", "C++"), rows)

    # plans

    def planned_inputs(self) -> list[tuple[str, str, str]]:
        """Inputs, each with its kind."""
        workflows = [
            (f"workflow: {it}, {self.sizes.tasks:,} tasks", "workflow", self.inputs.workflow(it))
            for it in WORKFLOWS
        ]
        trees = [(f"tree: {label}", "tree", name) for label, name in self.trees()]
        return [*trees, *workflows]

    def plan_sides(self, kind: str, name: str) -> list[Side]:
        """Planners, and two that only read."""
        words, cut = ["plan", f"--{kind}"], self.inputs.without_end(name)
        return [
            self.memplan(*words, name),
            self.memplan(*words, name, "--print", "json", name="memplan, JSON"),
            self.memplan(*words, cut, status=3, name="memplan, reading"),
            self.beside("model", self.model, "certify", kind, name),
            self.beside("model without claims", self.model, "plan", kind, name),
            self.beside("model, reading", self.model, "read", kind, name),
            self.beside("C++", self.peer, "plan", kind, name),
        ]

    def plan(self) -> str:
        """Beside the model, which prints the same, and beside planners without certificate."""
        times, memory = [], []
        for label, kind, name in self.planned_inputs():
            row, sides = f"plan: {label}", self.plan_sides(kind, name)
            figures = self.bench.measure(row, sides, same=("memplan", "model"))
            ours, json, reading, model, bare, model_reading, other = figures
            self.agree(row, [ours, bare, other], [sides[0], sides[4], sides[6]])
            in_time, in_memory = ratios(ours, bare)
            planned = max(0.0, bare.cpu - model_reading.cpu)
            if in_time:
                in_time = ratio(ours.cpu, planned + reading.cpu)
            cells = [*map(time_of, (ours, reading, model, bare, model_reading)), in_time]
            times.append([label, *cells, time_of(other), ratios(ours, other)[0], time_of(json)])
            cells = [*map(memory_of, (ours, model, bare)), in_memory]
            memory.append([label, *cells, memory_of(other), ratios(ours, other)[1]])
        models = ["model", "model without claims"]
        head = ["memplan", "its reading", *models, "its reading", "ratio to the model"]
        in_time = table(["`plan`, ms", *head, "C++", "ratio to C++", "memplan, JSON"], times)
        head = ["memplan", *models, "ratio to the model", "C++", "ratio to C++"]
        return f"{PLAN_NOTE}\n{in_time}\n{table(['`plan`, MB', *head], memory)}"

    def agree(self, row: str, figures: list[Figure], sides: list[Side]) -> None:
        """All that were done found the same."""
        done = [(side.name, it.said) for side, it in zip(sides, figures) if it.is_done]
        for name, said in done:
            if said != done[0][1]:
                raise SystemExit(f"{row}: {done[0][0]} found {done[0][1]!r}, and {name} {said!r}")

    # memplan alone

    def planned(self) -> list[tuple[str, list[str], str, int]]:
        """Inputs with the words that name them, a plan and its peak."""
        found = []
        for label, kind, name in self.planned_inputs():
            words = [f"--{kind}", name]
            made = lambda to: self.planned_to(words, to)
            plan = self.inputs.made(f"{Path(name).name}.plan", made)
            with open(plan, encoding="ascii") as text:
                peak = next(int(line.split()[1]) for line in text if line.startswith("peak"))
            found.append((label, words, plan, peak))
        return found

    def planned_to(self, words: list[str], to: Path) -> None:
        self.printed_to(["plan", *words], to)

    def printed_to(self, words: list[str], to: Path) -> None:
        with open(to, "wb") as out:
            subprocess.run([self.program, *words], stdout=out, check=True)

    def alone(
        self, row: str, found: list[tuple[str, list[list[str]]]], names: list[str]
    ) -> list[list[str]]:
        """Rows of one command with several choices of words, by the clock and by processor time;
        none where the program has no such command."""
        rows = []
        for label, choices in found:
            titles = [f"memplan, {name}" if name else "memplan" for name in names]
            sides = [self.memplan(*it, name=title) for title, it in zip(titles, choices)]
            figures = self.bench.measure(f"{row}: {label}", sides)
            if figures[0].status == USAGE:
                return []
            cells = [cell for it in figures for cell in (time_of(it), f"{it.clock:,.0f}")]
            rows.append([label, *cells, memory_of(figures[-1])])
        return rows

    def alone_table(
        self, command: str, what: str, found: list[tuple[str, list[list[str]]]], names: list[str]
    ) -> str:
        titles = [f"{name}, ms" if name else "ms" for name in names]
        cells = [it for title in titles for it in (title, "by the clock")]
        return table([what, *cells, "MB"], self.alone(command, found, names))

    def check(self) -> str:
        found = [(label, [*words, "--plan", plan]) for label, words, plan, _ in self.planned()]
        workflow, plan = self.inputs.claims()
        claims = f"{4 * self.sizes.tasks + 1:,} positions, each with a claim"
        found.append((claims, ["--workflow", workflow, "--plan", plan]))
        choices = [(label, [["check", *it, "--workers", w] for w in "14"]) for label, it in found]
        return self.alone_table("check", "`check`", choices, ["1 worker", "4 workers"])

    def replay(self) -> str:
        found = []
        for label, words, plan, _ in self.planned():
            found.append((label, [["replay", *words, "--plan", plan]]))
        return self.alone_table("replay", "`replay` of a plan", found, [""])

    def simulate(self) -> str:
        workers, found = ("1", "16", "4096"), []
        for label, words, plan, peak in self.planned():
            base = ["simulate", *words, "--plan", plan, "--bound", str(2 * peak)]
            found.append((label, [[*base, "--workers", it] for it in workers]))
        names = ["1 worker", "16 workers", "4,096 workers"]
        return self.alone_table("simulate", "`simulate`, in twice the peak", found, names)

    def fences(self) -> str:
        """Fences for any number of workers and for 16, and the check of the first ones."""
        asked = []
        for label, words, plan, peak in self.planned():
            bound = str(peak + peak // 2)
            asked.append((label, words, ["fence", *words, "--plan", plan, "--bound", bound]))
        found = [(label, [line, [*line, "--workers", "16"]]) for label, _, line in asked]
        names = ["any number of workers", "16 workers"]
        made = self.alone_table("fence", "`fence`, in half again the peak", found, names)
        return f"{made}\n{self.checked_fences(asked)}" if made else ""

    def checked_fences(self, asked: list[tuple[str, list[str], list[str]]]) -> str:
        found = []
        for label, words, line in asked:
            made = lambda to: self.printed_to(line, to)
            fences = self.inputs.made(f"{Path(words[1]).name}.fences", made)
            found.append((label, [["check", *words, "--fences", fences]]))
        return self.alone_table("check of fences", "`check` of these fences", found, [""])

    def spill(self) -> str:
        """Where one task alone needs the whole peak, nothing has to go to disk."""
        found = []
        for label, words, plan, peak in self.planned():
            bound = (peak + working_set(words[0].lstrip("-"), words[1])) // 2
            found.append((label, [["spill", *words, "--plan", plan, "--bound", str(bound)]]))
        head = "`spill`, halfway from the greatest need of a task to the peak"
        return self.alone_table("spill", head, found, [""])

    def fronts(self) -> str:
        """The bound is twice the peak of the rows, which a refusal tells. All rows of all fronts
        are printed, so these are matrices of little fill."""
        sizes, make, found = self.sizes, self.inputs.matrix, []
        grid, side, rows, band = sizes.grid, sizes.small_grid, sizes.rows, sizes.band
        matrices = [
            (
                f"grid {grid:,} by {grid:,}, nested dissection",
                make("grid", grid, grid),
                make("dissection", grid, grid),
            ),
            (f"grid {side} by {side}", make("grid", side, side), ""),
            (f"band of {rows:,} rows, {band} wide", make("band", rows, band), ""),
        ]
        for label, matrix, perm in matrices:
            words = ["fronts", "--matrix", matrix, *(["--perm", perm] if perm else [])]
            asked = [self.program, *words, "--bound", "0", "--workers", "1"]
            done = subprocess.run(
                asked, stdout=subprocess.PIPE, stderr=subprocess.DEVNULL, text=True
            )
            bound = str(2 * int(done.stdout.split()[-1]) if done.returncode == 5 else 0)
            found.append((label, [[*words, "--bound", bound, "--workers", it] for it in "14"]))
        head = "`fronts`, in twice the peak"
        return self.alone_table("fronts", head, found, ["1 worker", "4 workers"])

    def segments(self) -> str:
        found = [
            (label, [["segments", f"--{kind}", name]])
            for label, kind, name in self.planned_inputs()
        ]
        return self.alone_table("segments", "`segments`", found, [""])

    def reduce(self) -> str:
        label = f"random, {self.sizes.tasks:,} tasks, which has a term"
        found = [(label, [["reduce", "--graph", self.inputs.graph()]])]
        return self.alone_table("reduce", "`reduce` of a graph", found, [""])

    def graphs(self) -> str:
        """Replayed, run in twice the peak, and spilled halfway from the greatest need of a task."""
        graph, order = self.inputs.shared_graph()
        words = ["--graph", graph, "--order", order]
        peak = self.peak_of(words)
        bound = str((peak + working_set("graph", graph)) // 2)
        ours, other = self.memplan("replay", *words), self.beside("C++", self.peer, "replay", graph, order)
        rows = [self.pair("replay", "`replay`", [ours, other])]
        for workers in ("1", "16", "4096"):
            ours = self.memplan("simulate", *words, "--bound", str(2 * peak), "--workers", workers)
            other = self.beside("C++", self.peer, "simulate", graph, order, str(2 * peak), workers)
            label = f"`simulate`, in twice the peak, {int(workers):,} workers".replace(" 1 workers", " 1 worker")
            rows.append(self.pair("simulate", label, [ours, other]))
        spill = [("`spill`, halfway", [["spill", *words, "--bound", bound]])]
        label = f"{self.sizes.tasks:,} tasks, each of which makes an item that three others read"
        both = [table(self.pair_head(label, "C++"), rows), self.alone_table("spill", label, spill, [""])]
        return "\n".join(filter(None, both))

    def peak_of(self, words: list[str]) -> int:
        """That of an order, which `replay` tells; 0 where the program has no such replay."""
        asked = [self.program, "replay", *words]
        done = subprocess.run(asked, stdout=subprocess.PIPE, stderr=subprocess.DEVNULL, text=True)
        return int(done.stdout.split()[1]) if done.returncode == 0 else 0

    # growth

    def growth(self) -> str:
        """Of all shapes, up to the tasks of the other tables."""
        shown = [("tree", self.inputs.tree, shape) for shape in TREES]
        shown += [("workflow", self.inputs.workflow, it) for it in (*WORKFLOWS, *HARD)]
        plans, checks = [], []
        for kind, make, shape in shown:
            planned, beside, checked = self.grown(kind, shape, make)
            last = [time_of(beside[-1]), ratios(planned[-1], beside[-1])[0]]
            sizes = self.sizes.growth
            plans.append([*growth_row(f"{kind}: {shape}", sizes, planned), *last])
            checks.append(growth_row(f"{kind}: {shape}", sizes, checked))
        head = growth_head(self.sizes.growth)
        both = [
            table(["`plan`, ms", *head, "C++ of the last, ms", "ratio"], plans),
            table(["`check`, ms", *head], checks),
        ]
        return GROWTH_NOTE + "\n" + "\n".join(both)

    def grown(
        self, kind: str, shape: str, make: Callable[[str, int], str]
    ) -> tuple[list[Figure], list[Figure], list[Figure]]:
        """The figures of `plan`, of its peer and of `check` at each size, up to the first that
        takes too long."""
        planned: list[Figure] = []
        beside: list[Figure] = []
        checked: list[Figure] = []
        for tasks in self.sizes.growth:
            row = f"growth: {kind}: {shape}: {tasks}"
            is_known = self.is_known(row)
            if not is_known:
                self.bench.forget(row)
            name = "" if is_known else make(shape, tasks)
            sides = [
                self.memplan("plan", f"--{kind}", name, name="plan"),
                self.beside("C++", self.peer, "plan", kind, name),
            ]
            plan, peer = self.bench.measure(row, sides, turns=2)
            self.agree(row, [plan, peer], sides)
            planned.append(plan)
            beside.append(peer)
            if plan.is_done:
                made = str(self.bench.output("plan"))
                side = self.memplan("check", f"--{kind}", name, "--plan", made, name="check")
                checked += self.bench.measure(row, [side], turns=2)
            if name and (tasks != self.sizes.tasks or shape in HARD):
                self.inputs.forget(name)
            if plan.status == KILLED:
                break
        return planned, beside, checked

    def is_known(self, row: str) -> bool:
        """Whether a row was measured whole: a check wants the plan that was made just before it."""
        plan = self.bench.figures.get(f"{row}: plan")
        return plan is not None and (not plan.is_done or f"{row}: check" in self.bench.figures)

    def hard(self) -> str:
        """Of the shapes that are hard for a planner, in small steps."""
        sizes, rows = self.sizes.hard_growth, []
        for shape in HARD:
            planned, beside = [], []
            for tasks in sizes:
                name = self.inputs.workflow(shape, tasks)
                sides = [
                    self.memplan("plan", "--workflow", name),
                    self.beside("model", self.model, "certify", "workflow", name),
                    self.beside("model without claims", self.model, "plan", "workflow", name),
                ]
                row = f"hard: {shape}: {tasks}"
                ours, _, bare = self.bench.measure(row, sides, same=("memplan", "model"))
                self.agree(row, [ours, bare], [sides[0], sides[2]])
                planned.append(ours)
                beside.append(bare)
            last = [time_of(beside[-1]), memory_of(beside[-1])]
            rows.append([*growth_row(shape, sizes, planned), *last])
        model = ["model without claims, ms of the last", "MB of the last"]
        text = table(["`plan`, ms", *growth_head(sizes), *model], rows)
        return GROWTH_NOTE + "\n" + text

    def all(self) -> dict[str, tuple[str, Callable[[], str]]]:
        return {
            "reading": ("Reading", self.reading),
            "replay": ("Replays", self.replay),
            "analysis": ("From a matrix to its tree of fronts", self.analysis_table),
            "mindeg": ("Minimum degree", self.mindeg),
            "post": ("Best postorder", self.post),
            "plan": ("Plans", self.plan),
            "hard": ("Growth on shapes that are hard for a planner", self.hard),
            "check": ("Checks", self.check),
            "simulate": ("Simulated runs", self.simulate),
            "fences": ("Fences", self.fences),
            "spill": ("Spill plans", self.spill),
            "fronts": ("Fronts in rounds", self.fronts),
            "segments": ("Segments", self.segments),
            "reduce": ("Workflows of task graphs", self.reduce),
            "graphs": ("Task graphs with several readers", self.graphs),
            "growth": ("Growth", self.growth),
        }


def growth_head(sizes: tuple[int, ...]) -> list[str]:
    return [*(f"{it:,}" for it in sizes), "exponent", "of the last two", "MB of the last"]


def growth_row(label: str, sizes: tuple[int, ...], figures: list[Figure]) -> list[str]:
    """Milliseconds of each size, the exponents, and the memory of the last."""
    cells = [time_of(it) for it in figures] + [""] * (len(sizes) - len(figures))
    done = [it.cpu for it in figures if it.is_done]
    exponents = ["", ""]
    if len(done) > 1:
        exponents = [exponent(sizes, done, since) for since in (0, len(done) - 2)]
    return [label, *cells, *exponents, memory_of(figures[len(done) - 1]) if done else ""]


def exponent(sizes: tuple[int, ...], times: list[float], since: int) -> str:
    """That with which time grows from one size to the last one that was done."""
    last = len(times) - 1
    return f"{log(times[last] / times[since]) / log(sizes[last] / sizes[since]):.2f}"


def first_line(words: list[str]) -> str:
    try:
        return subprocess.run(words, capture_output=True, text=True).stdout.split("\n")[0]
    except OSError:
        return f"no {words[0]}"


def machine(program: Path) -> str:
    """The machine, the day, and what it all was built with."""
    cpu = next(
        (it.split(":")[1].strip() for it in open("/proc/cpuinfo") if it.startswith("model name")),
        "",
    )
    kilobytes = int(open("/proc/meminfo").readline().split()[1])
    package = first_line(["dpkg-query", "-W", "-f=${Version}", "libsuitesparse-dev"])
    commit = first_line(["git", "-C", str(HERE), "describe", "--always", "--dirty"])
    built = datetime.date.fromtimestamp(program.stat().st_mtime)
    lines = [
        f"{datetime.date.today():%d %B %Y}, commit {commit}.",
        f"{cpu}, {os.cpu_count()} processors, {kilobytes / 2**20:.0f} GB; Linux"
        f" {platform.release()}; its load was {os.getloadavg()[0]:.1f} when this began.",
        f"memplan: built on {built:%d %B %Y} by {first_line(['rt', 'version'])}.",
        f"Peers: {first_line(['g++', '--version'])}, -O2; SuiteSparse {package}.",
    ]
    return "\n".join(lines)


def parsed() -> argparse.Namespace:
    raw = argparse.RawDescriptionHelpFormatter
    parser = argparse.ArgumentParser(
        description=__doc__, formatter_class=raw, usage=argparse.SUPPRESS
    )
    parser.add_argument("--quick", action="store_true", help=argparse.SUPPRESS)
    built = HERE.parent / "crates" / "memplan" / "out" / "memplan"
    parser.add_argument("--program", type=Path, default=built, help=argparse.SUPPRESS)
    parser.add_argument("--out", type=Path, default=HERE / "out", help=argparse.SUPPRESS)
    parser.add_argument("--turns", type=int, default=5, help=argparse.SUPPRESS)
    parser.add_argument("--limit", type=int, default=100, help=argparse.SUPPRESS)
    names = lambda text: set(text.split(","))
    parser.add_argument("--only", type=names, default=set(), help=argparse.SUPPRESS)
    parser.add_argument("--growth", help=argparse.SUPPRESS)
    parser.add_argument("--anew", action="store_true", help=argparse.SUPPRESS)
    return parser.parse_args()


def prepared(words: argparse.Namespace) -> Path:
    """The folder of the run, with the peers built in it."""
    if not words.program.is_file():
        raise SystemExit(f"there is no program {words.program}: ./memplan builds it")
    wants_suitesparse = not words.only or not words.only.isdisjoint(OF_SUITESPARSE)
    if wants_suitesparse and not SUITESPARSE.exists():
        raise SystemExit("SuiteSparse is not there: apt-get install libsuitesparse-dev")
    folder = words.out / "quick" if words.quick else words.out
    folder.mkdir(parents=True, exist_ok=True)
    target = "all" if wants_suitesparse else "plain"
    make = ["make", "-s", "-C", str(HERE / "peers"), f"OUT={folder.resolve()}", target]
    subprocess.run(make, check=True)
    if words.anew or words.quick or not is_same(words.program, folder):
        forget(folder)
    load = os.getloadavg()[0]
    if load > 0.5 and not words.quick:
        print(f"the machine is not idle: its load is {load:.1f}", file=sys.stderr)
    return folder.resolve()


def is_same(program: Path, folder: Path) -> bool:
    """Whether the folder's figures are of these very programs. From now on they are."""
    known, digest = folder / "programs", hashlib.sha256()
    for it in (program, *(folder / name for name in ("peer", "model", "analysis"))):
        digest.update(it.read_bytes() if it.exists() else b"none")
    was = known.read_text() if known.exists() else ""
    known.write_text(digest.hexdigest())
    return was == digest.hexdigest()


def forget(folder: Path) -> None:
    """Forgets figures, and the plans that a program made."""
    made = [*folder.glob("*.tree.plan"), *folder.glob("*.workflow.plan")]
    for it in (folder / "figures.json", *made):
        it.unlink(missing_ok=True)


def main() -> None:
    words = parsed()
    folder = prepared(words)
    bench = Bench(folder, 1 if words.quick else words.turns, words.limit)
    sizes = QUICK if words.quick else WHOLE
    if words.growth:
        sizes = sizes._replace(growth=tuple(map(int, words.growth.split(","))))
    inputs = Inputs(folder, sizes)
    tables = Tables(bench, inputs, str(words.program.resolve())).all()
    if unknown := words.only.difference(tables):
        raise SystemExit(f"there is no table {', '.join(sorted(unknown))}: {', '.join(tables)}")
    print(f"# Benchmarks\n\nMade by `bench/run.py`. {machine(words.program)}\n")
    print("Times are of the processor, user and system together, unless by the clock.")
    begin = monotonic()
    for name, (title, make) in tables.items():
        if words.only and name not in words.only:
            continue
        start = monotonic()
        with redirect_stdout(sys.stderr):
            print(f"{title}:", flush=True)
            text = make() or f"The program has no `{name}`.\n"
            print(f"  {monotonic() - start:.0f} seconds", flush=True)
        print(f"\n## {title}\n\n{text}", end="", flush=True)
    print(f"{(monotonic() - begin) / 60:.0f} minutes in all", file=sys.stderr)


if __name__ == "__main__":
    main()
