#!/usr/bin/env python3
"""Which bounds the program finds of task graphs, what they cost, and how near the best orders known come to them: a table in Markdown.

usage: bounds.py PROGRAM [--plans] [--tasks N] [--seed S] [--effort E] [--families A,B,..]

The graphs are those of families.py, all of them if nothing else is said, of about N tasks (1,000) and with the seed S (1). Of each
`PROGRAM bound` is run with the effort E, or with its own, and then `PROGRAM check` on a plan with what it found: along the order of the
numbers, or breadth first where that is no traversal. Seconds are of processor time of a whole run, which is made once. For N = 1000 and
N = 10000 a prototype's bound stands beside the program's, and the best order known is its best one; else, and where it is better, that
of the plan. Amounts are the lines of the base and of all blockers; bytes are those of the evidence, between the line of the bound and
`end`.

With --plans it is `PROGRAM plan` that is run, and `PROGRAM check` on what it prints: the table has the peak of the plan and its bound, which may be
another than that of `bound`, since claims show the least peak where the graph has a term; bytes are those of the whole plan.

What is wrong is told on standard error, and the status is then 1: a run that fails, another verdict than the numbers ask for, a bound
above the best order known.
"""
from __future__ import annotations

import argparse
import re
import resource
import subprocess
import sys
import tempfile
from pathlib import Path
from typing import NamedTuple, Optional

import families

HEAD = (
    ["family", "tasks", "bound", "prototype's bound", "best order known", "best/bound"]
    + ["search, s", "check, s", "blockers", "amounts", "bytes"]
)


PLAN_HEAD = ["family", "tasks", "peak", "bound", "peak/bound", "prototype's peak", "plan, s", "check, s", "evidence", "bytes"]


class Known(NamedTuple):
    """What the prototype found of a graph: the peak of its best order, and its best bound."""

    peak: int
    bound: int


# A prototype in C++, which is not kept here, found these on 29 November 2026: the best of several orders, after 5 to 20 seconds of search
# each, and the best of several bounds, or the least peak where its reductions found that. By N, and not by the number of tasks.
KNOWN: dict[int, dict[str, Known]] = {
    1_000: {
        "montage": Known(1804, 1804),
        "epigenomics": Known(1758, 1758),
        "cybershake": Known(2018, 2018),
        "ligo": Known(456, 456),
        "sipht": Known(363, 363),
        "cholesky": Known(5252, 4932),
        "cholesky-st": Known(4676, 4292),
        "lu": Known(7172, 5636),
        "lu-st": Known(5892, 4932),
        "qr": Known(5800, 5608),
        "dask-std": Known(22708, 22708),
        "dask-rechunk": Known(7023, 6981),
        "dask-matmul": Known(4916, 2622),
        "dask-join": Known(2520, 2453),
        "snakemake": Known(3323, 3286),
        "mapreduce": Known(52987, 52987),
        "fft": Known(2081, 2065),
        "stencil": Known(295, 281),
        "heat": Known(668, 663),
        "training": Known(10007, 10007),
        "layered": Known(12316, 12309),
        "erdos": Known(4596, 1503),
        "forkjoin": Known(1033, 679),
        "randtree": Known(4613, 4613),
    },
    10_000: {
        "montage": Known(18310, 18310),
        "epigenomics": Known(8234, 8234),
        "cybershake": Known(12824, 12824),
        "ligo": Known(2132, 2129),
        "sipht": Known(2316, 2316),
        "cholesky": Known(24388, 15684),
        "cholesky-st": Known(23172, 16260),
        "lu": Known(30980, 11332),
        "lu-st": Known(28036, 21252),
        "qr": Known(27848, 25832),
        "dask-std": Known(222069, 222069),
        "dask-rechunk": Known(68986, 68631),
        "dask-matmul": Known(24759, 721),
        "dask-join": Known(27821, 26603),
        "snakemake": Known(26542, 26340),
        "mapreduce": Known(1733164, 1733164),
        "fft": Known(16417, 16401),
        "stencil": Known(939, 835),
        "heat": Known(2071, 2023),
        "training": Known(99412, 99412),
        "layered": Known(116163, 116163),
        "erdos": Known(46461, 466),
        "forkjoin": Known(6910, 991),
        "randtree": Known(5304, 5304),
    },
}


class Wrong(Exception):
    """What a run should not have done."""


class Answer(NamedTuple):
    """What a program wrote, and the seconds of processor time that it took."""

    text: str
    seconds: float


class Evidence(NamedTuple):
    """A bound, and how much the lines are that show it."""

    bound: int
    blockers: int
    amounts: int
    size: int


def first_number(word: str, report: str) -> int:
    """The number of the first line of a report, which has to be that of a word."""
    found = re.match(rf"{word} ([0-9]+)\n", report)
    if not found:
        raise Wrong(f"{report[:80]!r} has no {word}")
    return int(found[1])


def evidence_of(report: str) -> Evidence:
    """What stands behind the bound."""
    bound = first_number("bound", report)
    if not report.endswith("\nend\n"):
        raise Wrong("the evidence has no end")
    lines = report.splitlines(keepends=True)[1:-1]
    blockers = sum(1 for line in lines if line.startswith("blocker "))
    # claims begin with a number too
    amounts = sum(1 for line in lines if line[0].isdecimal()) if blockers else 0
    return Evidence(bound, blockers, amounts, sum(map(len, lines)))


class Trial:
    """A graph of a family in a folder, and what the program says of it."""

    def __init__(self, program: Path, folder: Path, family: str, count: int, seed: int) -> None:
        self.program, self.family = program, family
        self.known = KNOWN.get(count, {}).get(family) if seed == 1 else None
        self.graph = families.graph_of(family, count, seed)
        self.graph_file, self.order_file, self.plan_file = (folder / name for name in ("graph", "order", "plan"))
        self.graph_file.write_text(self.graph.text(), encoding="ascii")
        self.order = list(range(1, self.graph.count + 1))
        if not self.graph.is_traversal(self.order):
            self.order = self.graph.breadth_first()
        self.order_file.write_text(self.lines_of_order(), encoding="ascii")

    def lines_of_order(self) -> str:
        return "".join(f"{task}\n" for task in self.order)

    def answer(self, command: str, *words: str) -> Answer:
        """Of the program about the graph; it has to end well."""
        before = resource.getrusage(resource.RUSAGE_CHILDREN)
        run = [str(self.program), command, "--graph", str(self.graph_file), *words]
        done = subprocess.run(run, stdin=subprocess.DEVNULL, stdout=subprocess.PIPE, stderr=subprocess.PIPE, text=True)
        after = resource.getrusage(resource.RUSAGE_CHILDREN)
        if done.returncode != 0:
            raise Wrong(f"{command}: status {done.returncode}, {(done.stdout + done.stderr)[:80]!r}")
        return Answer(done.stdout, after.ru_utime - before.ru_utime + after.ru_stime - before.ru_stime)

    def peak(self) -> int:
        """That of the order."""
        return first_number("peak", self.answer("replay", "--order", str(self.order_file)).text)

    def check(self, peak: int, evidence: Evidence, report: str) -> float:
        """The seconds of the check of the plan along the order."""
        plan = f"plan 3\norder {len(self.order)}\n{self.lines_of_order()}peak {peak}\n{report}"
        self.plan_file.write_text(plan, encoding="ascii")
        checked = self.answer("check", "--plan", str(self.plan_file))
        wanted = f"yes {peak} least\n" if evidence.bound == peak else f"yes {peak} above {evidence.bound}\n"
        if checked.text != wanted:
            raise Wrong(f"check: {checked.text[:80]!r} in place of {wanted!r}")
        return checked.seconds

    def plan_cells(self, effort: Optional[int]) -> list[str]:
        """The row of the table of plans."""
        planned = self.answer("plan", *([] if effort is None else ["--effort", str(effort)]))
        self.plan_file.write_text(planned.text, encoding="ascii")
        tail = planned.text.split("\n")[2 + self.graph.count :]
        peak, bound, evidence = int(tail[0].removeprefix("peak ")), int(tail[1].removeprefix("bound ")), tail[2].split()[0]
        checked = self.answer("check", "--plan", str(self.plan_file))
        wanted = f"yes {peak} least\n" if bound == peak else f"yes {peak} above {bound}\n"
        if checked.text != wanted:
            raise Wrong(f"check: {checked.text[:80]!r} in place of {wanted!r}")
        known = self.known
        if known and bound > known.peak:
            raise Wrong(f"the bound {bound} is accepted, and an order has the peak {known.peak}")
        return (
            [self.family, number(self.graph.count), number(peak), number(bound), f"{peak / bound:.4f}" if bound else ""]
            + [number(known.peak) if known else "", f"{planned.seconds:.2f}", f"{checked.seconds:.2f}", evidence, number(len(planned.text))]
        )

    def cells(self, effort: Optional[int]) -> list[str]:
        """The row of the table of bounds."""
        searched = self.answer("bound", *([] if effort is None else ["--effort", str(effort)]))
        evidence = evidence_of(searched.text)
        peak = self.peak()
        seconds = self.check(peak, evidence, searched.text)
        known = self.known
        best = min(peak, known.peak) if known else peak
        if evidence.bound > best:
            raise Wrong(f"the bound {evidence.bound} is accepted, and an order has the peak {best}")
        ratio = f"{best / evidence.bound:.4f}" if evidence.bound else ""
        return (
            [self.family, number(self.graph.count), number(evidence.bound), number(known.bound) if known else "", number(best), ratio]
            + [f"{searched.seconds:.2f}", f"{seconds:.2f}"]
            + [number(it) for it in (evidence.blockers, evidence.amounts, evidence.size)]
        )


def number(value: int) -> str:
    return f"{value:,}"


def families_of(words: str) -> list[str]:
    """Names of families behind commas."""
    names = words.split(",")
    unknown = [name for name in names if name not in families.FAMILIES]
    if unknown:
        raise argparse.ArgumentTypeError(f"there is no family {', '.join(unknown)}; families.py --list has their names")
    return names


def arguments() -> argparse.Namespace:
    parser = argparse.ArgumentParser(description=__doc__, formatter_class=argparse.RawDescriptionHelpFormatter, usage=argparse.SUPPRESS)
    parser.add_argument("program", type=Path, help=argparse.SUPPRESS)
    parser.add_argument("--plans", action="store_true", help=argparse.SUPPRESS)
    parser.add_argument("--tasks", type=int, default=1_000, help=argparse.SUPPRESS)
    parser.add_argument("--seed", type=int, default=1, help=argparse.SUPPRESS)
    parser.add_argument("--effort", type=int, help=argparse.SUPPRESS)
    parser.add_argument("--families", type=families_of, default=list(families.FAMILIES), help=argparse.SUPPRESS)
    given = parser.parse_args()
    if given.tasks < families.FEWEST_TASKS:
        parser.error(f"--tasks is at least {families.FEWEST_TASKS}")
    if not given.program.is_file():
        parser.error(f"there is no program {given.program}")
    return given


def print_row(cells: list[str]) -> None:
    """Each as soon as it is known: a run of all families may take long."""
    print(f"| {' | '.join(cells)} |", flush=True)


def main() -> int:
    given = arguments()
    wrongs = 0
    head = PLAN_HEAD if given.plans else HEAD
    print_row(head)
    print_row(["---"] + ["--:"] * (len(head) - 1))
    with tempfile.TemporaryDirectory() as folder:
        for family in given.families:
            try:
                trial = Trial(given.program.resolve(), Path(folder), family, given.tasks, given.seed)
                print_row(trial.plan_cells(given.effort) if given.plans else trial.cells(given.effort))
            except Wrong as wrong:
                wrongs += 1
                print(f"{family}: {wrong}", file=sys.stderr, flush=True)
    return 1 if wrongs else 0


if __name__ == "__main__":
    sys.exit(main())
