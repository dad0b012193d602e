#!/usr/bin/env python3
"""Runs memplan on random words and files, and looks how each run ends.

usage: fuzz.py PROGRAM [--cases N] [--first N] [--seed S] [--jobs J] [--keep FOLDER]      (PROGRAM is crates/memplan/out/memplan)

A case is a line of words and the files that it names. Files are those of examples/ and random small ones of each kind and version; half of
the cases have one that is changed in a few bytes, tokens or lines, and some have changed words. The seed and the number of a case make it,
so the same call runs the same cases. Of each run it asks what docs/FORMATS.md, PLANS.md and REPORTS.md say:

- the status is one of the table, standard error holds its one line or nothing, and standard output is empty where nothing is printed;
- a refusal is one line of its grammar, about a file that the words name, and the one that the plain readers of formats.py find;
- peaks, faults of orders, verdicts on plans and fences, simulated runs, rows and columns of fronts, rests of graphs and least volumes that are spilled are
  those of the plain models of models.py and fronts.py, and so are the staircases of terms of few tasks; a reduced graph has the system of its workflow;
- no order of ten tasks or fewer has a lower peak than a plan, and `check` says yes to what `plan` and `fence` printed;
- in the order of elimination that `columns` prints, a matrix has the fronts that it had before; an order of a workflow, by the tasks of the graph that it is
  of, is one of the graph, with a peak that is no higher;
- a tree that `tree` prints has the plan of its matrix, a best postorder is a postorder and has its peak;
- the same words give the same bytes again, and a full or closed output is a write fault.

It prints the number of cases by command and status. A case that is wrong is kept in FOLDER, and the status is then 1.
"""
import argparse
import json
import multiprocessing
import random
import subprocess
import sys
import tempfile
from collections import Counter
from pathlib import Path
from typing import NamedTuple, Optional

from bench import SECONDS, Bench, Ending
from cases import COMMANDS, Case, known_commands, random_case
from judge import Judge, output_faults


class Result(NamedTuple):
    """A case that was run: its command, its status, the runs that it took, and what was wrong."""

    command: str
    status: int
    runs: int
    wrongs: list[str]


class Worker:
    """Runs cases of a seed in a folder of its own."""

    def __init__(self, program: Path, seed: int, keep: Path) -> None:
        self.program, self.seed, self.keep = program, seed, keep
        # made in the process that runs the cases
        self.home: Optional[tempfile.TemporaryDirectory] = None

    def set_up(self) -> None:
        self.home = tempfile.TemporaryDirectory()
        self.bench = Bench(self.program, Path(self.home.name) / "files")
        self.commands = known_commands(self.bench)

    def __call__(self, number: int) -> Result:
        if self.home is None:
            self.set_up()
        self.bench.runs = 0
        draw = random.Random(f"{self.seed} {number}")
        case = random_case(draw, self.bench, self.commands)
        self.bench.put(case.files)
        ending, wrongs = self.judged(case, draw.random() < 0.05)
        if wrongs:
            self.keep_case(number, case, ending, wrongs)
        command = case.words[0] if case.words and case.words[0] in COMMANDS else "another word"
        return Result(command, ending.status, self.bench.runs, wrongs)

    def judged(self, case: Case, with_faults: bool) -> tuple[Ending, list[str]]:
        try:
            ending = self.bench.run(case.words)
        except subprocess.TimeoutExpired:
            return Ending(-1, b"", b""), [f"the run takes more than {SECONDS} seconds"]
        try:
            wrongs = list(Judge(self.bench, case, ending).wrongs())
            return ending, wrongs + (list(output_faults(self.bench, case, ending)) if with_faults else [])
        except (LookupError, ValueError, OSError, StopIteration, subprocess.TimeoutExpired) as error:
            return ending, [f"this script cannot judge it: {error!r}"]

    def keep_case(self, number: int, case: Case, ending: Ending, wrongs: list[str]) -> None:
        folder = self.keep / str(number)
        folder.mkdir(parents=True, exist_ok=True)
        for name, text in case.files.items():
            (folder / name).write_bytes(text)
        told = {"words": case.words, "ending": [ending.status, repr(ending.report), repr(ending.complaint)], "wrong": wrongs}
        (folder / "case.json").write_text(json.dumps(told, indent=1) + "\n")


def tell(results: list[Result]) -> None:
    """Prints the number of cases by command and status."""
    counts = Counter((result.command, result.status) for result in results)
    statuses = sorted({status for _, status in counts})
    print("command      " + "".join(f"{status:>8}" for status in statuses) + "     all")
    for command in [*COMMANDS, "another word"]:
        row = [counts[command, status] for status in statuses]
        if any(row):
            print(f"{command:<13}" + "".join(f"{count:>8}" for count in row) + f"{sum(row):>8}")
    wrong = sum(1 for result in results if result.wrongs)
    print(f"{len(results)} cases, {sum(result.runs for result in results)} runs of the program, {wrong} cases wrong")


def arguments() -> argparse.Namespace:
    parser = argparse.ArgumentParser(description=__doc__, formatter_class=argparse.RawDescriptionHelpFormatter)
    parser.add_argument("program", type=Path)
    parser.add_argument("--cases", type=int, default=20000)
    parser.add_argument("--first", type=int, default=1, help="the number of the first case")
    parser.add_argument("--seed", type=int, default=1)
    parser.add_argument("--jobs", type=int, default=2)
    parser.add_argument("--keep", type=Path, default=Path("wrong-cases"))
    return parser.parse_args()


def main() -> int:
    given = arguments()
    worker = Worker(given.program.resolve(), given.seed, given.keep.resolve())
    cases = range(given.first, given.first + given.cases)
    with multiprocessing.Pool(given.jobs) as pool:
        results = []
        for result in pool.imap(worker, cases, chunksize=50):
            for wrong in result.wrongs:
                print(f"case {given.first + len(results)}: {wrong}", flush=True)
            results.append(result)
    tell(results)
    return 1 if any(result.wrongs for result in results) else 0


if __name__ == "__main__":
    sys.exit(main())
