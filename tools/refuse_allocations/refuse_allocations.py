#!/usr/bin/env python3
"""Refuses memplan its memory, one allocation after the other, and looks how each run ends.

usage: refuse_allocations.py PROGRAM        (PROGRAM is crates/memplan/out/memplan, which ./memplan builds)

Each line of words below is run whole at first, which counts its allocations. Then it is run again for each of them, twice: the
allocation alone is refused; it and all after it are. Every run must end with the report, the line on standard error and the status of the
whole run, or with `memplan: no memory`, its status and an empty standard output. refuse.c, which does the refusing, is compiled with cc
for the C library of GNU. The last line counts the allocations that were refused; the status is 1 where a run ended otherwise.
"""
import os
import subprocess
import sys
import tempfile
from collections.abc import Iterator
from pathlib import Path
from typing import NamedTuple

HERE = Path(__file__).resolve().parent
ROOT = HERE.parent.parent

# The words, over the files of examples/: first what ends with a report, of each command, then what is refused.
RUNS = """
replay --tree five.tree --order five.order
replay --tree shares.tree --order two.order
replay --tree five.tree --plan five.plan
replay --workflow branches.workflow --order branches.order
replay --matrix arrow.mtx --perm arrow.perm --order three.order
plan --tree five.tree
plan --tree=roots.tree --print=json
plan --workflow branches.workflow
plan --workflow notasks.workflow
plan --matrix grid.mtx --ordering mindeg --inplace yes
plan --matrix arrow.mtx --perm arrow.perm --shape square
check --tree five.tree --plan five.plan
check --tree five.tree --plan five.plan --workers 4
check --workflow branches.workflow --plan branches.plan --workers 2
simulate --tree five.tree --order five.order --bound 11 --workers 2
simulate --tree four.tree --order four.order --priority four.priority --bound 6 --workers 1
simulate --tree five.tree --plan five.plan --bound 22 --workers 4096
fence --tree five.tree --order five.order --bound 11
fence --workflow branches.workflow --order branches.order --bound 13 --workers 2
fence --graph shared.graph --order shared.order --bound 16
fence --graph four.graph --order four.order --bound 14 --workers 3
check --tree five.tree --fences five.fences
check --graph shared.graph --fences shared.fences
spill --tree five.tree --order five.order --bound 10
spill --workflow branches.workflow --order branches.order --bound 12
replay --graph shared.graph --order shared.order
simulate --graph shared.graph --order shared.order --bound 16 --workers 2
simulate --graph four.graph --order four.order --priority four.priority --bound 14 --workers 1
spill --graph shared.graph --order shared.order --bound 13
reduce --graph four.graph
reduce --graph bridge.graph
reduce --graph fork.graph
reduce --graph shared.graph
plan --graph shared.graph
plan --graph shared.graph --order shared.order --print json
plan --graph fork.graph --effort 1000
bound --graph shared.graph
bound --graph shared.graph --order shared.order
check --graph shared.graph --plan shared.plan
fronts --matrix arrow.mtx --perm arrow.perm --bound 4 --workers 2
fronts --matrix grid.mtx --ordering mindeg --bound 9 --workers 1
segments --tree five.tree
segments --workflow branches.workflow
segments --matrix arrow.mtx --ordering mindeg
tree --matrix arrow.mtx
tree --matrix arrow.mtx --perm arrow.perm --inplace yes
tree --matrix grid.mtx --ordering mindeg --amalgamate 1
post --tree five.tree
post --matrix grid.mtx
demo --seed 1 --tasks 40
demo --seed 1 --tasks 40 --kind workflow
demo --kind grid --rows 4 --cols 5
upgrade --tree five.tree
upgrade --workflow branches.workflow
upgrade --graph four.graph
upgrade --plan four.plan --priority four.priority
replay --tree cycle.tree --order two.order
replay --tree five.tree --order two.order
replay --tree five.tree --order none
check --tree four.tree --plan five.plan
simulate --tree five.tree --order five.order --bound 10 --workers 2
fence --tree five.tree --order five.order --bound 10
check --tree four.tree --fences five.fences
check --tree five.tree --fences shared.fences
spill --tree five.tree --order five.order --bound 9
simulate --graph shared.graph --order shared.order --bound 15 --workers 2
spill --graph shared.graph --order shared.order --bound 11
fronts --matrix arrow.mtx --perm arrow.perm --bound 3 --workers 2
tree --matrix arrow.mtx --perm three.order
plan --tree five.tree --print xml
"""


class Ending(NamedTuple):
    """How a run ended."""

    status: int
    report: bytes
    complaint: bytes


class Run(NamedTuple):
    """A run that was refused some allocations, and how many it asked for and was refused."""

    ending: Ending
    asked: int
    refused: int


NO_MEMORY = Ending(8, b"", b"memplan: no memory\n")

USAGE = 2


class Program:
    """The program, with the library that refuses."""

    def __init__(self, path: Path, folder: Path) -> None:
        self.path = path.resolve()
        self.library = folder / "refuse.so"
        self.tally = folder / "tally"
        build = ["cc", "-O1", "-Wall", "-shared", "-fPIC", "-o", str(self.library), str(HERE / "refuse.c")]
        subprocess.run(build, check=True)

    def run(self, words: list[str], first: int, after: bool) -> Run:
        """Runs these words; the allocation of this number is refused, 0 for none, and where asked all after it."""
        self.tally.write_bytes(bytes(16))
        environment = {
            **os.environ,
            "LD_PRELOAD": str(self.library),
            "REFUSE_TALLY": str(self.tally),
            "REFUSE_FROM": str(first),
            "REFUSE_AFTER": str(int(after)),
        }
        done = subprocess.run(
            [self.path, *words], cwd=ROOT / "examples", env=environment, stdin=subprocess.DEVNULL, capture_output=True, timeout=60
        )
        counts = self.tally.read_bytes()
        asked, refused = (int.from_bytes(part, sys.byteorder) for part in (counts[:8], counts[8:]))
        return Run(Ending(done.returncode, done.stdout, done.stderr), asked, refused)

    def refused_in_turn(self, words: list[str], after: bool) -> Iterator[tuple[int, Run]]:
        """The runs that are refused their first allocation, their second one, and so on until none is left to refuse."""
        first = 1
        while True:
            run = self.run(words, first, after)
            if run.refused == 0:
                return
            yield first, run
            first += 1


class Count:
    """What was refused of one command, or of all."""

    def __init__(self) -> None:
        self.words = self.runs = self.refused = self.reports = self.wants = self.wrong = 0

    def add(self, other: "Count") -> None:
        for name, number in vars(other).items():
            setattr(self, name, getattr(self, name) + number)

    def __str__(self) -> str:
        return (
            f"{self.words} lines of words, {self.runs} runs, {self.refused} allocations refused: "
            f"{self.reports} ended with the report, {self.wants} with want of memory, {self.wrong} otherwise"
        )


def judge(words: list[str], whole: Ending, place: str, run: Run, count: Count) -> None:
    """Counts a run by how it ended, and tells where that was wrong."""
    count.runs += 1
    count.refused += run.refused
    if run.ending == NO_MEMORY:
        count.wants += 1
    elif run.ending == whole:
        count.reports += 1
    else:
        count.wrong += 1
        print(f"wrong: {' '.join(words)}: refused {place}: {run.ending}, in place of {whole}")


def refuse(program: Program, words: list[str]) -> Count:
    """Refuses each allocation of these words in turn. Words that the program does not know count for nothing."""
    count = Count()
    whole = program.run(words, 0, False)
    if whole.ending.status == USAGE and words[0] == "upgrade":
        return count
    count.words = 1
    for after in (False, True):
        for first, run in program.refused_in_turn(words, after):
            judge(words, whole.ending, f"{first} and all after it" if after else f"{first} alone", run, count)
    return count


def main() -> int:
    if len(sys.argv) != 2:
        print(__doc__, file=sys.stderr)
        return 2
    by_command: dict[str, Count] = {}
    with tempfile.TemporaryDirectory() as folder:
        program = Program(Path(sys.argv[1]), Path(folder))
        for line in RUNS.split("\n"):
            words = line.split()
            if words:
                by_command.setdefault(words[0], Count()).add(refuse(program, words))
    total = Count()
    for command, count in by_command.items():
        total.add(count)
        print(f"{command}: {count}")
    print(f"all: {total}")
    return 1 if total.wrong else 0


if __name__ == "__main__":
    sys.exit(main())
