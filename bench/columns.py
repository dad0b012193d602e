#!/usr/bin/env python3
"""Tries on real matrices that what `columns` prints is the same analysis, in the order that was asked.

usage: bench/columns.py [--quick] [--least ROWS] [--most ROWS] PROGRAM SOURCE_FOLDER

SOURCE_FOLDER is what `apt-get source suitesparse` unpacks: its square patterns of 24 rows and more are
taken, both triangles put together, each in its natural order, by minimum degree (up to 50,000 rows),
and in METIS's order where ndmetis is there. Of each:

- the columns of the fronts, one front after the other, are each row once; as many in each front as
  its line in `tree` has; and `--print perm` prints just these;
- given back by `--perm`, they have the same tree of fronts to the byte, and its columns are the same;
- along the best postorder (`columns --order` of what `post` prints), given back, they have the same
  fronts in this order: each line of `tree` is that of the front that stood at this place, with its
  parent's new number, and their natural order has the peak that `post` printed; assembled in place too;
- along a plan, given back, they have as many fronts of the same columns and sizes, and the same
  least peak;
- with fronts merged, as by `--amalgamate 64`, they have the same fill;
- METIS's order has the fill that ndmetis reports, to the digits that it prints.

A line for each matrix and order tells how many of these hold. The last line is 'N passed, M failed',
and the status is 0 where none failed. --quick takes at most 500 rows.
"""
import argparse
import shutil
import subprocess
import sys
import tempfile
from collections.abc import Iterator
from pathlib import Path
from typing import NamedTuple

from orders import by_metis, fill_of, found, output
from source_matrices import matrices, write

FEWEST_ROWS, QUICK_ROWS, MOST_MINDEG = 24, 500, 50_000
ZEROS = 64


class Test(NamedTuple):
    """What is to hold, and whether it does."""

    what: str
    holds: bool


class Analysis:
    """A matrix in an order of elimination, in the hands of the program."""

    def __init__(self, program: Path, matrix: Path, order: list[str], folder: Path) -> None:
        self.program, self.matrix, self.folder = program, matrix, folder
        self.words = ["--matrix", str(matrix), *order]
        self.tree = self.printed("tree")
        self.lines = self.tree.split("\n")[2:-2]

    def printed(self, command: str, *more: object) -> str:
        return output(self.program, command, *self.words, *more)

    def kept(self, name: str, text: str) -> Path:
        file = self.folder / name
        file.write_text(text)
        return file

    def fronts(self, *more: object) -> list[list[int]]:
        """The columns of each front, in the order that is asked."""
        lines = self.printed("columns", *more).split("\n")
        assert lines[0] == f"columns {len(lines) - 3}" and lines[-2:] == ["end", ""], lines[0]
        return [[int(it) for it in line.split()] for line in lines[1:-2]]

    def given_back(self, *more: object) -> "Analysis":
        """The order of all columns, one front after the other, as a permutation file."""
        perm = self.kept("columns.perm", self.printed("columns", *more, "--print", "perm"))
        return Analysis(self.program, self.matrix, ["--perm", str(perm)], self.folder)

    def peak(self, command: str, *more: object) -> int:
        return int(found(self.printed(command, *more), r"(?m)^peak (\d+)$"))


def numbers_in(report: str) -> list[int]:
    """The order in what `post` or `plan` prints."""
    lines = report.split("\n")
    at = next(at for at, line in enumerate(lines) if line.startswith("order "))
    return [int(it) for it in lines[at + 1 : at + 1 + int(lines[at].split()[1])]]


def renumbered(lines: list[str], order: list[int]) -> list[str]:
    """The lines of a tree's nodes, where the nodes are numbered along an order."""
    place = {0: 0, **{node: at for at, node in enumerate(order, 1)}}
    rows = [lines[node - 1].split() for node in order]
    return [" ".join([str(place[int(row[0])]), *row[1:]]) for row in rows]


def own_order(mine: Analysis) -> Iterator[Test]:
    fronts = mine.fronts()
    columns = [it for front in fronts for it in front]
    yield Test("each row once", sorted(columns) == list(range(1, len(columns) + 1)))
    yield Test("as many columns", [len(it) for it in fronts] == [int(it.split()[-1]) for it in mine.lines])
    text = mine.printed("columns", "--print", "perm")
    yield Test("the same as a permutation file", text == "".join(f"{it}\n" for it in columns))
    back = mine.given_back()
    yield Test("the same tree", back.tree == mine.tree)
    yield Test("the same columns", back.fronts() == fronts)
    # what was printed is its own natural postorder
    yield Test("the same order again", back.printed("columns", "--print", "perm") == text)


def best_postorder(mine: Analysis, in_place: str) -> Iterator[Test]:
    report = mine.printed("post", "--inplace", in_place)
    order = numbers_in(report)
    back = mine.given_back("--inplace", in_place, "--order", mine.kept("post", report))
    own = back.kept("own.order", "".join(f"{it}\n" for it in range(1, len(order) + 1)))
    peak = back.peak("replay", "--inplace", in_place, "--order", own)
    yield Test(f"the fronts of post, in place {in_place}", back.lines == renumbered(mine.lines, order))
    yield Test(f"the peak of post, in place {in_place}", f"peak {peak}\n" == report[: len(f"peak {peak}\n")])


def planned(mine: Analysis) -> Iterator[Test]:
    report = mine.printed("plan")
    plan = mine.kept("plan", report)
    fronts = mine.fronts("--plan", plan)
    given = [set(it) for it in mine.fronts()]
    yield Test("the plan's order", [given[it - 1] for it in numbers_in(report)] == [set(it) for it in fronts])
    back = mine.given_back("--plan", plan)
    sizes = {frozenset(columns): line.split()[1:] for columns, line in zip(given, mine.lines)}
    others = {frozenset(columns): line.split()[1:] for columns, line in zip(back.fronts(), back.lines)}
    yield Test("the fronts of the plan", sizes == others)
    yield Test("the same least peak", back.peak("plan") == int(found(report, r"(?m)^peak (\d+)$")))


def merged(mine: Analysis) -> Iterator[Test]:
    back = mine.given_back("--amalgamate", ZEROS)
    yield Test("the fill of merged fronts", fill_of(back.tree).entries == fill_of(mine.tree).entries)


def all_of(mine: Analysis) -> Iterator[Test]:
    yield from own_order(mine)
    yield from best_postorder(mine, "no")
    yield from best_postorder(mine, "yes")
    yield from planned(mine)
    yield from merged(mine)


def tried(tests: Iterator[Test]) -> list[Test]:
    """What came out; where the program ends otherwise than it should, that has failed too."""
    done: list[Test] = []
    try:
        for it in tests:
            done.append(it)
    except (subprocess.CalledProcessError, AssertionError, LookupError, ValueError) as error:
        done.append(Test(f"after '{done[-1].what if done else 'nothing'}': {error!r}", False))
    return done


def tests_of(program: Path, matrix: Path, rows: int, folder: Path) -> Iterator[tuple[str, Analysis, list[Test]]]:
    """For each order of elimination what was tried."""
    natural = Analysis(program, matrix, [], folder)
    yield "natural", natural, tried(all_of(natural))
    if rows <= MOST_MINDEG:
        degree = Analysis(program, matrix, ["--ordering", "mindeg"], folder)
        yield "minimum degree", degree, tried(all_of(degree))
    metis = by_metis(matrix, folder)
    if metis:
        dissected = Analysis(program, matrix, metis.words, folder)
        fill = Test("METIS's fill", metis.told(fill_of(dissected.tree)) == metis.reported)
        yield "METIS", dissected, [fill, *tried(all_of(dissected))]


def parsed() -> argparse.Namespace:
    raw = argparse.RawDescriptionHelpFormatter
    parser = argparse.ArgumentParser(description=__doc__, formatter_class=raw, usage=argparse.SUPPRESS)
    parser.add_argument("program", type=Path, help=argparse.SUPPRESS)
    parser.add_argument("source", type=Path, help=argparse.SUPPRESS)
    parser.add_argument("--quick", action="store_true", help=argparse.SUPPRESS)
    parser.add_argument("--least", type=int, default=FEWEST_ROWS, help=argparse.SUPPRESS)
    parser.add_argument("--most", type=int, default=10**6, help=argparse.SUPPRESS)
    return parser.parse_args()


def main() -> int:
    words = parsed()
    most = min(words.most, QUICK_ROWS) if words.quick else words.most
    passed = failed = count = 0
    if not shutil.which("ndmetis"):
        print("not run: METIS's orders, for there is no ndmetis")
    with tempfile.TemporaryDirectory() as name:
        folder = Path(name)
        for called, pattern in matrices(words.source):
            if not words.least <= pattern.order <= most:
                continue
            count += 1
            matrix = folder / f"{called}.mtx"
            write(pattern, matrix)
            for order, mine, tests in tests_of(words.program.resolve(), matrix, pattern.order, folder):
                wrong = [it.what for it in tests if not it.holds]
                passed, failed = passed + len(tests) - len(wrong), failed + len(wrong)
                size = f"{pattern.order:,} rows, {len(mine.lines):,} fronts, {fill_of(mine.tree).entries:,} entries"
                print(f"{called}, {order}: {size}: {len(tests) - len(wrong)} of {len(tests)}", flush=True)
                for what in wrong:
                    print(f"FAILED: {called}, {order}: {what}", flush=True)
            matrix.unlink()
    print(f"{count} matrices")
    print(f"{passed} passed, {failed} failed")
    return 0 if passed and not failed else 1


if __name__ == "__main__":
    sys.exit(main())
