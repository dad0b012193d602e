#!/usr/bin/env python3
"""What a plan gains on real matrices, over the postorders that solvers use: tables in Markdown.

usage: bench/gains.py [--quick] [--program FILE] [--out FOLDER] [SOURCE_FOLDER]

SOURCE_FOLDER is what `apt-get source suitesparse` unpacks: its square matrices of 100 rows and more
are taken, and without it only meshes that are made here. Each is eliminated in its natural order,
by minimum degree and in AMD's order, with and without in-place assembly; memplan makes the tree of
fronts, and tells three peaks of it: of the natural postorder, of the best one and the least of all
orders. It wants g++, make and libsuitesparse-dev. A whole run takes some minutes; it goes on where
it was stopped, from what stands in FOLDER (bench/out). --quick takes matrices of at most 300 rows.
"""
import argparse
import datetime
import json
import subprocess
import sys
from collections.abc import Iterator
from pathlib import Path
from typing import NamedTuple, Optional

import shapes
from measuring import table
from source_matrices import matrices, write

PAGE = """
## Gains on real matrices

Made by `bench/gains.py` on {}. The matrices are those of 100 rows and more in
SuiteSparse's source package, both triangles put together, and two meshes. Peaks of memory are in
entries of one triangle; natural is the postorder that the elimination tree has by its numbers, best
the best of all postorders, least the least of all orders, which `plan` finds. Behind a peak stands
by how much it is above the least. In place: a front is assembled in the place of its greatest
child's block.
"""

HERE = Path(__file__).resolve().parent
FEWEST_ROWS, QUICK_ROWS = 100, 300
ORDERS = {"natural": "natural", "mindeg": "minimum degree", "amd": "AMD"}


class Peaks(NamedTuple):
    """Memory of a tree of fronts: along its natural postorder, its best one, and at least."""

    natural: int
    best: int
    least: int

    @property
    def natural_excess(self) -> float:
        return 100 * (self.natural - self.least) / self.least

    @property
    def best_excess(self) -> float:
        return 100 * (self.best - self.least) / self.least


class Case(NamedTuple):
    """A matrix, an order of elimination, and the peaks without and with in-place assembly."""

    matrix: str
    rows: int
    order: str
    apart: Peaks
    in_place: Peaks


class Planner:
    """The program over one matrix file at a time."""

    def __init__(self, program: Path, folder: Path) -> None:
        self.program, self.folder = program, folder
        self.tree, self.numbers, self.perm = (
            folder / it for it in ("gains.tree", "gains.order", "gains.perm")
        )

    def described(self) -> str:
        """The day, and the commit of the sources."""
        words = ["git", "-C", str(HERE), "describe", "--always", "--dirty"]
        commit = subprocess.run(words, stdout=subprocess.PIPE, text=True).stdout.strip()
        return f"{datetime.date.today():%d %B %Y}, commit {commit}"

    def printed(self, *words: str) -> bytes:
        return subprocess.run([self.program, *words], stdout=subprocess.PIPE, check=True).stdout

    def peak(self, *words: str) -> int:
        lines = self.printed(*words).split(b"\n")
        return int(next(line for line in lines if line.startswith(b"peak")).split()[1])

    def peaks(self, matrix: str, order: str, in_place: str) -> Peaks:
        choice = {
            "natural": [],
            "mindeg": ["--ordering", "mindeg"],
            "amd": ["--perm", str(self.perm)],
        }[order]
        text = self.printed("tree", "--matrix", matrix, *choice, "--inplace", in_place)
        self.tree.write_bytes(text)
        nodes = int(text.split(b"\n")[1].split()[1])
        self.numbers.write_text("".join(f"{node}\n" for node in range(1, nodes + 1)))
        tree = ["--tree", str(self.tree)]
        natural = self.peak("replay", *tree, "--order", str(self.numbers))
        return Peaks(natural, self.peak("post", *tree), self.peak("plan", *tree))

    def case(self, name: str, rows: int, matrix: str, order: str) -> Case:
        if order == "amd":
            found = subprocess.run(
                [self.folder / "analysis", "amd", matrix], stdout=subprocess.PIPE, check=True
            )
            self.perm.write_bytes(found.stdout)
        return Case(
            name, rows, order, self.peaks(matrix, order, "no"), self.peaks(matrix, order, "yes")
        )


def made(folder: Path, is_quick: bool) -> Iterator[tuple[str, int, str]]:
    """Meshes: a grid and a cube."""
    side, edge = (12, 6) if is_quick else (200, 30)
    grid, cube = folder / f"grid_{side}_{side}.mtx", folder / f"cube_{edge}_0.mtx"
    script = str(HERE.parent / "tools" / "make_matrices.py")
    subprocess.run([sys.executable, script, "grid", str(side), str(side), str(grid)], check=True)
    cube.write_text(shapes.text_of("cube", edge))
    yield f"grid {side} by {side}", side * side, str(grid)
    yield f"cube {edge} by {edge} by {edge}", edge**3, str(cube)


def real(folder: Path, source: Optional[Path], is_quick: bool) -> Iterator[tuple[str, int, str]]:
    for name, pattern in matrices(source) if source else ():
        if FEWEST_ROWS <= pattern.order <= (QUICK_ROWS if is_quick else 10**6):
            file = folder / f"real_{name}.mtx"
            write(pattern, file)
            yield name, pattern.order, str(file)


# memplan refuses minimum degree for more rows
MOST_MINDEG = 50_000


def cases(planner: Planner, source: Optional[Path], is_quick: bool) -> list[Case]:
    """All cases, those that were found before from the store."""
    store = planner.folder / "gains.json"
    known = json.loads(store.read_text()) if store.exists() else {}
    found = []
    inputs = [*real(planner.folder, source, is_quick), *made(planner.folder, is_quick)]
    for name, rows, matrix in inputs:
        for order in ORDERS:
            if order == "mindeg" and rows > MOST_MINDEG:
                continue
            key = f"{name}: {order}"
            if key not in known:
                print(f"  {key}", file=sys.stderr, flush=True)
                known[key] = planner.case(name, rows, matrix, order)
                new = store.with_suffix(".new")
                new.write_text(json.dumps(known, indent=0))
                new.replace(store)
            _, _, _, apart, in_place = known[key]
            found.append(Case(name, rows, order, Peaks(*apart), Peaks(*in_place)))
    return found


def percent(excess: float) -> str:
    return f"{excess:.1f} %" if excess >= 0.05 else "less than 0.1 %"


def cell(peak: int, least: int) -> str:
    """A peak, and by how much it is above the least."""
    more = f" (+ {percent(100 * (peak - least) / least)})" if peak > least else ""
    return f"{peak:,}{more}"


def row_of(case: Case) -> list[str]:
    cells = [cell(peak, peaks.least) for peaks in (case.apart, case.in_place) for peak in peaks]
    return [case.matrix, f"{case.rows:,}", ORDERS[case.order], *cells]


def worst(found: list[tuple[str, float]]) -> str:
    name, excess = max(found, key=lambda it: it[1])
    return f"{percent(excess)} ({name})" if excess > 0 else "none"


def summary(found: list[Case]) -> list[list[str]]:
    rows = []
    for order, word in ORDERS.items():
        mine = [case for case in found if case.order == order]
        for assembly, of in (("out of place", "apart"), ("in place", "in_place")):
            peaks = [(case.matrix, getattr(case, of)) for case in mine]
            natural = sum(it.natural == it.least for _, it in peaks)
            best = sum(it.best == it.least for _, it in peaks)
            most_natural = worst([(name, it.natural_excess) for name, it in peaks])
            most_best = worst([(name, it.best_excess) for name, it in peaks])
            label = f"{word}, {assembly}"
            rows.append([label, str(len(peaks)), str(natural), str(best), most_natural, most_best])
    return rows


def random_trees(planner: Planner, is_quick: bool) -> list[list[str]]:
    """Trees of random sizes, as `demo` makes and plans them."""
    rows = []
    for tasks in (50, 100) if is_quick else (1_000, 10_000, 100_000, 1_000_000):
        excess = []
        for seed in range(1, 6):
            text = planner.printed("demo", "--seed", str(seed), "--tasks", str(tasks)).decode()
            told = dict(line.split() for line in text.split("\n") if " " in line)
            excess.append(100 * (int(told["postorder"]) / int(told["peak"]) - 1))
        rows.append([f"{tasks:,}", *(f"{it:.1f} %" for it in excess)])
    return rows


def parsed() -> argparse.Namespace:
    raw = argparse.RawDescriptionHelpFormatter
    parser = argparse.ArgumentParser(
        description=__doc__, formatter_class=raw, usage=argparse.SUPPRESS
    )
    built = HERE.parent / "crates" / "memplan" / "out" / "memplan"
    parser.add_argument("source", nargs="?", type=Path, help=argparse.SUPPRESS)
    parser.add_argument("--quick", action="store_true", help=argparse.SUPPRESS)
    parser.add_argument("--program", type=Path, default=built, help=argparse.SUPPRESS)
    parser.add_argument("--out", type=Path, default=HERE / "out", help=argparse.SUPPRESS)
    return parser.parse_args()


def main() -> None:
    words = parsed()
    folder = (words.out / "quick" if words.quick else words.out).resolve()
    folder.mkdir(parents=True, exist_ok=True)
    if words.quick:
        (folder / "gains.json").unlink(missing_ok=True)
    subprocess.run(["make", "-s", "-C", str(HERE / "peers"), f"OUT={folder}"], check=True)
    planner = Planner(words.program.resolve(), folder)
    found = cases(planner, words.source, words.quick)
    print(PAGE.format(planner.described()))
    head = ["elimination, assembly", "matrices", "natural is least", "best is least"]
    print(
        table(
            [*head, "natural, most above the least", "best, most above the least"], summary(found)
        )
    )
    head = [
        "matrix",
        "rows",
        "elimination",
        "natural",
        "best",
        "least",
        "in place: natural",
        "best",
        "least",
    ]
    print(table(head, [row_of(case) for case in found]))
    print(
        "Trees of random sizes (`demo --seed S --tasks N`): how far the best postorder is above"
        " the least.\n"
    )
    head = ["tasks", *(f"seed {it}" for it in range(1, 6))]
    print(table(head, random_trees(planner, words.quick)), end="")


if __name__ == "__main__":
    main()
