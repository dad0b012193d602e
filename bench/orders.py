#!/usr/bin/env python3
"""Orders of elimination by METIS, Scotch and AMD, each as its tool writes it, and the fill that it
reports beside the one that memplan computes: a table in Markdown.

usage: bench/orders.py PROGRAM [MATRIX ..]

A MATRIX is a file of Matrix Market with one triangle of a symmetric pattern; without any it is a
grid of 30 by 30. METIS is ndmetis of Debian's package metis, Scotch gcv, gord and gotst of its
package scotch, AMD and CHOLMOD those of libsuitesparse-dev, by bench/peers/orders.c; what is not
there is told in a line `not run: ..`. Of each order the entries of the factor are compared with what
the tool says of it, to as many digits as it prints, and by AMD's order CHOLMOD's factor has to be in
just this order. The last line is 'N passed, M failed', and the status is 0 where none failed.
"""
import re
import shutil
import subprocess
import sys
import tempfile
from collections.abc import Callable
from math import isqrt
from pathlib import Path
from typing import NamedTuple, Optional

from measuring import table

HERE = Path(__file__).resolve().parent
TOOLS = HERE.parent / "tools"
SUITESPARSE = "/usr/include/suitesparse"


class Front(NamedTuple):
    """The columns of a front, and the further rows."""

    columns: int
    rows: int


class Fill(NamedTuple):
    """The entries of the factor, the diagonal included; and for each column the other ones."""

    columns: list[int]

    @property
    def rows(self) -> int:
        return len(self.columns)

    @property
    def entries(self) -> int:
        return sum(self.columns) + self.rows


class Order(NamedTuple):
    """An order of a matrix: who made it, how the program takes it, what its maker says of the fill,
    and how that is told of a fill that is known."""

    maker: str
    words: list[str]
    reported: str
    told: Callable[[Fill], str]


def output(*words: object) -> str:
    """What a program prints, which must end well."""
    return subprocess.run(
        [str(it) for it in words], stdout=subprocess.PIPE, check=True, text=True
    ).stdout


def fronts_in(tree: str) -> list[Front]:
    """Those of a tree file of a matrix, with the sizes of a triangle."""
    lines = [[int(it) for it in line.split()] for line in tree.split("\n")[2:] if line[:1].isdigit()]
    fronts = [Front(line[-1], (isqrt(8 * line[1] + 1) - 1) // 2) for line in lines]
    assert all(it.rows * (it.rows + 1) // 2 == line[1] for it, line in zip(fronts, lines))
    return fronts


def fill_of(tree: str) -> Fill:
    """The fill of the fronts of a tree file, into which none were merged."""
    return Fill(
        [rows + left for columns, rows in fronts_in(tree) for left in reversed(range(columns))]
    )


def found(text: str, pattern: str) -> str:
    match = re.search(pattern, text)
    assert match, f"{pattern} is not in {text}"
    return match[1]


def by_metis(matrix: Path, folder: Path) -> Optional[Order]:
    """METIS counts neither the diagonal nor its operations."""
    if not shutil.which("ndmetis"):
        return None
    graph = folder / "metis.graph"
    graph.write_text(output(sys.executable, TOOLS / "metis_graph.py", matrix))
    said = output("ndmetis", graph)
    reported = found(said, r"Nonzeros: (\S+)"), found(said, r"Operation Count: (\S+)")

    def told(fill: Fill) -> str:
        operations = sum(it * (it - 1) for it in fill.columns)
        return f"{fill.entries - fill.rows:.3e}, {operations:.3e}"

    return Order("METIS", ["--iperm", f"{graph}.iperm"], ", ".join(reported), told)


def by_scotch(matrix: Path, folder: Path) -> Optional[Order]:
    """What gord writes is taken as it is."""
    if not shutil.which("gord"):
        return None
    graph, order = (folder / f"scotch.{it}" for it in ("grf", "ord"))
    output("gcv", "-im", "-os", matrix, graph)
    output("gord", graph, order)
    said = output("gotst", graph, order)
    reported = found(said, r"NNZ=(\S+)"), found(said, r"OPC=(\S+)")

    def told(fill: Fill) -> str:
        return f"{fill.entries:e}, {sum((it + 1) ** 2 for it in fill.columns):e}"

    return Order("Scotch", ["--iperm", str(order)], ", ".join(reported), told)


def solver(folder: Path) -> Optional[Path]:
    """bench/peers/orders.c, built."""
    program = folder / "orders"
    if not program.exists():
        if not Path(SUITESPARSE, "cholmod.h").exists():
            return None
        source = HERE / "peers" / "orders.c"
        output("cc", "-O2", f"-I{SUITESPARSE}", "-o", program, source, "-lcholmod", "-lamd")
    return program


def by_amd(matrix: Path, folder: Path) -> Optional[Order]:
    """AMD's array counts from 0, and CHOLMOD takes the order that it is."""
    program = solver(folder)
    if not program:
        return None
    array, perm = folder / "amd.array", folder / "amd.perm"
    array.write_text(output(program, "amd", matrix))
    perm.write_text(output("awk", "{ print $1 + 1 }", array))
    reported = output(program, "given", matrix, perm).strip()
    return Order("AMD", ["--perm", str(perm)], reported, lambda fill: f"{fill.entries} kept")


MAKERS = {"ndmetis": by_metis, "gord": by_scotch, "cholmod.h": by_amd}


class Found(NamedTuple):
    """What came out for an order of a matrix."""

    row: list[str]
    is_right: bool


def compared(program: Path, matrix: Path, order: Order, folder: Path) -> Found:
    words = ["--matrix", str(matrix), *order.words]
    text = output(program, "tree", *words)
    fill = fill_of(text)
    tree = folder / "order.tree"
    tree.write_text(text)
    best, least = (found(output(program, it, "--tree", tree), r"peak (\d+)") for it in ("post", "plan"))
    cells = [matrix.stem, order.maker, f"`{order.words[0]}`", f"{len(fronts_in(text)):,}"]
    cells += [f"{fill.entries:,}", order.reported, order.told(fill), f"{int(best):,}", f"{int(least):,}"]
    return Found(cells, order.told(fill) == order.reported)


def grid(folder: Path) -> Path:
    matrix = folder / "grid_30_30.mtx"
    output(sys.executable, TOOLS / "make_matrices.py", "grid", 30, 30, matrix)
    return matrix


def main() -> int:
    if len(sys.argv) < 2 or sys.argv[1].startswith("-"):
        print(__doc__)
        return 2
    program = Path(sys.argv[1]).resolve()
    rows, right = [], 0
    with tempfile.TemporaryDirectory() as name:
        folder = Path(name)
        for matrix in [Path(it) for it in sys.argv[2:]] or [grid(folder)]:
            for tool, make in MAKERS.items():
                order = make(matrix, folder)
                if not order:
                    print(f"not run: there is no {tool}", file=sys.stderr)
                    continue
                cells, is_right = compared(program, matrix, order, folder)
                rows.append(cells)
                right += is_right
                if not is_right:
                    print(f"FAILED: {matrix.stem}, {order.maker}: another fill", file=sys.stderr)
    head = ["matrix", "order", "taken by", "fronts", "entries of the factor", "its maker says"]
    print(table([*head, "as memplan has it", "best postorder", "least peak"], rows))
    print(f"{right} passed, {len(rows) - right} failed")
    return 0 if right == len(rows) else 1


if __name__ == "__main__":
    sys.exit(main())
