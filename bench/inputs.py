"""The files to measure with: which there are, how large, and how each is made."""
import subprocess
import sys
from collections.abc import Callable, Iterator
from pathlib import Path
from typing import NamedTuple, Optional

import shapes

TOOLS = Path(__file__).resolve().parent.parent / "tools"


class Sizes(NamedTuple):
    """How large inputs are, of a whole run and of a quick one."""

    tasks: int
    grid: int
    rows: int
    entries: int
    band: int
    many_rows: int
    many_entries: int
    small_grid: int
    cube: int
    growth: tuple[int, ...]
    hard_growth: tuple[int, ...]


WHOLE = Sizes(
    tasks=1_000_000,
    grid=1000,
    rows=100_000,
    entries=1_000_000,
    band=100,
    many_rows=1_000_000,
    many_entries=10_000_000,
    small_grid=223,
    cube=36,
    growth=(10_000, 100_000, 1_000_000),
    hard_growth=(10_000, 20_000, 40_000, 80_000),
)
QUICK = Sizes(
    tasks=2_000,
    grid=20,
    rows=300,
    entries=1_000,
    band=5,
    many_rows=200,
    many_entries=2_000,
    small_grid=12,
    cube=5,
    growth=(500, 1_000, 2_000),
    hard_growth=(200, 400, 800),
)

TREES = ("near", "random", "chain", "star", "binary", "caterpillar")
WORKFLOWS = ("random", "deep", "bushy")
HARD = tuple(it for it in shapes.WORKFLOWS if it not in WORKFLOWS)


class Inputs:
    """The files to measure with. Each is made where it is first asked for."""

    def __init__(self, folder: Path, sizes: Sizes) -> None:
        self.folder, self.sizes = folder, sizes

    def made(self, name: str, make: Callable[[Path], object]) -> str:
        """The file of a name, made whole under another name first: a run may be stopped."""
        at = self.folder / name
        if not at.exists():
            new = self.folder / "new.input"
            make(new)
            new.replace(at)
        return str(at)

    def script(self, name: str, *words: object) -> None:
        subprocess.run([sys.executable, str(TOOLS / name), *map(str, words)], check=True)

    def tree(self, shape: str, tasks: Optional[int] = None) -> str:
        count, unused = tasks or self.sizes.tasks, self.folder / "unused.order"

        def make(to: Path) -> None:
            if shape in shapes.TREES:
                to.write_text(shapes.text_of(shape, count))
            else:
                self.script("make_tree.py", count, to, unused, shape)

        return self.made(f"{shape}_{count}.tree", make)

    def workflow(self, shape: str, tasks: Optional[int] = None) -> str:
        count, unused = tasks or self.sizes.tasks, self.folder / "unused.order"

        def make(to: Path) -> None:
            if shape in shapes.WORKFLOWS:
                to.write_text(shapes.text_of(shape, count))
            else:
                self.script("make_workflow.py", count, to, unused)

        return self.made(f"{shape}_{count}.workflow", make)

    def graph(self) -> str:
        count = self.sizes.tasks
        make = lambda to: self.script("make_graph.py", count, to)
        return self.made(f"random_{count}.graph", make)

    def shared_graph(self) -> tuple[str, str]:
        """A graph whose items have three readers, and an order of its tasks."""
        count = self.sizes.tasks
        order = self.folder / f"shared_{count}.order"
        make = lambda to: self.script("make_shared_graph.py", count, to, order)
        return self.made(f"shared_{count}.graph", make), str(order)

    def matrix(self, kind: str, first: int, second: int) -> str:
        def make(to: Path) -> None:
            if kind in shapes.MATRICES:
                to.write_text(shapes.text_of(kind, first))
            else:
                self.script("make_matrices.py", kind, first, second, to)

        return self.made(f"{kind}_{first}_{second}.mtx", make)

    def claims(self) -> tuple[str, str]:
        """A workflow, and a plan of it with a claim at each position."""
        count = self.sizes.tasks
        workflow = self.folder / f"claims_{count}.workflow"
        make = lambda to: self.script("make_claims.py", count, workflow, to)
        return str(workflow), self.made(f"claims_{count}.plan", make)

    def without_end(self, name: str) -> str:
        """A file without its last line: it is read to its end, and then refused."""
        make = lambda to: to.write_text(Path(name).read_text().removesuffix("end\n"))
        return self.made(f"{Path(name).name}.cut", make)

    def wrong(self) -> str:
        """A file that is none of any kind."""
        return self.made("wrong.numbers", lambda to: to.write_text("none\n"))

    def forget(self, name: str) -> None:
        Path(name).unlink(missing_ok=True)


# What the most memory is that one task needs: no bound below it can be kept.


def working_set(kind: str, name: str) -> int:
    with open(name, encoding="ascii") as text:
        return max(NEEDS[kind](text))


def needs_of_tree(lines: Iterator[str]) -> list[int]:
    """Of each node: its children's blocks, what it adds, and its own block."""
    nodes = [list(map(int, line.split())) for line in lines if line[0].isdigit()]
    inputs = [0] * (len(nodes) + 1)
    for parent, out, *_ in nodes:
        inputs[parent] += out
    return [inputs[at] + out + extra for at, (_, out, extra, *_) in enumerate(nodes, 1)]


def needs_of_workflow(lines: Iterator[str]) -> list[int]:
    """Of each task: what the part before it leaves, what it adds, and what the part behind it
    begins with. A part on the stack is what it begins with and what it leaves."""
    needs, stack = [], []
    for line in lines:
        word, *numbers = line.split()
        if word == "data":
            stack.append((int(numbers[0]), int(numbers[0])))
        elif word == "par":
            parts = stack[-int(numbers[0]) :]
            stack[-len(parts) :] = [(sum(it[0] for it in parts), sum(it[1] for it in parts))]
        elif word == "task":
            (first, left), (begun, last) = stack[-2:]
            stack[-2:] = [(first, last)]
            needs.append(left + int(numbers[0]) + begun)
    return needs


def needs_of_graph(lines: Iterator[str]) -> list[int]:
    """Of each task of a graph of version 2: what it reads, what it adds and what it makes, less its
    share."""
    next(lines)
    needs = [0] * (int(next(lines).split()[1]) + 1)
    for task in range(1, len(needs)):
        extra, share, _ = map(int, next(lines).split())
        needs[task] = extra - share
    next(lines)
    for line in lines:
        if line.startswith("end"):
            break
        size, *ends = map(int, line.split())
        for task in ends:
            needs[task] += size
    return needs[1:]


NEEDS: dict[str, Callable[[Iterator[str]], list[int]]] = {
    "tree": needs_of_tree,
    "workflow": needs_of_workflow,
    "graph": needs_of_graph,
}
