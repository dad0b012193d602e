#!/usr/bin/env python3
"""Makes trees, workflows and matrices of shapes that tools/ does not make, to measure with.

usage: shapes.py SHAPE SIZE FILE

`binary` and `caterpillar` are trees, `cube` and `hub` matrices: SIZE is their number of nodes, the
length of the cube's edge, the number of rows. All other shapes are workflows of about SIZE tasks:
deep and bushy, and those that are hard for a planner: stairs stairs_mid front_stairs both comb zip
wide nested_wide alternate alternate_par broom. Numbers that look random come from a seed: the same
call makes the same file.

A planner keeps segments for each part of a workflow: runs that each need more memory than the one
before, and end lower. It is slow where parts keep many segments, and touches them again and again.
"""
import random
import sys
from math import isqrt


class Workflow:
    """The positions of a workflow, one after the other."""

    def __init__(self) -> None:
        self.lines: list[str] = []
        self.tasks = 0
        self.draw = random.Random(5).randrange

    def data(self, *sizes: int) -> None:
        self.lines.extend(f"data {size}\n" for size in sizes)

    def task(self, extra: int) -> None:
        self.tasks += 1
        self.lines.append(f"task {extra} 1\n")

    def par(self, parts: int) -> None:
        self.lines.append(f"par {parts}\n")

    def leg(self, out: int, extra: int) -> None:
        """One task beside all else: it leaves a block."""
        self.data(0, out)
        self.task(extra)
        self.par(2)

    def text(self) -> str:
        return f"workflow 1\ntasks {self.tasks}\n" + "".join(self.lines) + "end\n"


def stairs(flow: Workflow, count: int) -> None:
    """A caterpillar whose spine keeps a segment for each of its tasks; its legs leave none."""
    length = count // 2
    flow.data(0)
    for step in range(1, length + 1):
        if step > 1:
            flow.leg(0, 0)
        flow.data(step)
        flow.task(3 * (length - step))


def stairs_mid(flow: Workflow, count: int) -> None:
    """The same with legs that stay, each somewhere among the segments of the spine."""
    length = count // 2
    flow.data(0)
    held = 0
    for step in range(1, length + 1):
        if step > 1:
            flow.leg(1, 2 * length + flow.draw(8 * length - 3 * step))
            held += 1
        held += 1
        flow.data(held)
        flow.task(8 * length - 5 * step)


def front_stairs(flow: Workflow, count: int) -> None:
    """The first turned round: what is held is there from the start, and taken up step by step."""
    length = count // 2
    flow.data(*range(length, 0, -1), 0)
    for step in range(1, length + 1):
        flow.task(3 * (length - step))
        if step < length:
            flow.leg(0, 0)


def both(flow: Workflow, count: int) -> None:
    """Long segments from the start and long ones from the end, with small parts beside them."""
    length = count // 4
    flow.data(*range(length, 0, -1), 0)
    for step in range(1, length + 1):
        flow.task(4 * length - 3 * step)
        flow.leg(0, 0)
        flow.data(step)
        flow.task(4 * length - 3 * step)
        if step < length:
            flow.leg(0, 0)


def comb(flow: Workflow, count: int) -> None:
    """Chains that take up, and chains that hand on, of like lengths, one beside the other."""

    def taking(length: int, base: int) -> None:
        flow.data(*range(length, 0, -1), 0)
        for step in range(1, length + 1):
            flow.task(3 * length - 2 * step + base)

    def handing(length: int, base: int) -> None:
        flow.data(0)
        for step in range(1, length + 1):
            flow.data(step)
            flow.task(3 * length - 2 * step + base)

    taking(1, 0)
    length, number = 1, 0
    while flow.tasks + length <= count:
        (taking if number % 2 else handing)(length, 7 * number)
        flow.par(2)
        number += 1
        if number % 4 == 0:
            length = min(2 * length, max(1, count // 64))


def zipped(flow: Workflow, count: int) -> None:
    """Halves side by side, and so on: each merge moves half of all segments, and joins none."""
    # what is left to be made, the last first: a part of so many tasks, or the two last beside
    left: list[int] = [count]
    while left:
        size = left.pop()
        if size == 0:
            flow.par(2)
        elif size > 8:
            left += [0, size - size // 2, size // 2]
        else:
            flow.data(0)
            extras = sorted((100 + flow.draw(10**7) for _ in range(size)), reverse=True)
            for step, extra in enumerate(extras, 1):
                flow.data(step)
                flow.task(extra)


def wide(flow: Workflow, count: int) -> None:
    """Many branches of two tasks, all side by side."""
    for _ in range(count // 2):
        flow.data(0, 1 + flow.draw(49))
        flow.task(1 + flow.draw(10**6))
        flow.data(50 + flow.draw(49))
        flow.task(1 + flow.draw(10**5))
    flow.par(count // 2)


def nested_wide(flow: Workflow, count: int) -> None:
    """As many levels as each has legs, and the legs stay."""
    size = isqrt(count)
    flow.data(0)
    held = 0
    for level in range(size):
        for _ in range(size - 1):
            flow.data(0, 1)
            flow.task(10**6 + flow.draw(10**6))
        flow.par(size)
        held += size
        flow.data(held)
        flow.task(max(0, 10**6 - 1000 * level))


def alternate(flow: Workflow, count: int) -> None:
    """A chain whose memory goes up and down: the least state moves at every second task."""
    flow.data(5)
    for step in range(count):
        flow.data(step * 7 % 11 + (10**6 - step if step % 2 else step))
        flow.task(flow.draw(100))


def alternate_par(flow: Workflow, count: int) -> None:
    """The same with a leg at each task."""
    flow.data(5)
    for step in range(count // 2):
        flow.data(10**6 - step if step % 2 else step)
        flow.task(flow.draw(2 * 10**6))
        flow.data(1, 3 if step % 3 == 0 else 0)
        flow.task(flow.draw(2 * 10**6))
        flow.par(2)


def broom(flow: Workflow, count: int) -> None:
    """Many leaves side by side, and a chain after them."""
    half = count // 2
    for _ in range(half):
        flow.data(0, 1 + flow.draw(999))
        flow.task(1 + flow.draw(10**4))
    flow.par(half)
    for _ in range(half):
        flow.data(1 + flow.draw(999))
        flow.task(1 + flow.draw(1000))


def deep(flow: Workflow, count: int) -> None:
    """A chain, with a leg of one task beside each second task; sizes at random."""
    flow.data(flow.draw(1000))
    for _ in range(count // 2):
        flow.data(flow.draw(1000))
        flow.task(flow.draw(1000))
        flow.data(flow.draw(100), flow.draw(100))
        flow.task(flow.draw(1000))
        flow.par(2)


def bushy(flow: Workflow, count: int) -> None:
    """Halves one after the other or side by side, by chance, and so on; sizes at random."""
    # what is left to be made, the last first: a part of so many tasks, the two last in series or beside
    series, beside = -1, -2
    left: list[int] = [count]
    while left:
        size = left.pop()
        if size == series:
            flow.task(flow.draw(1000))
        elif size == beside:
            flow.par(2)
        elif size == 0:
            flow.data(flow.draw(1000))
        elif size < 4 or flow.draw(2):
            left += [series, size - 1 - (size - 1) // 2, (size - 1) // 2]
        else:
            left += [beside, size - size // 2, size // 2]


WORKFLOWS = {
    "deep": deep,
    "bushy": bushy,
    "stairs": stairs,
    "stairs_mid": stairs_mid,
    "front_stairs": front_stairs,
    "both": both,
    "comb": comb,
    "zip": zipped,
    "wide": wide,
    "nested_wide": nested_wide,
    "alternate": alternate,
    "alternate_par": alternate_par,
    "broom": broom,
}


def tree_text(parents: list[int]) -> str:
    """A tree with these parents and random sizes."""
    draw = random.Random(5).randrange
    nodes = (f"{it} {1 + draw(1000)} {draw(1000)} {1 + draw(16)}\n" for it in parents)
    return f"tree 1\nnodes {len(parents)}\n" + "".join(nodes) + "end\n"


def binary(count: int) -> list[int]:
    """The parent of the i-th node from the end is the one at half of i."""
    return [
        count + 1 - (count + 1 - node) // 2 if node < count else 0 for node in range(1, count + 1)
    ]


def caterpillar(count: int) -> list[int]:
    """A chain of the even nodes, each odd node a leaf below the next one."""
    return [
        0 if node >= count else node + 2 - node % 2 if node + 1 < count else count
        for node in range(1, count + 1)
    ]


TREES = {"binary": binary, "caterpillar": caterpillar}


def matrix_text(order: int, pairs: list[tuple[int, int]]) -> str:
    head = f"%%MatrixMarket matrix coordinate pattern symmetric\n{order} {order} {len(pairs)}\n"
    return head + "".join(f"{row} {column}\n" for row, column in pairs)


def cube(edge: int) -> str:
    """A grid in space: each vertex is joined to the next ones along the three edges."""
    pairs = []
    for vertex in range(edge**3):
        for step in (1, edge, edge * edge):
            if vertex // step % edge < edge - 1:
                pairs.append((vertex + step + 1, vertex + 1))
    return matrix_text(edge**3, pairs)


def hub(order: int) -> str:
    """Vertex 1 is joined to all others."""
    return matrix_text(order, [(vertex, 1) for vertex in range(2, order + 1)])


MATRICES = {"cube": cube, "hub": hub}


def text_of(shape: str, count: int) -> str:
    if shape in MATRICES:
        return MATRICES[shape](count)
    if shape in TREES:
        return tree_text(TREES[shape](count))
    flow = Workflow()
    WORKFLOWS[shape](flow, count)
    return flow.text()


def main() -> None:
    if len(sys.argv) != 4 or sys.argv[1] not in {**TREES, **MATRICES, **WORKFLOWS}:
        sys.exit(__doc__)
    shape, count, name = sys.argv[1], int(sys.argv[2]), sys.argv[3]
    with open(name, "w", encoding="ascii") as out:
        out.write(text_of(shape, count))


if __name__ == "__main__":
    main()
