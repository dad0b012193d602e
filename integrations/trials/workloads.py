"""Graphs of tasks for the trials: what they compute means nothing, what they hold and how long they take is told by numbers."""

from __future__ import annotations

import random
from typing import Hashable, List, NamedTuple, Sequence, Tuple

import dask.array
import memplan
import numpy
from blocks import CHUNK, PART, add, gather, read, squeeze, work
from memplan.dask import Task, of_collection

MB = 1_000_000


class Load(NamedTuple):
    """Tasks, and how long each takes, in milliseconds."""

    tasks: List[Task]
    times: List[int]


def task_of(number: int, size: int, extra: int, milliseconds: int, inputs: Sequence[int] = (), kept: bool = False) -> Task:
    return Task(work, (number, size, extra, milliseconds / 1000), tuple(inputs), size, extra, kept)


def load_of(rows: Sequence[Tuple[int, int, int, Sequence[int]]]) -> Load:
    """Of rows (size, extra, milliseconds, inputs)."""
    tasks = [task_of(number, size, extra, time, inputs) for number, (size, extra, time, inputs) in enumerate(rows)]
    return Load(tasks, [row[2] for row in rows])


def load_of_tree(parents: Sequence[int], sizes: Sequence[int], extras: Sequence[int], times: Sequence[int]) -> Load:
    """Of nodes, whose parents count from 1, and are 0 at a root."""
    children: List[List[int]] = [[] for _ in range(len(parents) + 1)]
    for node, parent in enumerate(parents):
        children[parent].append(node)
    return load_of([(size, extra, time, children[node + 1]) for node, (size, extra, time) in enumerate(zip(sizes, extras, times))])


def fork_join(chunks: int = 64, seed: int = 1, slowness: int = 1) -> Load:
    """Chunks that are read, each with room for its raw data, and merged two by two; a merge is as large as the larger of the two."""
    draw = random.Random(seed)
    rows: List[Tuple[int, int, int, Sequence[int]]] = []
    for _ in range(chunks):
        rows.append((draw.randrange(MB, 20 * MB), draw.randrange(20 * MB), slowness * draw.randrange(10, 40), ()))
    level = list(range(chunks))
    while len(level) > 1:
        merged = []
        for left, right in zip(level[::2], level[1::2]):
            merged.append(len(rows))
            rows.append((max(rows[left][0], rows[right][0]), 0, slowness * draw.randrange(5, 15), (left, right)))
        level = merged + level[len(merged) * 2 :]
    return load_of(rows)


def random_tree(count: int = 300, seed: int = 1, near: int = 12, slowness: int = 1) -> Load:
    """Each task hands its result to one of the ``near`` next; sizes from 1/16 to 8 MB, extras up to 16 MB."""
    draw = random.Random(seed)
    parents, sizes, extras, times = [], [], [], []
    for node in range(1, count + 1):
        parents.append(0 if node == count else draw.randrange(node + 1, min(count, node + near) + 1))
        sizes.append(int(MB * 2 ** draw.uniform(-4, 3)))
        extras.append(int(MB * 2 ** draw.uniform(-4, 4)))
        times.append(slowness * draw.randrange(5, 25))
    return load_of_tree(parents, sizes, extras, times)


def random_graph(count: int = 120, seed: int = 1, near: int = 10, milliseconds: int = 4) -> Load:
    """Each task consumes up to three results of the ``near`` before it, which other tasks may consume too; some results are kept."""
    draw = random.Random(seed)
    tasks, times = [], []
    for number in range(count):
        before = range(max(0, number - near), number)
        inputs = draw.sample(before, min(len(before), draw.randrange(4)))
        size, extra = int(MB * 2 ** draw.uniform(-5, 1)), int(MB * 2 ** draw.uniform(-5, 1))
        times.append(draw.randrange(milliseconds + 1))
        tasks.append(task_of(number, size, extra, times[-1], inputs, draw.random() < 0.1))
    return Load(tasks, times)


def nested_dissection(columns: range, rows: range) -> List[Tuple[int, int]]:
    """The vertices of a grid: those of both halves first, and then the line between them."""
    if len(columns) * len(rows) <= 6:
        return [(column, row) for column in columns for row in rows]
    if len(columns) >= len(rows):
        middle = len(columns) // 2
        parts = (columns[:middle], rows), (columns[middle + 1 :], rows), (columns[middle : middle + 1], rows)
    else:
        middle = len(rows) // 2
        parts = (columns, rows[:middle]), (columns, rows[middle + 1 :]), (columns, rows[middle : middle + 1])
    first, second, line = parts
    return [*nested_dissection(*first), *nested_dissection(*second), *((column, row) for column in line[0] for row in line[1])]


def fronts(side: int = 40, zeros: int = 24, entry: int = 4800, slowness: int = 1) -> Load:
    """The fronts of a square grid, each vertex joined to its eight neighbours, eliminated by nested dissection."""
    starts, rows = [0], []
    for vertex in range(side * side):
        column, row = divmod(vertex, side)
        near = [(column + right, row + down) for right in (-1, 0, 1) for down in (-1, 0, 1)]
        rows += [it[0] * side + it[1] for it in near if 0 <= it[0] < side and 0 <= it[1] < side]
        starts.append(len(rows))
    order = [column * side + row for column, row in nested_dissection(range(side), range(side))]
    made = memplan.fronts((starts, rows), order, shape="square", zeros=zeros)
    sizes, extras = [int(out) * entry for out in made.out], [int(extra) * entry for extra in made.extra]
    times = [slowness * max(2, min(40, 2 * int(columns))) for columns in made.columns]
    return load_of_tree([int(parent) for parent in made.parent], sizes, extras, times)


def symmetric_sum(side: int = 8, milliseconds: int = 20) -> dask.array.Array:
    """``(x + x.T).sum()`` of dask.array over chunks whose bytes are recorded: each chunk off the diagonal has two consumers."""
    chunks, no_data = ((1,) * side, (1,) * side), numpy.empty((0, 0))
    layer = {("read", row, column): (read, row * side + column, milliseconds / 1000) for row in range(side) for column in range(side)}
    x = dask.array.Array(layer, "read", chunks, meta=no_data)
    both = dask.array.blockwise(add, "ij", x, "ij", x, "ji", seconds=milliseconds / 1000, dtype=float, meta=no_data)
    return dask.array.reduction(
        both, chunk=squeeze, combine=gather, aggregate=gather, concatenate=False, dtype=float, meta=numpy.empty(())
    )


def kind_of(key: Hashable) -> str:
    """What the task of a key of that graph does: Dask fuses adding with what follows, and reading a chunk of the diagonal, twice, with
    that, of which an alias is left."""
    name = key[0] if isinstance(key, tuple) else str(key)
    if name == "read" or name.startswith("gather"):
        return name.split("-")[0]
    if name.startswith("read-"):
        return "diagonal"
    return "alias" if key[1] == key[2] else "add"


def sizes_of_symmetric_sum(key: Hashable) -> Tuple[int, int]:
    """The size and the extra of a task."""
    extras = {"diagonal": 3 * CHUNK, "add": CHUNK, "alias": 0, "gather": 4 * PART}
    kind = kind_of(key)
    return (CHUNK, 0) if kind == "read" else (PART, extras[kind])


def array_load(side: int, milliseconds: int) -> Tuple[dask.array.Array, Load]:
    """That sum, and its tasks."""
    collection = symmetric_sum(side, milliseconds)
    keys: List[Hashable] = []

    def sizes(key: Hashable) -> Tuple[int, int]:
        keys.append(key)
        return sizes_of_symmetric_sum(key)

    tasks, _ = of_collection(collection, sizes)
    times = {"read": 1, "diagonal": 3, "add": 1, "alias": 0, "gather": 0}
    return collection, Load(tasks, [milliseconds * times[kind_of(key)] for key in keys])
