"""Random trees, graphs, workflows and matrices, their texts as the tests write them, and runs of the program over these."""

from __future__ import annotations

import functools
import os
import tempfile
from pathlib import Path
from random import Random
from typing import Any, Callable, Dict, Iterator, List, Mapping, NamedTuple, Sequence, Tuple

from memplan import Graph, Tree, Workflow, _program
from memplan._program import Ended

TOP = Path(__file__).resolve().parents[2]
PROGRAM = _program.find("test")


class Told(NamedTuple):
    status: int
    report: str


def program(command: str, *words: object, **files: str) -> Told:
    """What the program says of texts, each told by the option of its name."""
    ended = run(command, {f"--{option}": text.encode() for option, text in files.items()}, list(map(str, words)))
    return Told(ended.status, ended.report.decode())


def run(command: str, files: Mapping[str, bytes], words: Sequence[str] = ()) -> Ended:
    """As `memplan._program.run`, for many runs on small texts; the same run is made once for a while."""
    return _ended(command, tuple(words), tuple(sorted(files.items())))


@functools.lru_cache(maxsize=100)
def _ended(command: str, words: Tuple[str, ...], files: Tuple[Tuple[str, bytes], ...]) -> Ended:
    folder = _folder().name
    told = [PROGRAM, command, *words]
    for option, text in files:
        path = f"{folder}/{option[2:]}"
        with open(path, "wb") as file:
            file.write(text)
        told += [option, path]
    written = os.O_WRONLY | os.O_CREAT | os.O_TRUNC
    actions: List[Any] = [(os.POSIX_SPAWN_OPEN, 0, os.devnull, os.O_RDONLY, 0)]
    actions += [(os.POSIX_SPAWN_OPEN, 1, f"{folder}/out", written, 0o600), (os.POSIX_SPAWN_OPEN, 2, os.devnull, os.O_WRONLY, 0)]
    _, status = os.waitpid(os.posix_spawn(PROGRAM, told, dict(os.environ), file_actions=actions), 0)
    return Ended(os.WEXITSTATUS(status) if os.WIFEXITED(status) else -os.WTERMSIG(status), Path(f"{folder}/out").read_bytes())


@functools.lru_cache(maxsize=None)
def _folder() -> "tempfile.TemporaryDirectory[str]":
    """In memory, if there is such a place: it is gone at the end."""
    return tempfile.TemporaryDirectory(prefix="memplan-", dir="/dev/shm" if os.access("/dev/shm", os.W_OK) else None)


class Drawn(NamedTuple):
    """Tasks from 1: the tasks before each, and what makes an object and its text."""

    before: List[List[int]]
    columns: Dict[str, Any]
    text: str


def drawn_tree(draw: Random) -> Drawn:
    count = draw.randint(1, 12)
    parent = [draw.choice([0, *range(1, count + 1)]) for _ in range(count)]
    for node in range(count):  # without rings: parents that come later, in an order of the nodes
        parent[node] = draw.choice([0, *range(node + 2, count + 1)]) if draw.random() < 0.8 and node + 1 < count else 0
    places = list(range(1, count + 1))
    draw.shuffle(places)
    moved = {old: new for old, new in enumerate(places, 1)}
    rows = sorted((moved[node], moved.get(above, 0)) for node, above in enumerate(parent, 1))
    parent = [above for _, above in rows]
    out, extra = ([draw.randint(0, 9) for _ in range(count)] for _ in range(2))
    taken = [sum(out[child] for child in range(count) if parent[child] == node) for node in range(1, count + 1)]
    share = [draw.choice([0, min(taken[node], extra[node] + out[node])]) for node in range(count)]
    time = [draw.randint(1, 4) for _ in range(count)]
    columns = {"parent": parent, "out": out, "extra": extra, "share": share, "time": time}
    before = [[child for child in range(1, count + 1) if parent[child - 1] == node] for node in range(1, count + 1)]
    return Drawn(before, columns, tree_text(columns))


def tree_text(columns: Mapping[str, Sequence[int]], version: int = 2) -> str:
    names = ("parent", "out", "extra", *(("share",) if version == 2 else ()), "time")
    lines = "".join(f"{' '.join(map(str, row))}\n" for row in zip(*(columns[name] for name in names)))
    return f"tree {version}\nnodes {len(columns['parent'])}\n{lines}end\n"


def drawn_graph(draw: Random) -> Drawn:
    count = draw.randint(0, 9)
    rank = list(range(1, count + 1))
    draw.shuffle(rank)
    items: List[Tuple[int, int, List[int]]] = []
    for _ in range(draw.randint(0, 2 * count)):
        producer = draw.randint(0, count)
        after = [task for task in range(1, count + 1) if producer == 0 or rank[task - 1] > rank[producer - 1]]
        readers = sorted(draw.sample(after, draw.randint(0, min(3, len(after)))))
        items.append((draw.randint(0, 9), producer, readers))
    alone = [sum(size for size, _, readers in items if readers == [task]) for task in range(1, count + 1)]
    made = [sum(size for size, producer, _ in items if producer == task) for task in range(1, count + 1)]
    extra = [draw.randint(0, 9) for _ in range(count)]
    share = [draw.choice([0, min(alone[task], extra[task] + made[task])]) for task in range(count)]
    time = [draw.randint(1, 4) for _ in range(count)]
    before = [[producer for _, producer, readers in items if task in readers and producer] for task in range(1, count + 1)]
    columns = {"extra": extra, "items": items, "share": share, "time": time}
    return Drawn(before, columns, graph_text(extra, items, share, time))


def graph_text(extra: Sequence[int], items: Sequence[Tuple[int, int, List[int]]], share: Sequence[int], time: Sequence[int]) -> str:
    rows = "".join(f"{a} {b} {c}\n" for a, b, c in zip(extra, share, time))
    lines = "".join(" ".join(map(str, (size, producer, *readers))) + "\n" for size, producer, readers in items)
    return f"graph 2\ntasks {len(extra)}\n{rows}items {len(items)}\n{lines}end\n"


def drawn_workflow(draw: Random) -> Drawn:
    """Each part on the stack has the tasks that run first in it, and those that run last."""
    stack: List[Tuple[List[int], List[int]]] = []
    positions: List[Tuple[Any, ...]] = []
    before: List[List[int]] = []
    for _ in range(draw.randint(0, 8)):
        while len(stack) < 2:
            positions.append(("data", draw.randint(0, 9)))
            stack.append(([], []))
        if draw.random() < 0.4:
            positions.append(("par", 2))
            (one, last), (other, end) = stack.pop(), stack.pop()
            stack.append(([*one, *other], [*last, *end]))
            continue
        positions.append(("task", draw.randint(0, 9), 0, draw.randint(1, 4)))
        behind, ahead = stack.pop(), stack.pop()
        task = len(before) + 1
        before.append(list(ahead[1]))
        for other_task in behind[0]:
            before[other_task - 1].append(task)
        stack.append((ahead[0] or [task], behind[1] or [task]))
        if draw.random() < 0.5:
            positions.append(("data", draw.randint(0, 9)))
            stack.append(([], []))
    if not stack:
        positions.append(("data", 3))
    if len(stack) > 1:
        positions.append(("par", len(stack)))
    lines = "".join(f"{' '.join(map(str, position))}\n" for position in positions)
    return Drawn(before, {"positions": positions}, f"workflow 2\ntasks {len(before)}\n{lines}end\n")


KINDS: Tuple[Tuple[Any, Callable[[Random], Drawn]], ...] = ((Tree, drawn_tree), (Graph, drawn_graph), (Workflow, drawn_workflow))


def works(count: int) -> Iterator[Tuple[Any, Drawn, List[int], Random]]:
    """So many random works of each kind, with an order of each, and where further numbers are drawn."""
    for kind, drawn_work in KINDS:
        for seed in range(count):
            draw = Random(f"{kind.__name__} {seed}")
            drawn = drawn_work(draw)
            yield kind(**drawn.columns), drawn, drawn_order(draw, drawn.before), draw


class Pattern(NamedTuple):
    """The entries of a matrix, column by column, from 0, and its text."""

    count: int
    starts: List[int]
    rows: List[int]
    text: str


def drawn_matrix(draw: Random) -> Pattern:
    """One triangle, or entries anywhere, some of them twice or on the diagonal."""
    count = draw.randint(1, 12)
    pairs = [(draw.randrange(count), draw.randrange(count)) for _ in range(draw.randint(0, 3 * count))]
    if draw.random() < 0.5:
        pairs = [(max(pair), min(pair)) for pair in pairs]
    columns = [[row for row, column in pairs if column == at] for at in range(count)]
    rows = [row for column in columns for row in column]
    starts = [sum(map(len, columns[:at])) for at in range(count + 1)]
    lines = "".join(f"{row + 1} {column + 1}\n" for row, column in draw.sample(pairs, len(pairs)))
    return Pattern(count, starts, rows, f"%%MatrixMarket matrix coordinate pattern general\n{count} {count} {len(pairs)}\n{lines}")


def drawn_order(draw: Random, before: Sequence[Sequence[int]]) -> List[int]:
    """An order of the tasks in which each stands behind those before it."""
    order: List[int] = []
    while len(order) < len(before):
        ready = [task for task in range(1, len(before) + 1) if task not in order and set(before[task - 1]) <= set(order)]
        order.append(draw.choice(ready))
    return order


def listed(tasks: Sequence[object]) -> str:
    return "".join(f"{task}\n" for task in tasks)
