"""A task graph or a tree with the fences of a fence file, for scripts that make an engine's own graph of them.

What cannot be read, or does not fit, is refused in one line. Nothing here judges the bound: `memplan check --fences` does.
"""

from __future__ import annotations

import argparse
import keyword
import re
import sys
from collections.abc import Callable, Iterable, Iterator, Sequence
from pathlib import Path
from typing import NamedTuple, NoReturn, Optional

NAMED = re.compile(r"[ \t]*#[ \t]+([0-9]+)[ \t]+(\S.*?)\s*")
COMMAND = re.compile(r"[ \t]*([0-9]+)[ \t]+(\S.*?)\s*")
MOST = 2**64 - 1


class Unfit(Exception):
    """Says in one line what cannot be read, or what does not fit."""


# Files


def text_of(path: str) -> str:
    try:
        return Path(path).read_text(encoding="utf-8", errors="replace")
    except OSError as error:
        raise Unfit(f"{path}: {error.strerror}") from None


class Page:
    """The lines of a file that count, one after the other."""

    def __init__(self, path: str) -> None:
        self.path = path
        self.text = text_of(path)
        lines = enumerate(self.text.split("\n"), 1)
        self.lines = [(number, line.split()) for number, line in lines if line.strip() and line.split()[0][0] not in "#%"]
        self.at = 0

    def refuse(self, wanted: str) -> NoReturn:
        """Of the line that was read last, or of the end."""
        place = f"line {self.lines[self.at - 1][0]}" if self.at <= len(self.lines) else "the end"
        raise Unfit(f"{self.path}: {place}: {wanted} should stand here")

    def line(self) -> list[str]:
        """The next line, which is empty behind the last."""
        self.at += 1
        return self.lines[self.at - 1][1] if self.at <= len(self.lines) else []

    def numbers(self, wanted: str, least: int, most: Optional[int] = None) -> list[int]:
        """A line of so many numbers."""
        tokens = self.line()
        enough = least <= len(tokens) and (most is None or len(tokens) <= most)
        if not enough or not all(re.fullmatch("[0-9]+", token) and int(token) <= MOST for token in tokens):
            self.refuse(wanted)
        return [int(token) for token in tokens]

    def section(self, word: str) -> int:
        """The number of a line `WORD N`."""
        tokens = self.line()
        if len(tokens) != 2 or tokens[0] != word or not re.fullmatch("[0-9]+", tokens[1]):
            self.refuse(f"`{word}` and a number")
        return int(tokens[1])

    def end(self) -> None:
        if self.line() != ["end"] or self.at != len(self.lines):
            self.refuse("`end`, and nothing after it,")


class Item(NamedTuple):
    """Its size, the task that makes it, or 0 where it is there from the start, and the tasks that read it."""

    size: int
    maker: int
    readers: Sequence[int]


class Graph(NamedTuple):
    """What the n-th task needs beside its items, the share of these that it takes over from what it reads, and its time; and the items."""

    tasks: list[tuple[int, int, int]]
    items: list[Item]
    names: dict[int, str]


class Fences(NamedTuple):
    """Fences FROM, TO for a bound and so many workers, or for any number where that is 0; joins are the places of items."""

    bound: int
    workers: int
    joins: list[int]
    fences: list[tuple[int, int]]


def read_items(page: Page, version: str, tasks: int) -> Iterator[Item]:
    if version == "1":
        for _ in range(page.section("arcs")):
            maker, reader, size = page.numbers("`FROM TO SIZE`", 3, 3)
            if max(maker, reader) > tasks or 0 < maker == reader:
                page.refuse("an arc between two tasks")
            yield Item(size, maker, (reader,) if reader else ())
        return
    for _ in range(page.section("items")):
        size, maker, *readers = page.numbers("`SIZE FROM` and readers", 2)
        apart = maker not in readers and readers == sorted(set(readers))
        if not apart or max(maker, *readers, 0) > tasks or 0 in readers:
            page.refuse("a task or 0, and other tasks that rise")
        yield Item(size, maker, readers)


def read_tasks(page: Page, version: str) -> tuple[list[tuple[int, int, int]], list[Item]]:
    rows = [page.numbers("`EXTRA SHARE TIME`", 3, 3) for _ in range(page.section("tasks"))]
    return [(extra, share, time) for extra, share, time in rows], list(read_items(page, version, len(rows)))


def read_nodes(page: Page, version: str) -> tuple[list[tuple[int, int, int]], list[Item]]:
    """What a node leaves to its parent is an item."""
    wanted, columns = ("`PARENT OUT EXTRA TIME`", 4) if version == "1" else ("`PARENT OUT EXTRA SHARE TIME`", 5)
    nodes, tasks, items = page.section("nodes"), [], []
    for node in range(1, nodes + 1):
        parent, out, extra, *share, time = page.numbers(wanted, columns, columns)
        if parent > nodes or parent == node:
            page.refuse("the number of another node, or 0,")
        tasks.append((extra, share[0] if share else 0, time))
        items.append(Item(out, node, (parent,) if parent else ()))
    return tasks, items


def read_graph(path: str) -> Graph:
    """A task graph of version 1 or 2, or a tree, with the names that stand in comments."""
    page = Page(path)
    head = page.line()
    if len(head) != 2 or head[0] not in ("graph", "tree") or head[1] not in ("1", "2"):
        page.refuse("`graph` or `tree`, and `1` or `2`,")
    tasks, items = (read_tasks if head[0] == "graph" else read_nodes)(page, head[1])
    page.end()
    named = (NAMED.fullmatch(line) for line in page.text.split("\n"))
    return Graph(tasks, items, {int(it[1]): it[2] for it in named if it})


def read_fences(path: str) -> Fences:
    page = Page(path)
    if page.line() != ["fences", "1"]:
        page.refuse("`fences 1`")
    bound, workers, _ = page.section("bound"), page.section("workers"), page.section("room")
    joins = [page.numbers("the place of an item", 1, 1)[0] for _ in range(page.section("joins"))]
    pairs = [page.numbers("`FROM TO`", 2, 2) for _ in range(page.section("fences"))]
    for _ in range(page.section("amounts")):
        page.numbers("an amount", 1, 1)
    page.end()
    return Fences(bound, workers, joins, [(start, end) for start, end in pairs])


def read_order(path: str, tasks: int) -> list[int]:
    tokens = [token for _, line in Page(path).lines for token in line]
    if sorted(int(token) if token.isascii() and token.isdigit() else 0 for token in tokens) != list(range(1, tasks + 1)):
        raise Unfit(f"{path}: each task from 1 to {tasks} should stand here once")
    return [int(token) for token in tokens]


def read_commands(path: str, tasks: int) -> dict[int, str]:
    """Lines `K COMMAND`; others are blank, or comments."""
    commands: dict[int, str] = {}
    for number, line in enumerate(text_of(path).split("\n"), 1):
        if not line.strip() or line.lstrip()[0] in "#%":
            continue
        found = COMMAND.fullmatch(line)
        if not found or not 1 <= int(found[1]) <= tasks or int(found[1]) in commands:
            raise Unfit(f"{path}: line {number}: a task from 1 to {tasks} and its only command should stand here")
        commands[int(found[1])] = found[2]
    return commands


# What they say together


class FencedGraph:
    """Tasks are numbered from 1, as in the files, and joins behind them: to wait for a join is to wait for all its readers."""

    def __init__(self, graph: Graph, fences: Fences, order: Optional[Sequence[int]] = None) -> None:
        self.graph, self.bound, self.workers = graph, fences.bound, fences.workers
        self.size = len(graph.tasks)
        self.tasks = range(1, self.size + 1)
        self.names = [graph.names.get(task, str(task)) for task in self.tasks]
        self.words = words_of(graph.names, self.tasks)
        self.joins = joins_of(graph.items, fences.joins, self.size)
        self.fences = [self._fitting(place, *fence) for place, fence in enumerate(fences.fences, 1)]
        waited_for = {start for start, _ in self.fences}
        self.used_joins = {join: readers for join, readers in self.joins.items() if join in waited_for}
        self.arcs = sorted({(item.maker, reader) for item in graph.items if item.maker for reader in item.readers})
        # A cycle is refused whether or not an order is given.
        after = paths_to_the_end(self)
        self.order = list(order) if order else sorted(self.tasks, key=lambda task: (-after[task], task))
        # The first task of the order has the greatest.
        self.priorities = {task: self.size - place for place, task in enumerate(self.order)}
        self.commands: dict[int, str] = {}

    def _fitting(self, place: int, start: int, end: int) -> tuple[int, int]:
        if not 1 <= start <= self.size + len(self.joins) or not 1 <= end <= self.size or start == end:
            raise Unfit(f"fence {place} is not from a task or a join of the graph to another task")
        return start, end

    def name(self, task: int) -> str:
        """Its number, where it has none."""
        return self.names[task - 1]

    def word(self, number: int) -> str:
        """An identifier of its own for each task and each join."""
        return self.words[number - 1] if number <= self.size else f"join_{number}"

    def suppliers(self) -> dict[int, list[int]]:
        return gathered(self.tasks, self.arcs)

    def waits(self) -> dict[int, list[int]]:
        """The tasks and joins that each task waits for by fences."""
        return gathered(self.tasks, sorted(set(self.fences)))


def gathered(tasks: Iterable[int], pairs: Iterable[tuple[int, int]]) -> dict[int, list[int]]:
    found: dict[int, list[int]] = {task: [] for task in tasks}
    for start, end in pairs:
        found[end].append(start)
    return found


def words_of(names: dict[int, str], tasks: Iterable[int]) -> list[str]:
    """Names as identifiers, with the task's number behind a word that is taken."""
    taken = {"all", *keyword.kwlist}
    words = []
    for task in tasks:
        word = re.sub(r"[^A-Za-z0-9_]", "_", names.get(task, f"task_{task}"))
        word = f"task_{word}" if not re.match(r"(?!join_[0-9])[A-Za-z]", word) else word
        while word in taken:
            word += f"_{task}"
        taken.add(word)
        words.append(word)
    return words


def joins_of(items: Sequence[Item], places: Sequence[int], tasks: int) -> dict[int, Sequence[int]]:
    """The readers behind which each join stands."""
    shared = [place for place, item in enumerate(items, 1) if len(item.readers) > 1]
    if list(places) != shared:
        raise Unfit("the joins of the fence file are not the items of the graph that have several readers")
    return {tasks + count: items[place - 1].readers for count, place in enumerate(shared, 1)}


def paths_to_the_end(graph: FencedGraph) -> list[int]:
    """The longest time from the start of each task to the end of all, where tasks run as soon as they may; from the last task backwards."""
    last = graph.size + len(graph.joins)
    joining = [(reader, join) for join, readers in graph.joins.items() for reader in readers]
    before = gathered(range(1, last + 1), [*graph.arcs, *graph.fences, *joining])
    left = [0] * (last + 1)
    for starts in before.values():
        for start in starts:
            left[start] += 1
    path = [0, *(time for _, _, time in graph.graph.tasks), *(0 for _ in graph.joins)]
    behind = [0] * (last + 1)
    ready = [number for number in range(1, last + 1) if not left[number]]
    for number in ready:
        path[number] += behind[number]
        for start in before[number]:
            behind[start] = max(behind[start], path[number])
            left[start] -= 1
            if not left[start]:
                ready.append(start)
    if len(ready) != last:
        raise Unfit("with the fences a task of the graph waits for itself")
    return path


def read(graph: str, fences: str, order: Optional[str] = None) -> FencedGraph:
    tasks = read_graph(graph)
    return FencedGraph(tasks, read_fences(fences), read_order(order, len(tasks.tasks)) if order else None)


# Scripts


def limit_told(graph: FencedGraph) -> str:
    return f"on at most {graph.workers} workers" if graph.workers else "on any number of workers"


def export(about: str, lines_of: Callable[[FencedGraph], Iterable[str]]) -> int:
    """Writes an engine's graph to standard output; the status for the shell."""
    parser = argparse.ArgumentParser(description=about, allow_abbrev=False)
    parser.add_argument("--graph", required=True, help="a task graph of version 1 or 2, or a tree")
    parser.add_argument("--fences", required=True, help="the fence file of `memplan fence`")
    parser.add_argument("--order", help="an order file that ranks the tasks; else the longest path to the end does")
    parser.add_argument("--command-of", help="a file with lines `K COMMAND` for what tasks run, where the engine runs commands")
    words = parser.parse_args()
    try:
        graph = read(words.graph, words.fences, words.order)
        if words.command_of:
            graph.commands = read_commands(words.command_of, graph.size)
        lines = list(lines_of(graph))
    except Unfit as error:
        print(f"{parser.prog}: {error}", file=sys.stderr)
        return 1
    sys.stdout.writelines(f"{line}\n" for line in lines)
    return 0
