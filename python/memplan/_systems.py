"""What pictures and pages are made of: tasks, the blocks that they hand on, and memory along an order. Numpy is needed here."""

from __future__ import annotations

from typing import Any, Iterator, List, NamedTuple, Optional, Tuple, Union

try:
    import numpy
except ImportError as lack:
    raise ImportError("pictures and pages need numpy, which is not here: pip install 'memplan[plot]' (Debian: python3-numpy)") from lack

from ._types import Array
from .graphs import Graph
from .trees import Tree
from .workflows import Position, Workflow


class System(NamedTuple):
    """Tasks, numbered from 1, and blocks, told by their places. Those that read block k stand in ``readers`` from ``starts[k]`` to
    ``starts[k + 1]``; who makes none has the number 0."""

    needs: Array  # beside what is there, while a task runs: its extra and what it makes, less its share
    times: Array
    sizes: Array
    producers: Array
    starts: Array
    readers: Array

    @property
    def task_count(self) -> int:
        return len(self.needs)

    def arcs(self) -> Tuple[Array, Array]:
        """Who makes something, and who reads it, one for each time that a block is read."""
        makers = numpy.repeat(self.producers, numpy.diff(self.starts))
        return makers[makers > 0], self.readers[makers > 0]


Drawn = Union[Tree, Graph, Workflow, System]


def system_of(work: Drawn) -> System:
    """The system of what has been judged, or is a `System` already."""
    if isinstance(work, System):
        return work
    if isinstance(work, Tree):
        return of_tree(work.parent, work.out, work.extra, work.share, work.time)
    if isinstance(work, Graph):
        made = sums(len(work) + 1, work.producer, work.size)[1:]
        return System(work.extra + made - work.share, work.time, work.size, work.producer, work.starts, work.readers)
    if isinstance(work, Workflow):
        return of_workflow(work.positions, len(work))
    raise TypeError(f"work: a {type(work).__name__} is no Tree, Graph or Workflow")


def unit_of(work: Drawn, unit: Optional[str]) -> str:
    """What memory is counted in: entries in the fronts of a matrix, and else units."""
    return unit or ("entries" if isinstance(work, Tree) and work.front_of is not None else "units")


def of_tree(parent: Array, out: Array, extra: Array, share: Array, time: Array) -> System:
    is_read = parent > 0
    starts = numpy.append(0, numpy.cumsum(is_read))
    return System(extra + out - share, time, out, numpy.arange(1, len(parent) + 1), starts, parent[is_read])


def of_workflow(positions: Tuple[Position, ...], count: int) -> System:
    sizes = numpy.array([position[1] for position in positions if position[0] == "data"], "int64")
    numbers = [position[1:] for position in positions if position[0] == "task"]
    extra, share, time = (numpy.array([row[place] for row in numbers], "int64") for place in range(3))
    makers, takers = (numpy.array(ends, "int64") for ends in ends_of_items([(word, number) for word, number, *_ in positions], count))
    return of_ends(sizes, makers, takers, extra, share, time)


def of_ends(sizes: Array, makers: Array, takers: Array, extra: Array, share: Array, time: Array) -> System:
    """Of blocks that one task reads each, or none, which is 0."""
    made = sums(len(extra) + 1, makers, sizes)[1:]
    starts = numpy.append(0, numpy.cumsum(takers > 0))
    return System(extra + made - share, time, sizes, makers, starts, takers[takers > 0])


def ends_of_items(positions: List[Tuple[str, int]], count: int) -> Tuple[List[int], List[int]]:
    """For each datum of a workflow the task that makes it and the one that takes it up, or 0. Of a position the first number counts."""
    makers: List[int] = []
    takers: List[int] = []
    task = 0
    # of each term on the stack the items that are there at its start, and those at its end: a number, or tuples in tuples, since to join
    # them would take the square of their number
    stack: List[Tuple[Any, Any]] = []
    for word, number in positions:
        if word == "data":
            stack.append((len(makers), len(makers)))
            makers.append(0)
            takers.append(0)
        elif word == "task":
            task += 1
            made, last = stack.pop()
            first, taken = stack.pop()
            for one in items_in(taken):
                takers[one] = task
            for one in items_in(made):
                makers[one] = task
            stack.append((first, last))
        else:
            parts = stack[-number:]
            del stack[-number:]
            starts, ends = zip(*parts)
            stack.append((starts, ends))
    return makers, takers


def items_in(nested: Any) -> Iterator[int]:
    """The numbers in tuples in tuples."""
    left = [nested]
    while left:
        it = left.pop()
        if isinstance(it, int):
            yield it
        else:
            left.extend(it)


def sums(count: int, places: Any, amounts: Any) -> Array:
    """What the amounts at each of so many places are together."""
    found = numpy.zeros(count, "int64")
    numpy.add.at(found, places, amounts)
    return found


class Lives(NamedTuple):
    """From after how many tasks of an order each block is there, and from after how many it is not there any more; one more than there are
    tasks where it stays."""

    starts: Array
    ends: Array


def lives_of(system: System, tasks: Array) -> Lives:
    count = system.task_count
    behind = numpy.zeros(count + 1, "int64")  # how many tasks are done when this one is; none before what nobody makes
    behind[tasks] = numpy.arange(1, count + 1)
    ends = numpy.full(len(system.sizes), count + 1)
    is_read = numpy.diff(system.starts) > 0
    if is_read.any():
        ends[is_read] = numpy.maximum.reduceat(behind[system.readers], system.starts[:-1][is_read])
    return Lives(behind[system.producers], ends)


class Course(NamedTuple):
    """Memory along an order of tasks: between them, the first state and the last one included, and while each runs."""

    tasks: Array
    between: Array
    during: Array
    peak: int


def course_of(system: System, tasks: Array, lives: Optional[Lives] = None) -> Course:
    """Of an order that was judged."""
    starts, ends = lives or lives_of(system, tasks)
    changes = sums(system.task_count + 2, starts, system.sizes) - sums(system.task_count + 2, ends, system.sizes)
    between: Array = numpy.cumsum(changes)[:-1]
    during = between[:-1] + system.needs[tasks - 1]
    peak = max(int(between.max()), int(during.max(initial=0)))
    return Course(tasks, between, during, peak)
