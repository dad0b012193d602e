"""What a run tells of itself at its end: how near it came to its bound, and which results were greatest, or not as stated."""

from __future__ import annotations

from contextlib import contextmanager
from typing import Dict, Hashable, Iterator, List, NamedTuple, Optional, Sequence

from dask.utils import format_bytes, key_split
from distributed import Future

from ..admission import Admission, NoRoom, ResultGraph
from .errors import ResultTooLarge, named
from .tasks import Task, graph_of

_SHOWN = 5


class Left(NamedTuple):
    """What a task left, in bytes, and what was stated."""

    task: int
    key: Optional[Hashable]
    size: int
    stated: int


class Summary(NamedTuple):
    """Of a run that has ended; in words as a text.

    ``booked`` and ``used`` are the greatest sums of results and extras that the core had booked, and that were there with tasks that ran;
    ``least`` was the least bound along the order, and ``enough`` would be with the sizes that tasks left. ``left`` has these, by tasks.

    >>> from memplan.dask import run
    >>> results = run([Task(list, size=1000, key="empty"), Task(len, inputs=(0,), size=28)], bound="2kB", client=CLIENT)
    >>> results.summary.least, results.summary.enough, results.summary.used < 2000
    (1028, 84, True)
    >>> [(it.key, it.size) for it in results.summary.largest(1)]
    [('empty', 56)]
    """

    bound: int
    least: int
    enough: int
    booked: int
    used: int
    left: List[Left]

    def largest(self, count: int = _SHOWN) -> List[Left]:
        """The greatest results."""
        return sorted(self.left, key=lambda it: -it.size)[:count]

    def overstated(self, count: int = _SHOWN) -> List[Left]:
        """The results of which most was stated too much."""
        return sorted((it for it in self.left if it.stated > it.size), key=lambda it: it.size - it.stated)[:count]

    def greater(self) -> List[Left]:
        """The results that were greater than stated."""
        return [it for it in self.left if it.size > it.stated]

    def __str__(self) -> str:
        lines = [
            f"bound {format_bytes(self.bound)}: booked at most {format_bytes(self.booked)}, used at most {format_bytes(self.used)}",
            f"least bound {format_bytes(self.least)}; with the sizes that tasks left it is {format_bytes(self.enough)}",
        ]
        for words, some in (("largest", self.largest()), ("overstated", self.overstated()), ("greater than stated", self.greater())):
            told = [f"{named(it.task, _short(it.key))} {format_bytes(it.size)} of {format_bytes(it.stated)}" for it in some[:_SHOWN]]
            lines += [f"{words}: {', '.join(told)}"] if told else []
        return "\n".join(lines)


def _short(key: Optional[Hashable]) -> Optional[Hashable]:
    """The key without its token."""
    if isinstance(key, tuple):
        return (key_split(key), *key[1:])
    return None if key is None else key_split(key)


class Results(Dict[int, Future]):
    """The futures of the results that stay, by their tasks; ``summary`` tells of the run."""

    summary: Optional[Summary] = None


class Weights:
    """The sizes of the results of a run, as workers tell them, for its core and for its summary."""

    def __init__(self, tasks: Sequence[Task], graph: ResultGraph, admission: Admission, others: int, bound: int, least: int) -> None:
        self._tasks, self._graph, self._admission, self._others = tasks, graph, admission, others
        self._bound, self._least = bound, least
        self._sizes: Dict[int, int] = {}

    def start(self, task: int) -> bool:
        """`Admission.start`; where nothing runs, and what was left leaves this task no room, the run ends."""
        with self._told():
            return self._admission.start(task)

    def weigh(self, task: int, size: int) -> None:
        """A result is there, so large. One that is greater than stated may come to lie once more on each worker where a consumer runs."""
        size = max(size, self._sizes.get(task, 0))
        if self._sizes.get(task) == size:
            return
        self._sizes[task] = size
        more = size - self._tasks[task].size
        copies = min(self._others, len(self._graph.consumers[task])) if more > 0 else 0
        with self._told():
            self._admission.weigh(task, max(0, self._graph.sizes[task] + more * (1 + copies)))

    @contextmanager
    def _told(self) -> Iterator[None]:
        try:
            yield
        except NoRoom:
            task = max(self._sizes, key=lambda it: self._sizes[it] - self._tasks[it].size)
            raise ResultTooLarge(task, self._tasks[task].key, self._sizes[task], self._tasks[task].size) from None

    def results(self, futures: Dict[int, Future], order: Sequence[int]) -> Results:
        """With the summary of the run, which has ended."""
        left = [Left(task, self._tasks[task].key, size, self._tasks[task].size) for task, size in sorted(self._sizes.items())]
        measured = graph_of([task._replace(size=self._sizes.get(at, task.size)) for at, task in enumerate(self._tasks)], self._others)
        results = Results(sorted(futures.items()))
        greatest = self._admission.most_booked, self._admission.most_used
        results.summary = Summary(self._bound, self._least, measured.least_bound(order), *greatest, left)
        return results
