"""Which tasks of a graph may start so that what they hold stays within a bound: what runners of tasks share.

A task leaves one result, which any number of other tasks consume. A runner reports what happens (`Admission.start`, `done`, `gone`), and is
told what may start (`ready`); the core decides. This module, which words the one in terms of the other, is tested and not proved.

Numbers are checked as everywhere in `memplan`: one that is no whole number is a `TypeError`, one that is negative or too great an
`OverflowError`, and both name it, as ``sizes[0]: 2.9 is no whole number``. Lengths that differ, and inputs of tasks that are none, are a
`ValueError`. A graph or an order that the library refuses is a `GraphRefused`, and a bound `BoundTooLow`.
"""

from __future__ import annotations

import reprlib
from itertools import islice
from operator import index
from typing import Collection, Dict, List, NamedTuple, Optional, Sequence, Set, SupportsIndex, Tuple

from . import Core, Refused, SharedItem, plan, plan_shared, replay_shared
from ._numbers import U32, U64, column, whole
from ._types import WholeNumbers

__all__ = ["EFFORT_OF_A_RUN", "MOST_RUNNING", "Admission", "BoundTooLow", "Graph", "GraphRefused", "NoRoom", "ResultGraph", "ResultPlan"]

MOST_RUNNING = 4096
"""How many tasks may run at once: as many as a core has workers."""

EFFORT_OF_A_RUN = 10_000_000
"""How much is searched for a better order before a run: some tenths of a second for a thousand tasks."""

_FORMAT = 3
_CYCLE = 17
_BOUND_BELOW_PEAK = 30


class BoundTooLow(ValueError):
    """The bound is below the peak of the order: the tasks do not fit even one after the other. ``least`` is a bound that is enough."""

    def __init__(self, bound: int, least: int) -> None:
        super().__init__(f"a bound of {bound} is too low: along this order the tasks need {least}")
        self.bound = bound
        self.least = least


class GraphRefused(Refused):
    """A graph or an order was refused, in the caller's tasks and places, which count from 0.

    ======  ====================================================================  ============================
    kind    what is wrong                                                         what is told
    ======  ====================================================================  ============================
    10      there is no task, and a plan is asked for                             neither
    11      the tasks are over 1,000,000                                          neither
    14, 52  the extra of a task, or the size of its result, is over 2^40          ``task``
    16      all sizes and extras together are over 2^60                           neither
    17      tasks wait for each other, or one for itself                          ``task``, the first of these
    20      the order has a number that is no task's                              ``place``
    21      the order has a task twice                                            ``place``, ``task``
    22      the order has a task before one whose result it consumes              ``place``, ``task``
    23      the order ends, and has not every task                                ``place``, the order's length
    53      the inputs of all tasks together are over 10,000,000                  neither
    ======  ====================================================================  ============================

    No other kind comes of a graph. ``task`` and ``place`` are None where they are not told. ``status`` and ``kind`` are those of
    ``memplan.h``; ``at`` is the place, or else the task, counted from 1 as in every `Refused`, and 0 where there is neither.
    """

    def __init__(self, refusal: Tuple[int, int], words: str, task: Optional[int] = None, place: Optional[int] = None) -> None:
        ValueError.__init__(self, words)
        self.status, self.kind = refusal
        self.task = task
        self.place = place
        found = place if place is not None else task
        self.at = 0 if found is None else found + 1
        self.value = 0


class NoRoom(RuntimeError):
    """Results are greater than the graph says, by ``more`` together, and what is there, or what is to start next, does not fit the bound."""

    def __init__(self, bound: int, more: int) -> None:
        super().__init__(f"results are greater than stated, by {more} together, and the bound of {bound} has no room for them")
        self.bound = bound
        self.more = more


_WORDS = {
    10: "there is no task",
    11: "there are more than 1,000,000 tasks",
    14: "task {task}: its extra, or the size of its result, is greater than 2^40",
    20: "order[{place}]: there is no task {task}",
    21: "order[{place}]: task {task} stands there again",
    22: "order[{place}]: task {task} stands before one whose result it consumes",
    23: "order[{place}]: the order ends here, and has not every task",
    52: "task {task}: its extra, or the size of its result, is greater than 2^40",
    53: "the tasks have more than 10,000,000 inputs together",
}


def _tasks(name: str, tasks: Collection[int]) -> List[int]:
    """Tasks of which it does not matter which comes first."""
    return column(name, list(tasks) if isinstance(tasks, (set, frozenset)) else tasks, U32).tolist()


def _inputs_of(inputs: Sequence[Collection[int]]) -> List[Tuple[int, ...]]:
    """The inputs of each task, each once. They are looked at all together, which is faster, and by tasks to name one that is wrong."""
    try:
        results: Optional[List[int]] = column("{}", [result for consumed in inputs for result in consumed], U32).tolist()
    except (TypeError, OverflowError):
        results = None
    if results is None:
        return [tuple(dict.fromkeys(_tasks(f"inputs[{task}][{{}}]", consumed))) for task, consumed in enumerate(inputs)]
    left = iter(results)
    return [tuple(dict.fromkeys(islice(left, len(consumed)))) for consumed in inputs]


class ResultPlan(NamedTuple):
    """An order of tasks, from 0, its peak, and a bound that no order has a peak below."""

    order: List[int]
    peak: int
    bound: int

    @property
    def is_least(self) -> bool:
        """Whether no order has a lower peak."""
        return self.peak == self.bound


class ResultGraph:
    """Tasks, numbered from 0 as they stand, that leave one result each.

    ``inputs`` has for each task those whose results it consumes; ``sizes`` what each result takes; ``extras`` what each task needs beside
    that and its inputs while it runs. The results of the tasks in ``kept``, and those that no task consumes, stay to the end.
    `GraphRefused` where tasks wait for each other.

    >>> graph = ResultGraph([(), (0,), (0,), (1, 2)], sizes=[10, 1, 10, 2], extras=[0, 0, 0, 0])
    >>> graph.least_bound([0, 2, 1, 3]), graph.is_forest
    (21, False)
    """

    def __init__(
        self, inputs: Sequence[Collection[int]], sizes: WholeNumbers, extras: WholeNumbers, kept: Collection[int] = ()
    ) -> None:
        self.sizes = column("sizes[{}]", sizes, U64).tolist()
        self.extras = column("extras[{}]", extras, U64).tolist()
        if not len(inputs) == len(self.sizes) == len(self.extras):
            raise ValueError("inputs, sizes and extras have different lengths")
        self.inputs = _inputs_of(inputs)
        self.consumers: List[List[int]] = [[] for _ in self.sizes]
        for task, consumed in enumerate(self.inputs):
            for result in consumed:
                if result >= len(self.sizes):
                    raise ValueError(f"task {task} consumes the result of task {result}, and there is none")
                self.consumers[result].append(task)
        self.kept = {*_tasks("kept[{}]", kept), *(task for task, users in enumerate(self.consumers) if not users)}
        if self.kept and max(self.kept) >= len(self.sizes):
            raise ValueError(f"the result of task {max(self.kept)} is to be kept, and there is none")
        self._refuse_circles()
        self.owners = self._owners()

    def _refuse_circles(self) -> None:
        """Lets every task run that waits for none; those that are left wait for each other, or for such ones."""
        waits = [len(consumed) for consumed in self.inputs]
        free = [task for task, count in enumerate(waits) if count == 0]
        for task in free:
            for user in self.consumers[task]:
                waits[user] -= 1
                if waits[user] == 0:
                    free.append(user)
        if len(free) < len(waits):
            circle = self._circle({task for task, count in enumerate(waits) if count})
            words = f"the tasks {reprlib.repr(circle)} wait for each other" if circle[1:] else f"task {circle[0]} waits for itself"
            raise GraphRefused((_FORMAT, _CYCLE), words, circle[0])

    def _circle(self, left: Set[int]) -> List[int]:
        """Tasks that wait for each other, of those that are left."""
        task = min(left)
        places: Dict[int, int] = {}
        while task not in places:
            places[task] = len(places)
            task = next(result for result in self.inputs[task] if result in left)
        return sorted(it for it, place in places.items() if place >= places[task])

    def _owners(self) -> List[int]:
        """For each result the task, from 1, that alone consumes it; 0 where it stays, or where there are several."""
        return [users[0] + 1 if len(users) == 1 and result not in self.kept else 0 for result, users in enumerate(self.consumers)]

    @property
    def is_forest(self) -> bool:
        """Whether each result either has one consumer or stays: then `planned` has an order of least peak."""
        return all(len(users) + (task in self.kept) == 1 for task, users in enumerate(self.consumers))

    def planned(self) -> List[int]:
        """An order of least peak of a forest.

        >>> ResultGraph([(), (), (0, 1)], sizes=[3, 4, 1], extras=[0, 9, 0]).planned()
        [1, 0, 2]
        """
        if not self.is_forest:
            raise ValueError("a result has several consumers: take planned_from, or give an order")
        try:
            order, _ = plan(self.owners, self.sizes, self.extras)
        except Refused as refusal:
            raise self.told(refusal) from None
        return [int(task) - 1 for task in order]

    def planned_from(self, start: WholeNumbers, effort: SupportsIndex = EFFORT_OF_A_RUN) -> List[int]:
        """An order of any graph whose peak is not above that of the order ``start``: that of `plan_from`.

        >>> graph = ResultGraph([(), (0,), (0,), (1, 2)], sizes=[10, 1, 10, 2], extras=[0, 0, 0, 0])
        >>> graph.planned_from([0, 2, 1, 3])
        [0, 1, 2, 3]
        """
        return self.plan_from(start, effort).order

    def plan_from(self, start: WholeNumbers, effort: SupportsIndex = EFFORT_OF_A_RUN) -> ResultPlan:
        """An order of any graph, its peak, which is not above that of the order ``start``, and a bound that no order has a peak below. It is
        of least peak where `memplan.plan_shared` has one, else the best that it finds with so much effort.

        >>> graph = ResultGraph([(), (0,), (0,), (1, 2)], sizes=[10, 1, 10, 2], extras=[0, 0, 0, 0])
        >>> plan = graph.plan_from([0, 2, 1, 3])
        >>> plan.order, plan.peak, plan.bound, plan.is_least
        ([0, 1, 2, 3], 21, 21, True)
        """
        numbered = self.numbered(start)
        if not numbered:
            self.least_bound(start)  # refused, but where there is no task
        tasks, items = self.system()
        try:
            found = plan_shared(tasks, items, numbered, effort)
        except Refused as refusal:
            raise self.told(refusal, start) from None
        return ResultPlan([int(task) - 1 for task in found.order], found.peak, found.bound)

    def least_bound(self, order: WholeNumbers) -> int:
        """The peak of an order, which is the least bound along it.

        >>> ResultGraph([(), (0,)], sizes=[10, 1], extras=[0, 2]).least_bound([0, 1])
        13
        """
        tasks, items = self.system()
        try:
            return replay_shared(tasks, items, self.numbered(order))
        except Refused as refusal:
            raise self.told(refusal, order) from None

    def system(self) -> Tuple[List[int], List[SharedItem]]:
        """The extras and the items for the core: a result is read by its consumers. One that is kept is read by none, and an item of size
        0 makes its consumers wait for it."""
        items = [SharedItem(size, task + 1, self._readers_of(task)) for task, size in enumerate(self.sizes)]
        for task in sorted(self.kept):
            if self.consumers[task]:
                items.append(SharedItem(0, task + 1, self._readers_of(task)))
                items[task] = items[task]._replace(readers=())
        return self.extras, items

    def _readers_of(self, task: int) -> List[int]:
        return [user + 1 for user in self.consumers[task]]

    def numbered(self, order: WholeNumbers) -> List[int]:
        """The order for the core. 0 stands for what is no task."""
        return [task + 1 if task < len(self.sizes) else 0 for task in column("order[{}]", order, U32).tolist()]

    def told(self, refusal: Refused, order: WholeNumbers = ()) -> GraphRefused:
        """What the library says of `system` and of an order, in words of the graph."""
        kind, at = refusal.kind, refusal.at
        task: Optional[int] = None
        place: Optional[int] = None
        if kind == 14:
            task = at - 1
        elif kind == 52:
            task = self.system()[1][at - 1].from_ - 1
        elif 20 <= kind <= 23:
            place = at - 1
            task = int(order[place]) if place < len(order) else None
        words = _WORDS.get(kind, str(refusal)).format(task=task, place=place)
        return GraphRefused((refusal.status, kind), words, None if kind == 20 else task, place)


Graph = ResultGraph
"""The name that it had before: `memplan.Graph` is another one, whose tasks hand on any number of items."""


class Admission:
    """The tasks of a graph within a bound, along an order; without one, along the plan of a forest. Calls are made one at a time.

    >>> runs = Admission(ResultGraph([(), (0,)], sizes=[10, 1], extras=[0, 2]), bound=13)
    >>> runs.ready(), runs.start(0), runs.used
    ([0], True, 10)
    >>> runs.done(0)
    >>> runs.ready(), runs.start(1), runs.spent(1), runs.used
    ([1], True, [0], 13)
    >>> runs.done(1)
    >>> runs.gone(0)
    >>> runs.left, runs.used
    (0, 1)

    `BoundTooLow` where the order's peak is above the bound; `GraphRefused` where the order is none, or a limit is passed.
    """

    def __init__(self, graph: ResultGraph, bound: SupportsIndex, order: Optional[WholeNumbers] = None) -> None:
        self._graph = graph
        self._tasks = len(graph.sizes)
        extras, items = graph.system()
        order = graph.planned() if order is None else order
        try:
            self._core = Core.of_shared(extras, items, graph.numbered(order), bound, MOST_RUNNING)
        except Refused as refusal:
            if refusal.kind == _BOUND_BELOW_PEAK:
                raise BoundTooLow(index(bound), refusal.value) from None
            raise graph.told(refusal, order) from None
        # What is in the way of each task's start: its activation, and its suppliers.
        self._before_start = [1 + len(inputs) for inputs in graph.inputs]
        # What is in the way of each task's finish: that it is done, and those inputs that go with it, till they are gone.
        self._before_finish = [1] * self._tasks
        self._readers = [len(users) for users in graph.consumers]  # of each result, as far as they are not done
        self._last_reader: Dict[int, int] = {}  # of a result that is on its way out of memory
        self._gone: Set[int] = set()
        self._uses = [len(users) for users in graph.consumers]
        self._ready: List[int] = []
        self._running = 0
        self._bound = index(bound)
        self._differences: Dict[int, int] = {}  # of results that are there, from what the graph says
        self._more = 0  # all of these together
        self.left = self._tasks
        """How many tasks are not finished."""
        self.most_booked = self.most_used = 0
        """The greatest `Core.booked` so far, and the greatest `used`, corrected by what was weighed."""

    def ready(self) -> List[int]:
        """The tasks that may start from now on; each is told once."""
        while task := self._core.activate():
            self._clear(task - 1)
        self.most_booked = max(self.most_booked, self._core.booked)
        ready, self._ready = self._ready, []
        return ready

    def start(self, task: SupportsIndex) -> bool:
        """Starts a task that is ready; no where as many run as may (`MOST_RUNNING`), or where results that are greater than stated leave it
        no room: then it may start once another has finished. `NoRoom` where there is no other."""
        number = whole("task", task, U32)
        if self._running == MOST_RUNNING:
            return False
        if self._more > 0 and self.used + self._more + self._need_of(number) > self._bound:
            if self._running == 0:
                raise NoRoom(self._bound, self._more)
            return False
        self._must(self._core.start(number + 1))
        self._running += 1
        self.most_used = max(self.most_used, self.used + self._more)
        return True

    def _need_of(self, task: int) -> int:
        return self._graph.sizes[task] + self._graph.extras[task] if task < self._tasks else 0

    def weigh(self, result: int, size: SupportsIndex) -> None:
        """The result that a task leaves takes so much, which may be less or more than the graph says: told before `done`, or again where
        it was measured anew. What is less makes room for what is more. `NoRoom` where what is there is now more than the bound.

        >>> runs = Admission(ResultGraph([(), (0,)], sizes=[10, 1], extras=[0, 9]), bound=20)
        >>> runs.ready(), runs.start(0), runs.weigh(0, 12)
        ([0], True, None)
        >>> runs.done(0)
        >>> runs.ready()
        [1]
        >>> runs.start(1)
        Traceback (most recent call last):
        memplan.admission.NoRoom: results are greater than stated, by 2 together, and the bound of 20 has no room for them
        """
        difference = whole("size", size, U64) - self._graph.sizes[result]
        self._more += difference - self._differences.get(result, 0)
        self._differences[result] = difference
        self.most_used = max(self.most_used, self.used + self._more)
        if difference > 0 and self.used + self._more > self._bound:
            raise NoRoom(self._bound, self._more)

    def spent(self, task: int) -> List[int]:
        """The results that are of no more use once this task has them. Each task is asked for once, after those it waits for."""
        spent = []
        for result in self._graph.inputs[task]:
            self._uses[result] -= 1
            if self._uses[result] == 0 and result not in self._graph.kept:
                spent.append(result)
        return spent

    def done(self, task: int) -> None:
        """The task has run. It is finished when the results are gone too of which it was the last consumer to run."""
        for result in self._graph.inputs[task]:
            self._readers[result] -= 1
            if self._readers[result] == 0 and result not in self._graph.kept and result not in self._gone:
                self._last_reader[result] = task
                self._before_finish[task] += 1
        self._settle(task)

    def gone(self, result: int) -> None:
        """The result that a task left is in no memory any more."""
        self._gone.add(result)
        self._more -= self._differences.pop(result, 0)
        if result in self._last_reader:
            self._settle(self._last_reader.pop(result))

    @property
    def used(self) -> int:
        """The memory of the results that are there, and of the running tasks."""
        return self._core.used

    def _clear(self, task: int) -> None:
        self._before_start[task] -= 1
        if self._before_start[task] == 0:
            self._ready.append(task)

    def _settle(self, task: int) -> None:
        self._before_finish[task] -= 1
        if self._before_finish[task] == 0:
            self._finish(task)

    def _finish(self, task: int) -> None:
        self._running -= 1
        self.left -= 1
        self._must(self._core.finish(task + 1))
        for consumer in self._graph.consumers[task]:
            self._clear(consumer)

    @staticmethod
    def _must(answer: bool) -> None:
        if not answer:
            raise RuntimeError("the core refuses an event: what was reported did not happen in this order")
