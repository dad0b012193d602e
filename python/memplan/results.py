"""What comes of trees, graphs and workflows: plans, fences, simulated runs, what goes to disk. Tasks have the caller's names."""

from __future__ import annotations

from typing import TYPE_CHECKING, Any, Dict, List, Literal, NamedTuple, Optional, Sequence, Tuple, TypeVar, Union

from ._types import Array, Axes, Tasks

if TYPE_CHECKING:
    import os

    from .graphs import Graph
    from .trees import Tree
    from .workflows import Workflow

    Work = Union[Tree, Graph, Workflow]
else:
    Work = Any

__all__ = [
    "Blockers",
    "Bound",
    "Claims",
    "Evidence",
    "Fences",
    "FrontRows",
    "Gap",
    "Gaps",
    "Item",
    "Join",
    "Need",
    "Plan",
    "Readers",
    "Segments",
    "Simulation",
    "Spill",
    "Stairs",
    "States",
]


class Item(NamedTuple):
    """Data that tasks hand on: its size, the task that makes it, or None where it is there from the start, and the tasks that read it.

    Without readers it stays to the end. Items are told by their places in `Graph.items`, from 0.
    """

    size: int
    producer: Any = None
    readers: Tuple[Any, ...] = ()


class Claims(NamedTuple):
    """Evidence: columns of claims, on positions of the term, which count from 1; PLANS says under 'Claims' what a claim says."""

    position: Array
    backward: Array
    bound: Array
    rest: Array


class Need(NamedTuple):
    """Evidence: what this task reads and needs, or for None what is there before any task has run."""

    task: Any


class States(NamedTuple):
    """Evidence: so many states are looked at from the end at most."""

    many: int


class Blockers(NamedTuple):
    """Evidence: tasks of which one starts first, or one last, in every order.

    ``base`` and the list beside each task have pairs (use, amount): the size to which an item is lowered for this use. Uses count from 1,
    in the order of the items and of the readers of each, where an item that nobody reads has one.
    """

    last: bool
    base: List[Tuple[int, int]]
    blockers: List[Tuple[Any, List[Tuple[int, int]]]]


Evidence = Union[Claims, Need, States, Blockers]


class Made:
    """What a `Tree`, a `Graph` or a `Workflow` made or read: ``work`` is that one, and None of what was made by hand, copied or pickled. It
    is no part of the tuple."""

    work: Optional[Work] = None

    def _of(self, work: Optional[Work]) -> Work:
        """The work that is told, or else the one that made this."""
        found = self.work if work is None else work
        if found is None:
            raise TypeError(f"work: a {type(self).__name__} that was made by hand has none; say of which tasks it is")
        return found

    def __getstate__(self) -> None:
        """Copies and pickles have no more than the tuple."""
        return None

    if not TYPE_CHECKING:

        def _replace(self, **changes):
            return kept_with(super()._replace(**changes), **vars(self))


AnyMade = TypeVar("AnyMade", bound=Made)


def kept_with(made: AnyMade, **known: Any) -> AnyMade:
    """The same, with what it is made of and by."""
    vars(made).update(known)
    return made


class _Plan(NamedTuple):
    order: Tasks
    peak: int
    bound: int
    evidence: Optional[Evidence] = None
    priority: Optional[Tasks] = None


class Plan(Made, _Plan):
    """An order, its peak, and a bound that no order has a peak below; evidence for that, if it was asked for, and a ranking for `simulate`.

    All is as its maker says: `check` judges it. Of a tree or a workflow the bound is the peak.
    """

    @property
    def is_least(self) -> bool:
        """Whether the bound shows that no order has a lower peak. Where it does not, the peak may still be least.

        >>> Plan(["load", "merge"], peak=9, bound=7).is_least
        False
        """
        return self.bound == self.peak

    def plot(
        self,
        ax: Optional[Axes] = None,
        work: Optional[Work] = None,
        *,
        unit: Optional[str] = None,
        by: Literal["tasks", "time"] = "tasks",
        label: str = "",
        bound: Optional[int] = None,
    ) -> Axes:
        """Memory along the order, by matplotlib, as `memplan.plot.memory` draws it. ``work`` is told of a plan that was made by hand.

        >>> axes = FIVE.plan().plot(unit="entries")
        >>> axes.get_title(loc="left")
        'peak 11 entries'
        """
        from . import plot

        return plot.memory(self._of(work), self, ax, unit=unit, by=by, label=label, bound=bound)

    def report(
        self,
        path: Union[str, "os.PathLike[str]"],
        work: Optional[Work] = None,
        *,
        bounds: Sequence[int] = (),
        workers: Sequence[int] = (4,),
        simulations: Sequence[Simulation] = (),
        unit: Optional[str] = None,
        title: str = "",
    ) -> None:
        """Writes a page of the plan, one file that loads nothing: memory step by step, with zoom, and what is held at each step; of a tree
        its tasks by memory, with the claims on them; what shows that no order needs less, which is judged by `check` first. The makespans
        of runs within ``bounds``, on each number of ``workers``, and those of ``simulations``, are shown against their bounds.

        >>> FIVE.plan(evidence=True).report(FOLDER / "report.html", bounds=[11, 15, 22], workers=[2], unit="entries")
        >>> (FOLDER / "report.html").read_text().count("https://")
        0
        """
        from ._report import simulations_of, write_report
        from ._systems import unit_of

        of = self._of(work)
        write_report(path, of, self, [*simulations, *simulations_of(of, self, bounds, workers)], unit_of(of, unit), title)


class Bound(NamedTuple):
    """What no order has a peak below, evidence for it, and the peak of the order that was given beside."""

    bound: int
    evidence: Evidence
    peak: Optional[int]


class Readers(NamedTuple):
    """All tasks that read an item, of which there are several: who waits for these waits for each. ``item`` is the item's place, from 0."""

    item: int
    tasks: Tuple[Any, ...]


class Fences(NamedTuple):
    """Dependences after which no run passes a bound, on so many workers, or on any number where that is None.

    ``pairs`` has for each fence what is waited for, a task or `Readers`, and the task that waits. ``room`` is what is set aside for each
    worker, ``joins`` the readers of each item with several, and ``amounts`` certify the bound: one for each item of the graph with its
    joins, and behind these one for each fence.
    """

    bound: int
    workers: Optional[int]
    room: int
    joins: List[Readers]
    pairs: List[Tuple[Any, Any]]
    amounts: Array

    def edges(self) -> List[Tuple[Any, Any]]:
        """The fences between tasks alone, each once: pairs (task, task that waits for it), to be added to an engine's graph.

        >>> both = Readers(0, ("count", "sort"))
        >>> Fences(9, None, 0, [both], [("load", "count"), (both, "merge"), ("sort", "merge")], []).edges()
        [('load', 'count'), ('count', 'merge'), ('sort', 'merge')]
        """
        found: Dict[Tuple[Any, Any], None] = {}
        for before, after in self.pairs:
            for task in before.tasks if isinstance(before, Readers) else (before,):
                found[task, after] = None
        return list(found)


class _Simulation(NamedTuple):
    makespan: int
    used: int
    booked: int
    time: Array
    what: List[str]
    task: Tasks


class Simulation(Made, _Simulation):
    """A run on several workers within a bound: how long it takes, the greatest memory that was used, and that was booked.

    The events are columns: the time of each, what happens (``activate``, ``start`` or ``finish``), and the task. ``bound`` and ``workers``,
    which are no part of the tuple, are what `simulate` was asked for, and None of a run that was made by hand.
    """

    bound: Optional[int] = None
    workers: Optional[int] = None

    def spans(self) -> List[Tuple[Any, int, int]]:
        """Each task with the times of its start and its end, in the order in which they start.

        >>> Simulation(3, 9, 9, [0, 0, 3], ["activate", "start", "finish"], ["load", "load", "load"]).spans()
        [('load', 0, 3)]
        """
        starts: Dict[Any, int] = {}
        ends: Dict[Any, int] = {}
        for time, what, task in zip(self.time, self.what, self.task):
            if what != "activate":
                (starts if what == "start" else ends)[task] = int(time)
        return [(task, start, ends[task]) for task, start in starts.items()]

    def plot(
        self,
        ax: Optional[Tuple[Axes, Axes]] = None,
        work: Optional[Work] = None,
        *,
        unit: Optional[str] = None,
        bound: Optional[int] = None,
    ) -> Tuple[Axes, Axes]:
        """Who works when, above what is used and booked, by matplotlib, as `memplan.plot.run` draws it: two axes.

        >>> above, below = FIVE.simulate(FIVE.plan(), bound=15, workers=2).plot()
        >>> above.get_title(loc="left")
        'makespan 4: 5 tasks, at most 2 at once'
        """
        from . import plot

        return plot.run(self._of(work), self, ax, unit=unit, bound=bound)


class Spill(NamedTuple):
    """What has to go to disk: all together, and the amount of each task's block in a tree, of each data item in a workflow."""

    volume: int
    amounts: Array


class Gap(NamedTuple):
    """What is on disk of an item until a task reads it, or for None to the end. ``item`` is the item's place, from 0."""

    item: int
    reader: Any
    amount: int


class Gaps(NamedTuple):
    """What has to go to disk in a graph: all together, and the gaps between the uses of items in which something does."""

    volume: int
    gaps: List[Gap]


class FrontRows(NamedTuple):
    """The rows of each front of a matrix, the fronts that were made at once, round by round, and the most rows that were held at once."""

    rows: List[Array]
    rounds: List[Tasks]
    used: int


class Stairs(NamedTuple):
    """How low memory comes within each bound: first it is at ``level``, and from each bound of ``steps`` on at the level beside it."""

    level: int
    steps: List[Tuple[int, int]]


class Segments(NamedTuple):
    """The stairs of a part, forwards from its first state and backwards from its last one."""

    forward: Stairs
    backward: Stairs

    def plot(self, ax: Optional[Axes] = None, *, unit: str = "units", label: str = "") -> Axes:
        """Both staircases, by matplotlib, as `memplan.plot.segments` draws them.

        >>> FIVE.segments()["b"].plot(label="b").get_title(loc="left")
        'how low memory comes within each bound: b'
        """
        from . import plot

        return plot.segments(self, ax, unit=unit, label=label)


class Join(NamedTuple):
    """A task without need that `Graph.reduce` puts behind tasks that supply others together, by its number among such, from 1."""

    number: int
