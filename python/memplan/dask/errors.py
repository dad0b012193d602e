"""Why a run does not begin, or ends without its results. Whatever it left on the cluster is gone by the time an error is raised."""

from __future__ import annotations

import reprlib
from contextlib import contextmanager
from typing import Any, Dict, Hashable, Iterator, List, Mapping, Optional, Sequence

from .. import Refused

_FORMAT, _CYCLE = 3, 17
"""The status and the kind of `memplan.Refused` where tasks wait for each other."""


def named(task: int, key: Optional[Hashable] = None) -> str:
    """A task in words: its number, from 0, and its key where it has one."""
    if key is None:
        return f"task {task}"
    return f"task {task} {key}" if isinstance(key, tuple) else f"task {task} ({key})"


# What is refused before anything runs


@contextmanager
def keys_told(keys: Sequence[Optional[Hashable]]) -> Iterator[None]:
    """Where memplan refuses a task, by its number, its key is told too."""
    try:
        yield
    except Refused as refusal:
        task = getattr(refusal, "task", None)
        if task is not None and keys[task] is not None:
            refusal.args = (f"{refusal}: task {task} is {keys[task]}",)
        raise


class UnbookedData(TypeError):
    """A task has a future or a Dask collection, ``what``, inside, at ``where``: memory that no run books, and a worker would be given it
    as it is in place of its result. ``task`` counts from 0; ``key`` is the task's, where it has one."""

    def __init__(self, task: int, key: Optional[Hashable], where: str, what: Any) -> None:
        kind = " ".join(filter(None, (type(what).__name__, str(getattr(what, "key", "")))))
        super().__init__(
            f"{named(task, key)} has {kind} in {where}: no run books what that stands for, and a worker would be given it in place of its"
            " result. Let a task make it and give its result as an input, or give the data themselves"
        )
        self.task = task
        self.key = key
        self.where = where
        self.what = what


class AnnotationRefused(ValueError):
    """A layer of a collection, or ``dask.annotate`` around a run (then ``layer`` is None), has an annotation that no run keeps to."""

    _INSTEAD = {
        "retries": "give run() retries, which are those of all its tasks",
        "workers": "give run() workers, which are those of all its tasks",
        "allow_other_workers": "give run() workers, which are those of all its tasks",
        "resources": "give run() the workers that have them",
        "priority": "give run() an order",
    }

    def __init__(self, annotation: str, value: Any, layer: Optional[str] = None) -> None:
        place = "around the run" if layer is None else f"of the layer {layer}"
        instead = self._INSTEAD.get(annotation, "a run has nothing of the kind: take it away")
        super().__init__(f"the annotation {annotation}={reprlib.repr(value)} {place} would be without effect: {instead}")
        self.annotation = annotation
        self.layer = layer


class TasksInACycle(Refused):
    """Tasks wait for each other, so that no order is one: each of ``tasks`` takes the result of the one before it."""

    def __init__(self, tasks: Sequence[int], keys: Sequence[Optional[Hashable]]) -> None:
        ValueError.__init__(self, "tasks wait for each other: " + " -> ".join(map(named, tasks, keys)))
        self.status, self.kind, self.at, self.value = _FORMAT, _CYCLE, 0, 0
        self.tasks = list(tasks)


class SizesUnknown(ValueError):
    """No size of some tasks of a collection is known. ``names`` are theirs, without tokens, with how many there are of each."""

    _NAMED = 5

    def __init__(self, names: Mapping[str, int]) -> None:
        told = [f"{name} ({count})" for name, count in list(names.items())[: self._NAMED]]
        more = ", .." if len(names) > self._NAMED else ""
        super().__init__(
            f"no size is known of {', '.join(told)}{more}: record() a run of the collection, tell the sizes, or give Sizes an otherwise"
        )
        self.names: Dict[str, int] = dict(names)


# What ends a run


class RunError(RuntimeError):
    """What all errors of a run have in common."""


class TaskFailed(RunError):
    """A task raised, and was not to be tried again. What it raised is the cause, ``__cause__``."""

    def __init__(self, task: int, key: Optional[Hashable], cause: BaseException) -> None:
        super().__init__(f"{named(task, key)} raised {cause!r}")
        self.task = task
        self.key = key


class ResultTooLarge(RunError):
    """A task left more than was stated, and the bound has no room for what it left beside. ``size`` is what it left, as
    `dask.sizeof.sizeof` measures it, and ``stated`` what was said."""

    def __init__(self, task: int, key: Optional[Hashable], size: int, stated: int) -> None:
        super().__init__(
            f"{named(task, key)} left {size} bytes as dask.sizeof measures them, {stated} were stated, and the bound has no room for more:"
            " take a greater bound, or give the task a size that is enough (Task(.., size=..), or the sizes of of_collection)"
        )
        self.task = task
        self.key = key
        self.size = size
        self.stated = stated


class WorkerLost(RunError):
    """A worker left the cluster, and its results with it. Dask would make these anew, in memory that is not booked. ``tasks`` are those
    that ran there."""

    def __init__(self, worker: str, tasks: Mapping[int, Optional[Hashable]]) -> None:
        ran = ", ".join(named(task, key) for task, key in tasks.items())
        super().__init__(f"the worker {worker} left the cluster" + (f" while it ran {ran}" if ran else ""))
        self.worker = worker
        self.tasks = list(tasks)


class Standstill(RunError):
    """Nothing has moved for so many ``seconds``, though not every task has run.

    ``statuses`` has the workers that start nothing, and why (``paused``, ``closing_gracefully``, ..); ``held`` the bytes of the run's
    results on these; ``waiting``, for each task that could start, the workers where it can, which is everywhere where there are none.
    """

    _NAMED = 3
    """So many tasks are named in the message."""

    def __init__(
        self,
        seconds: float,
        statuses: Mapping[str, str],
        held: Mapping[str, int],
        waiting: Mapping[int, Sequence[str]],
        keys: Mapping[int, Optional[Hashable]],
    ) -> None:
        told = [f"nothing has moved for {seconds:.0f} seconds"]
        told += [f"{worker} is {status} and holds {held[worker]} bytes of the run" for worker, status in statuses.items()]
        for task, places in list(waiting.items())[: self._NAMED]:
            told.append(f"{named(task, keys[task])} can start " + (f"only on {', '.join(places)}" if places else "on any worker"))
        if len(waiting) > self._NAMED:
            told.append(f"{len(waiting) - self._NAMED} more tasks wait like these")
        if "paused" in statuses.values():
            told.append("Dask pauses a worker near its memory limit: give workers more memory or take more of them, or keep fewer results")
        super().__init__("; ".join(told))
        self.seconds = seconds
        self.statuses: Dict[str, str] = dict(statuses)
        self.held: Dict[str, int] = dict(held)
        self.waiting: Dict[int, List[str]] = {task: list(places) for task, places in waiting.items()}


class EngineStopped(RunError):
    """The cluster has no worker, the client was closed, or a task or a result of the run was cancelled by someone else."""
