"""What runs on workers and on the scheduler.

Classes and functions stand inside functions here, since Dask sends such ones whole: the machines of a cluster need nothing of memplan.
"""

from __future__ import annotations

import traceback
from time import time
from typing import Any, Callable, Dict, List, Sequence, Tuple

from distributed import SchedulerPlugin, WorkerPlugin


def caller() -> Callable[[Callable[..., Any], List[Any]], Any]:
    """Calls a task's function so that nothing but the worker's table of results holds the inputs once it has returned or raised: no list
    of arguments in a thread that has not come to drop it, and no frame of a traceback."""

    def call(function: Callable[..., Any], inputs: List[Any]) -> Any:
        try:
            return function(*inputs)
        except BaseException as error:
            traceback.clear_frames(error.__traceback__)
            raise
        finally:
            inputs.clear()

    return call


def measurer() -> Callable[[Callable[..., Any], Sequence[Any]], Tuple[Any, int, int, bool]]:
    """Calls a function and measures it: its result, the size of that, what was needed beside, and whether the size is no sample. Of the
    threads of a process one measures at a time."""

    def measure(function: Callable[..., Any], inputs: Sequence[Any]) -> Tuple[Any, int, int, bool]:
        import threading
        import tracemalloc

        from dask.sizeof import sizeof

        with threading.__dict__.setdefault("_memplan_measures", threading.Lock()):
            was_traced = tracemalloc.is_tracing()
            if was_traced:
                tracemalloc.reset_peak()
            else:
                tracemalloc.start()
            try:
                before = tracemalloc.get_traced_memory()[0]
                result = function(*inputs)
                most = tracemalloc.get_traced_memory()[1] - before
            finally:
                if not was_traced:
                    tracemalloc.stop()
        size = 0 if result is None else int(sizeof(result))
        kind = getattr(getattr(result, "dtype", None), "hasobject", None)
        is_exact = result is None or isinstance(result, (bool, int, float)) or (type(result).__module__ == "numpy" and kind is False)
        return result, size, max(0, most - size), is_exact

    return measure


def teller() -> Callable[..., Any]:
    """Measures a task on a worker, tells of it over a topic, and gives back the result alone."""
    measure = measurer()

    def tell(function: Callable[..., Any], topic: str, task: int, *inputs: Any) -> Any:
        from distributed import get_worker

        result, *told = measure(function, inputs)
        get_worker().log_event(topic, (task, *told))
        return result

    return tell


def watch(run: str) -> WorkerPlugin:
    """Tells over the topic of a run which of its results enter a worker's memory, and which have left it."""

    class Watch(WorkerPlugin):
        def setup(self, worker: Any) -> None:
            self.worker = worker

        def transition(self, key: str, start: str, finish: str, **_: Any) -> None:
            if not key.startswith(run):
                return
            if finish == "memory":
                state = self.worker.state.tasks[key]
                size = 0 if state.type is type(None) else state.nbytes or 0
                self.worker.log_event(run, ("entered", key, self.worker.address, size))
            elif start == "memory":
                self.worker.log_event(run, ("left", key, self.worker.address))

    return Watch()


TABLES = ("plugins", "events", "event_counts", "event_subscriber")
"""Of the scheduler, where a run leaves something that it takes back at its end."""


def lacking() -> Callable[..., List[str]]:
    """Which of these tables a scheduler, of another version, has not."""
    names = TABLES

    def lacks(dask_scheduler: Any) -> List[str]:
        return [name for name in names if not hasattr(dask_scheduler, name)]

    return lacks


def changes(run: str) -> SchedulerPlugin:
    """Tells over the topic of a run which workers leave the cluster, and which come to start no tasks, or to start them again."""

    class Changes(SchedulerPlugin):
        async def start(self, scheduler: Any) -> None:
            self.scheduler = scheduler

        def log_event(self, topic: str, message: Any) -> None:
            if isinstance(message, dict) and message.get("action") == "worker-status-change":
                self.scheduler.log_event(run, ("turned", topic, message["status"]))

        def remove_worker(self, scheduler: Any, worker: str) -> None:
            scheduler.log_event(run, ("lost", worker))

    return Changes()


def statuses() -> Callable[..., Dict[str, str]]:
    """The status of each worker, which is ``running`` where it starts tasks."""

    def told(dask_scheduler: Any) -> Dict[str, str]:
        return {address: worker.status.name for address, worker in dask_scheduler.workers.items()}

    return told


def mover(keys: Sequence[str], workers: Sequence[str], seconds: float) -> Callable[..., bool]:
    """Whether one of these tasks gets on, or may: unless no worker can have it, or one that starts no tasks has it and does not execute it.
    And whether one of the workers has not been heard of for so long, as where a task holds its interpreter's lock; one that is dead is
    told as lost."""

    def moves(dask_scheduler: Any) -> bool:
        there = [dask_scheduler.workers[worker] for worker in workers if worker in dask_scheduler.workers]
        return any(time() - worker.last_seen > seconds for worker in there) or not all(map(stands, map(dask_scheduler.tasks.get, keys)))

    def stands(task: Any) -> bool:
        if task is None or task.state != "processing":
            return task is not None and task.state == "no-worker"
        return task.processing_on.status.name != "running" and task not in task.processing_on.executing

    return moves


def holder(run: str) -> Callable[..., bool]:
    """Whether a worker still has anything of a run: a result, or a task that runs."""

    def holds(dask_worker: Any) -> bool:
        return any(key.startswith(run) for key in dask_worker.state.tasks)

    return holds


def eraser(run: str) -> Callable[..., None]:
    """Takes what a run registered from the scheduler, and the log of its topic."""

    names = TABLES

    def erase(dask_scheduler: Any) -> None:
        for name in names:
            getattr(dask_scheduler, name).pop(run, None)

    return erase
