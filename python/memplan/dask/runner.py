"""Tasks on a Dask cluster within a bound on memory that memplan's core keeps."""

from __future__ import annotations

import time
import uuid
from functools import partial
from queue import Empty, SimpleQueue
from typing import Any, Callable, Collection, Dict, List, Optional, Sequence, Tuple, Union

import dask
from distributed import Client, Future
from ..admission import EFFORT_OF_A_RUN, Admission

from . import remote
from .errors import EngineStopped, Standstill, TaskFailed, WorkerLost, keys_told, named
from .placement import Placement
from .summary import Results, Weights
from .tasks import (
    LeastBound,
    Task,
    TaskPlan,
    bytes_of,
    graph_of,
    home_of,
    order_of,
    plan_of,
    refuse_annotations,
    refuse_cycles,
    refuse_unbooked,
)
from .versions import require_scheduler

PATIENCE = 30.0
"""For so many seconds nothing moves before a run says so. Dask looks at the memory of a worker ten times a second, and what it writes to
disk is there within seconds: where nothing ran for half a minute, and a worker is still paused, it waits for nothing that will come."""

LEAST_PATIENCE = 3.0
"""A worker tells the scheduler what it does every half second, and every second or two in a large cluster. A run waits for a few of these
words: with less patience a worker that was just not heard of would count as one whose interpreter is held, again and again."""

_SECONDS_BETWEEN_LOOKS = 0.02
_SECONDS_OF_SILENCE = 1.0


def run(
    tasks: Sequence[Task],
    bound: Union[int, str],
    client: Client,
    order: Optional[Sequence[int]] = None,
    retries: int = 0,
    workers: Optional[Sequence[str]] = None,
    patience: float = PATIENCE,
) -> Results:
    """Runs the tasks with at most ``bound`` bytes of results and extras on all workers together; the futures of the results that stay, and
    in ``summary`` how near it came to that. The bound is a whole number, or words as Dask's, ``"2GB"`` or ``"1.5 GiB"``.

    The tasks run along ``order`` (tasks, from 0). Without one they run along an order of least peak where each result has one consumer,
    and else along a plan that begins with Dask's order, and is never worse (`dask_order` is Dask's own). ``retries`` says how often a task
    that raises is tried again, and ``workers``, by their addresses, on which workers the tasks run; without it on all that there are now.
    After ``patience`` seconds, and at least three, in which nothing moves, and no task of the run is at work, `Standstill` is raised: so
    it is where what is left can run only on workers that Dask has paused.

    Raises `memplan.admission.BoundTooLow` where the bound is below the peak of the order, `memplan.Refused` where the order is none or a
    limit of the library is passed, `UnbookedData` where a task has a future or a Dask collection inside, and one of `errors` where the
    run fails. By then what ran has come to its end, and nothing is left.

    >>> futures = run([Task(list, size=1000), Task(len, inputs=(0,), size=1000)], bound=2000, client=CLIENT)
    >>> [(task, future.result()) for task, future in futures.items()]
    [(1, 0)]
    """
    bound = bytes_of(bound)
    _check(tasks, client)
    require_scheduler(client.run_on_scheduler(remote.lacking()))
    refuse_annotations(dask.config.get("annotations", None))
    return _Run(tasks, bound, client, order, retries, workers, patience).results() if tasks else Results()


def least_bound(
    tasks: Sequence[Task], client: Client, order: Optional[Sequence[int]] = None, workers: Optional[Sequence[str]] = None
) -> LeastBound:
    """The least bound that `run` takes for these tasks on these workers: a whole number of bytes, whose ``below`` no order has a peak below.

    >>> least = least_bound([Task(list, size=1000), Task(len, inputs=(0,), size=1000)], CLIENT)
    >>> least, least.below, least.is_least
    (2000, 2000, True)
    """
    if order is None:
        made = plan(tasks, client, workers)
        return LeastBound(made.peak, made.bound)
    _check(tasks, client)
    if not tasks:
        return LeastBound(0, 0)
    with keys_told([task.key for task in tasks]):
        graph = graph_of(tasks, _others(_threads(client, workers)))
        return LeastBound(graph.least_bound(order), plan_of(graph, order, 0).bound)


def plan(
    tasks: Sequence[Task], client: Client, workers: Optional[Sequence[str]] = None, effort: int = EFFORT_OF_A_RUN
) -> TaskPlan:
    """The order that `run` takes for these tasks on these workers, if no other is given, with its peak and a bound that no order has a peak
    below. With more ``effort`` more is searched where the graph is not series-parallel: some 100 million steps a second.

    >>> from memplan.dask import plan
    >>> made = plan([Task(list, size=1000, key="one"), Task(len, inputs=(0,), size=1000, key="two")], CLIENT)
    >>> made.order, made.names, made.peak, made.is_least
    ([0, 1], ['one', 'two'], 2000, True)
    """
    _check(tasks, client)
    if not tasks:
        return TaskPlan([], 0, 0, [])
    with keys_told([task.key for task in tasks]):
        found = plan_of(graph_of(tasks, _others(_threads(client, workers))), None, effort)
    return TaskPlan(*found, [tasks[task].key for task in found.order])


def _check(tasks: Sequence[Task], client: Client) -> None:
    if client.asynchronous:
        raise TypeError(f"a run waits for its tasks, and {client} is asynchronous: give it one that is not, from another thread")
    refuse_unbooked(tasks)
    refuse_cycles(tasks)


def _threads(client: Client, workers: Optional[Sequence[str]]) -> Dict[str, int]:
    """How many threads each worker has."""
    there = client.nthreads()
    threads = {worker: count for worker, count in there.items() if workers is None or worker in workers}
    if not threads or len(threads) < len(workers or ()):
        raise EngineStopped("the cluster has no worker" if not there else f"of the workers {workers} some are not there")
    return threads


def _others(threads: Dict[str, int]) -> int:
    """To how many workers a result may be copied. The workers of one process (``inproc``) hand results over without a copy."""
    return 0 if all(worker.startswith("inproc") for worker in threads) else len(threads) - 1


class _Run:
    """One run. All that happens comes by one queue, in the order in which the scheduler tells it."""

    def __init__(
        self,
        tasks: Sequence[Task],
        bound: int,
        client: Client,
        order: Optional[Sequence[int]] = None,
        retries: int = 0,
        workers: Optional[Sequence[str]] = None,
        patience: float = PATIENCE,
    ) -> None:
        self.name = "memplan-" + uuid.uuid4().hex
        self.tasks, self.client, self.retries, self.patience = tasks, client, retries, max(patience, LEAST_PATIENCE)
        threads = _threads(client, workers)
        with keys_told([task.key for task in tasks]):
            graph = graph_of(tasks, _others(threads))
            order = order_of(graph) if order is None else order
            self.admission = Admission(graph, bound, order)
        self.order = order
        self.weights = Weights(tasks, graph, self.admission, _others(threads), bound, graph.least_bound(order))
        self.placement = Placement(threads, {task: rank for rank, task in enumerate(order)})
        self.call = remote.caller()
        self.events: SimpleQueue[Tuple[Any, ...]] = SimpleQueue()
        self.futures: Dict[int, Future] = {}
        self.running: Dict[int, str] = {}  # the worker of each task that runs
        self.holders: List[Dict[str, int]] = [{} for _ in tasks]  # for each result its bytes on the workers that have it
        # For each task the result where it has to run, if the others are copied there, as that is booked; and the other way round.
        self.homes = [home_of(tasks, task) if _others(threads) else None for task in tasks]
        self.at_home: Dict[Optional[int], List[int]] = {}
        for task, home in enumerate(self.homes):
            self.at_home.setdefault(home, []).append(task)

    def results(self) -> Results:
        try:
            self._listen()
            self._start_ready()
            while self.admission.left:
                self._handle(self._next_event())
                self._start_ready()
            kept = self.weights.results(self.futures, self.order)
            self.futures.clear()
            return kept
        except BaseException:
            self._abandon()
            raise
        finally:
            self._fall_silent()

    # What starts

    def _start_ready(self) -> None:
        for task in self.admission.ready():
            self.placement.add(task, self._places_of(task))
        while (found := self.placement.next()) is not None and self.weights.start(found[0]):
            self._submit(*found)

    def _places_of(self, task: int) -> Optional[Collection[str]]:
        """The workers where a task may run, as they are at any time; None where all are."""
        home = self.homes[task]
        return None if home is None else self.holders[home].keys()

    def _submit(self, task: int, worker: str) -> None:
        future = self._future_of(task, worker)
        future.add_done_callback(partial(self._ended, task))
        self.placement.start(task, worker, self.tasks[task].size)
        self.running[task] = worker
        self.futures[task] = future
        # The scheduler keeps what a task needs, and drops it as soon as that is done: no need to wait for word of it here.
        for result in self.admission.spent(task):
            self.futures.pop(result).release()

    def _ended(self, task: int, future: Future) -> None:
        if future.status != "finished":
            self.events.put(("failed", task))

    def _future_of(self, task: int, worker: str) -> Future:
        function, arguments, inputs = self.tasks[task][:3]
        words = partial(function, *arguments), [self.futures[result] for result in inputs]
        place = {"workers": [worker], "allow_other_workers": False}
        return self.client.submit(self.call, *words, key=self._key_of(task), retries=self.retries, pure=False, **place)

    # What happens

    def _listen(self) -> None:
        self.client.subscribe_topic(self.name, lambda event: self.events.put(tuple(event[1])))
        self.client.register_scheduler_plugin(remote.changes(self.name), name=self.name)
        self.client.register_worker_plugin(remote.watch(self.name), name=self.name)
        for worker, status in self.client.run_on_scheduler(remote.statuses()).items():
            self._turned(worker, status)

    def _next_event(self) -> Tuple[Any, ...]:
        last, stood = time.monotonic(), False
        while True:
            try:
                return self.events.get(timeout=min(_SECONDS_OF_SILENCE, self.patience))
            except Empty:
                if self.client.status != "running":
                    raise EngineStopped(f"the client is {self.client.status}") from None
            silence = time.monotonic() - last
            if silence < self.patience:
                continue
            if self._is_at_work(silence):
                last, stood = time.monotonic(), False
            elif stood:
                raise self._standstill(silence)
            else:
                stood = True  # word of what has just happened may be on its way: it is looked twice

    def _handle(self, event: Tuple[Any, ...]) -> None:
        what, *told = event
        calls: Dict[str, Callable[..., None]] = {"entered": self._entered, "left": self._left, "failed": self._failed}
        calls.update(turned=self._turned, lost=self._lost)
        calls[what](*told)

    def _entered(self, key: str, worker: str, size: int) -> None:
        """A result is in a worker's memory: its task has run there, or it was copied."""
        task = self._task_of(key)
        stated = self.tasks[task].size
        self.weights.weigh(task, size)
        self.placement.hold(worker, size - self.holders[task].get(worker, 0))
        self.holders[task][worker] = size
        self.placement.widen(self.at_home.get(task, ()), worker)
        if task in self.running:
            self.placement.end(self.running.pop(task), stated)
            self.admission.done(task)

    def _left(self, key: str, worker: str) -> None:
        """A result has left a worker's memory. Where no other worker has it, its memory is free again, and not before."""
        task = self._task_of(key)
        self.placement.hold(worker, -self.holders[task].pop(worker, 0))
        if self.holders[task]:
            return
        if task in self.futures:
            raise EngineStopped(f"the result of {self._named(task)} was taken from the cluster")
        self.admission.gone(task)

    def _failed(self, task: int) -> None:
        if task not in self.running:
            return  # its result was there, and was given back, before its future had word of it
        future = self.futures[task]
        if future.status != "error":
            raise EngineStopped(f"{self._named(task)} was {future.status}")
        error = future.exception()
        raise TaskFailed(task, self.tasks[task].key, error) from error

    def _turned(self, worker: str, status: str) -> None:
        """A worker starts no tasks from now on, or starts them again."""
        if status == "running":
            self.placement.resting.pop(worker, None)
        elif worker in self.placement.free:
            self.placement.resting[worker] = status

    def _lost(self, worker: str) -> None:
        if worker in self.placement.free:
            raise WorkerLost(worker, {task: self.tasks[task].key for task, place in self.running.items() if place == worker})

    def _is_at_work(self, seconds: float) -> bool:
        """Whether a task of the run gets on, however long it may take, though nothing has been heard of it for so many seconds. A worker
        tells the scheduler every few seconds that it is there: one that has not for half this time has its interpreter held."""
        keys = [self._key_of(task) for task in self.running]
        return bool(self.client.run_on_scheduler(remote.mover(keys, list(self.placement.free), seconds / 2)))

    def _standstill(self, seconds: float) -> Standstill:
        resting = self.placement.resting
        held = {worker: sum(sizes.get(worker, 0) for sizes in self.holders) for worker in resting}
        waiting = {task: [worker] for task, worker in self.running.items()}
        waiting.update((task, list(places or ())) for task, places in self.placement.places.items())
        return Standstill(seconds, resting, held, waiting, {task: self.tasks[task].key for task in waiting})

    def _key_of(self, task: int) -> str:
        return f"{self.name}-{task}"

    def _task_of(self, key: str) -> int:
        return int(key.rsplit("-", 1)[1])

    def _named(self, task: int) -> str:
        return named(task, self.tasks[task].key)

    # The end

    def _abandon(self) -> None:
        """Starts nothing more, and waits until no worker has anything of the run: a task that runs comes to its end."""
        for future in self.futures.values():
            future.release()
        self.futures.clear()
        holds = remote.holder(self.name)
        while self.client.status == "running" and True in self.client.run(holds, on_error="return").values():
            time.sleep(_SECONDS_BETWEEN_LOOKS)

    def _fall_silent(self) -> None:
        if self.client.status != "running":
            return
        self.client.unregister_worker_plugin(self.name)
        self.client.run_on_scheduler(remote.eraser(self.name))
        # Dask has no call for this: unsubscribe_topic leaves the handler, and with it the run, where it is.
        self.client._event_handlers.pop(self.name, None)
