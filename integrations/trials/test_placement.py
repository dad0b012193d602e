"""On which worker the runner on Dask puts tasks, what it does where Dask pauses workers, and that it never stands still in silence."""

from __future__ import annotations

import ctypes
import sys
import threading
import time
from contextlib import contextmanager
from functools import partial
from types import SimpleNamespace
from typing import Any, Callable, Iterator, List, Set, Tuple

import dask
import numpy
from clusters import cluster, leaves_nothing
from dask.sizeof import sizeof
from distributed import Client, get_worker
from distributed.core import Status
from harness import eventually, raised, run_all
from memplan.dask import Standstill, Task, least_bound, remote, run
from memplan.dask.placement import Placement
from memplan.dask.runner import LEAST_PATIENCE
from workloads import MB

# The decisions, without a cluster


def placement(**threads: int) -> Placement:
    """Of workers with so many threads; the order is that of the numbers."""
    return Placement(threads, {task: task for task in range(100)})


def started(places: Placement, size: int = 0) -> List[Tuple[int, str]]:
    """Starts whatever can start."""
    found = []
    while (pair := places.next()) is not None:
        places.start(*pair, size)
        found.append(pair)
    return found


def the_worker_that_holds_least_is_taken() -> None:
    places = placement(a=1, b=1, c=1)
    places.hold("a", 5)
    places.hold("b", 3)
    places.hold("c", 4)
    places.add(0, None)
    assert started(places) == [(0, "b")]
    places.end("b", 0)
    places.hold("b", 2)
    places.add(1, None)
    assert started(places) == [(1, "c")], "b holds as much as a by now"


def what_runs_counts_as_stated() -> None:
    places = placement(a=2, b=2)
    places.hold("a", 1)
    for task in range(3):
        places.add(task, None)
    assert started(places, size=10) == [(0, "b"), (1, "a"), (2, "b")]
    places.end("b", 10)
    places.hold("b", 2)
    assert places.held == {"a": 11, "b": 12} and places.free == {"a": 1, "b": 1}


def free_threads_decide_where_as_much_is_held() -> None:
    places = placement(a=1, b=3, c=2)
    for task in range(6):
        places.add(task, None)
    assert started(places) == [(0, "b"), (1, "b"), (2, "c"), (3, "a"), (4, "b"), (5, "c")]
    assert places.free == {"a": 0, "b": 0, "c": 0}


def workers_that_rest_get_nothing() -> None:
    places = placement(a=1, b=1)
    places.hold("b", 9)
    places.resting["a"] = "paused"
    places.add(0, None)
    places.add(1, None)
    assert started(places) == [(0, "b")]
    del places.resting["a"]
    assert started(places) == [(1, "a")]


def a_task_stays_where_its_home_lies() -> None:
    places = placement(a=1, b=1, c=1)
    places.hold("a", 9)
    places.hold("b", 8)
    places.add(0, {"a"})
    places.add(1, {"a", "b"})
    assert started(places) == [(0, "a"), (1, "b")]
    places.add(2, {"a"})
    places.add(3, None)
    assert started(places) == [(3, "c")], "a has no thread, so the next one starts"
    places.end("a", 0)
    assert started(places) == [(2, "a")]


def a_home_that_rests_is_waited_for() -> None:
    places = placement(a=1, b=1)
    places.resting["a"] = "paused"
    homes = {"a"}
    places.add(0, homes)
    places.add(1, None)
    assert started(places) == [(1, "b")]
    places.end("b", 0)
    assert places.next() is None and places.places == {0: {"a"}}
    homes.add("b")
    places.widen([0, 1, 2], "b")
    assert started(places) == [(0, "b")], "a copy lies on b by now"
    del places.resting["a"]
    assert places.next() is None


def a_home_that_is_gone_is_no_place() -> None:
    places = placement(a=1, b=1)
    homes = {"a", "b"}
    places.hold("b", 1)
    places.add(0, homes)
    homes.discard("a")
    assert started(places) == [(0, "b")]


# Whether anything moves, as the scheduler has it


class TaskThere:
    """What a scheduler knows of a task."""

    def __init__(self, state: str, worker: Any) -> None:
        self.state, self.processing_on = state, worker if state == "processing" else None


def scheduler_with(status: str, state: str, executes: bool = False, silent_for: float = 0) -> SimpleNamespace:
    """A scheduler with one worker and one task."""
    worker = SimpleNamespace(status=Status[status], executing={}, last_seen=time.time() - silent_for)
    task = TaskThere(state, worker)
    if executes:
        worker.executing[task] = 1.0
    return SimpleNamespace(workers={"a": worker}, tasks={"task": task})


def a_standstill_is_told_from_a_task_at_work() -> None:
    moves = remote.mover(["task"], ["a", "lost"], 5)
    assert moves(scheduler_with("running", "processing", executes=True))
    assert moves(scheduler_with("running", "processing")), "it waits for a thread that other work has, or fetches what it needs"
    assert moves(scheduler_with("paused", "processing", executes=True))
    assert not moves(scheduler_with("paused", "processing"))
    assert not moves(scheduler_with("closing_gracefully", "processing"))
    assert not moves(scheduler_with("running", "no-worker"))
    assert moves(scheduler_with("paused", "memory")), "it has just ended"
    assert moves(scheduler_with("paused", "processing", silent_for=6)), "its interpreter may be held"
    assert not moves(scheduler_with("paused", "processing", silent_for=4))
    assert remote.mover(["new"], ["a"], 5)(scheduler_with("paused", "processing")), "the scheduler has no word of it yet"
    assert not remote.mover([], ["a"], 5)(scheduler_with("running", "processing", executes=True)), "a task of another run"


# Where results come to lie


def month(megabytes: int, seconds: float, number: int = 0) -> Any:
    time.sleep(seconds)
    return numpy.ones(megabytes * MB // 8) * number


def results_of(client: Client) -> List[int]:
    """How many results each worker has."""
    return sorted(client.run(lambda dask_worker: len(dask_worker.data)).values())


def kept_months(megabytes: int, seconds: float, extra: int) -> List[Task]:
    return [Task(month, (megabytes, seconds, number), (), megabytes * MB, extra * MB, True) for number in range(12)]


# With the extra the tasks run one after the other, so that there is a choice each time.
def kept_results_lie_evenly(client: Client) -> None:
    tasks = kept_months(6, 0.02, 60)
    futures = run(tasks, least_bound(tasks, client), client)
    assert results_of(client) == [3, 3, 3, 3]
    del futures
    leaves_nothing(client)


# 12 results of 40 MB, one after the other: 9 of them on one worker are more than Dask pauses one of 500 MB at.
def a_tight_bound_does_not_fill_one_worker() -> None:
    with dask.config.set({"distributed.worker.memory.pause": 0.8}), cluster(True, 3, memory_limit=500 * MB) as client:
        tasks = kept_months(40, 0.1, 400)
        bound = least_bound(tasks, client)
        assert bound == 880 * MB
        futures = run(tasks, bound, client)
        assert len(futures) == 12 and results_of(client) == [4, 4, 4]
        del futures
        leaves_nothing(client)


# Paused workers


def turn(worker: Any, status: Status) -> None:
    """Pauses a worker, or lets it start tasks again, as Dask does by its memory."""
    worker.loop.add_callback(setattr, worker, "status", status)


def pause_here() -> None:
    turn(get_worker(), Status.paused)
    time.sleep(0.3)


def paused_by_its_task(size: int, seconds: float, *_: Any) -> Any:
    """A task whose worker is paused while it runs."""
    pause_here()
    time.sleep(seconds)
    return numpy.ones(size // 8)


def after(seconds: float, *_: Any) -> str:
    """A short result with the worker that made it."""
    time.sleep(seconds)
    return get_worker().address


def pause(client: Client, workers: List[str]) -> None:
    client.run(lambda dask_worker: turn(dask_worker, Status.paused), workers=workers)
    assert eventually(lambda: paused(client) == set(workers))


def paused(client: Client) -> Set[str]:
    return {address for address, worker in client.scheduler_info()["workers"].items() if worker["status"] == "paused"}


@contextmanager
def all_start_again(client: Client) -> Iterator[None]:
    """At the end no worker is paused."""
    try:
        yield
    finally:
        client.run(lambda dask_worker: turn(dask_worker, Status.running))
        assert eventually(lambda: not paused(client))


KB = 1000


def paused_workers_get_no_tasks(client: Client) -> None:
    workers = sorted(client.nthreads())
    with all_start_again(client):
        pause(client, workers[:2])
        tasks = [Task(after, (0.05,), (), KB) for _ in range(8)]
        futures = run(tasks, 8 * KB, client, patience=20)
        assert {future.result() for future in futures.values()} == set(workers[2:])
        del futures
    leaves_nothing(client)


def a_worker_that_is_paused_meanwhile_gets_no_more(client: Client) -> None:
    with all_start_again(client):
        tasks = [Task(paused_by_its_task, (MB, 0), (), 2 * MB), *(Task(after, (0.1,), (), KB) for _ in range(20))]
        futures = run(tasks, 3 * MB, client, range(21), patience=20)
        (there,) = paused(client)
        made = [future.result() for task, future in futures.items() if task]
        assert made.count(there) == 0 and len(set(made)) == 3
        del futures
    leaves_nothing(client)


def what_can_run_nowhere_else_ends_in_a_standstill(client: Client) -> None:
    made, use, last, other = range(4)
    tasks = [
        Task(paused_by_its_task, (MB, 0), (), 2 * MB, key="made"),
        Task(after, (0,), (made,), KB, key="use"),
        Task(after, (0,), (use,), KB, key="last"),
        Task(after, (0,), (), KB, key="other"),
    ]
    with all_start_again(client):
        began = time.monotonic()
        error = raised(Standstill, partial(run, patience=0), tasks, 9 * MB, client)
        assert LEAST_PATIENCE <= error.seconds <= time.monotonic() - began < 60
        (there,) = paused(client)
        assert error.statuses == {there: "paused"} and error.waiting == {use: [there]}
        assert error.held == {there: sizeof(numpy.ones(MB // 8))}
        for part in (f"{there} is paused and holds 1000", f"task 1 (use) can start only on {there}", "memory"):
            assert part in str(error), str(error)
    leaves_nothing(client)


def where_all_workers_are_paused_it_is_said(client: Client) -> None:
    with all_start_again(client):
        pause(client, list(client.nthreads()))
        tasks = [Task(after, (0,), (), KB), Task(after, (0,), (), KB), Task(after, (0,), (0, 1), KB)]
        error = raised(Standstill, partial(run, patience=0), tasks, 9 * MB, client)
        assert set(error.statuses) == set(client.nthreads()) and error.waiting == {0: [], 1: []}
        assert set(error.held.values()) == {0} and "task 0 can start on any worker" in str(error)
    leaves_nothing(client)


def a_run_goes_on_where_a_worker_starts_again(client: Client) -> None:
    tasks = [Task(paused_by_its_task, (MB, 0), (), 2 * MB), Task(after, (0,), (0,), KB)]
    with all_start_again(client):
        seen: List[float] = []

        def start_again() -> None:
            if eventually(lambda: bool(paused(client))):
                time.sleep(1)
                seen.append(time.monotonic())
                client.run(lambda dask_worker: turn(dask_worker, Status.running))

        thread = threading.Thread(target=start_again)
        thread.start()
        futures = run(tasks, 9 * MB, client, patience=20)
        ended = time.monotonic()
        thread.join()
        assert seen and ended > seen[0], "the task could not start before"
        assert list(futures) == [1]
        del futures
    leaves_nothing(client)


def hold_the_lock(seconds: float, *_: Any) -> None:
    """A task whose worker, which is paused, is not heard of meanwhile: it holds the interpreter's lock."""
    pause_here()
    ctypes.PyDLL(None).usleep(int(seconds * 1e6))


# Without word of what is at work each of these runs, at the same time, would end after six seconds, at the second look.
def a_task_that_runs_long_is_no_standstill(client: Client) -> None:
    tasks = [
        Task(after, (8.5,), (), KB),
        Task(paused_by_its_task, (KB, 8.2), (), 2 * KB),
        Task(hold_the_lock, (8.2,), (), KB),
    ]
    ends: List[List[int]] = []

    def run_long(task: Task, worker: str) -> None:
        ends.append(list(run([task], KB * KB, client, workers=[worker], patience=0)))

    with all_start_again(client):
        runs = [threading.Thread(target=run_long, args=pair) for pair in zip(tasks, sorted(client.nthreads()))]
        for it in runs:
            it.start()
        for it in runs:
            it.join()
        assert ends == [[0]] * 3, "a run did not come to its end"
    leaves_nothing(client)


CHECKS_WITHOUT_A_CLUSTER: List[Tuple[str, Callable[[], None]]] = [
    ("the worker that holds least is taken", the_worker_that_holds_least_is_taken),
    ("what runs counts as stated", what_runs_counts_as_stated),
    ("free threads decide where as much is held", free_threads_decide_where_as_much_is_held),
    ("workers that rest get nothing", workers_that_rest_get_nothing),
    ("a task stays where its home lies", a_task_stays_where_its_home_lies),
    ("a home that rests is waited for", a_home_that_rests_is_waited_for),
    ("a home that is gone is no place", a_home_that_is_gone_is_no_place),
    ("a standstill is told from a task at work", a_standstill_is_told_from_a_task_at_work),
]

CHECKS_ON_PROCESSES: List[Tuple[str, Callable[[Client], None]]] = [
    ("kept results lie evenly", kept_results_lie_evenly),
    ("paused workers get no tasks", paused_workers_get_no_tasks),
    ("a worker that is paused meanwhile gets no more", a_worker_that_is_paused_meanwhile_gets_no_more),
    ("what can run nowhere else ends in a standstill", what_can_run_nowhere_else_ends_in_a_standstill),
    ("where all workers are paused it is said", where_all_workers_are_paused_it_is_said),
    ("a run goes on where a worker starts again", a_run_goes_on_where_a_worker_starts_again),
    ("a task that runs long is no standstill", a_task_that_runs_long_is_no_standstill),
]


def main() -> int:
    status = run_all([(f"placement: {name}", check) for name, check in CHECKS_WITHOUT_A_CLUSTER])
    with cluster(processes=True) as client:
        status |= run_all([(f"Dask's processes: {name}", partial(check, client)) for name, check in CHECKS_ON_PROCESSES])
    return status | run_all([("Dask's processes: a tight bound does not fill one worker", a_tight_bound_does_not_fill_one_worker)])


if __name__ == "__main__":
    sys.exit(main())
