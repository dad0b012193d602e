"""The runner on Dask, with workers that are threads of this process, and with workers that are processes."""

from __future__ import annotations

import ctypes
import os
import sys
import tempfile
import threading
import time
from functools import partial
from pathlib import Path
from typing import Any, Callable, Dict, List, Tuple

import blocks
import dask.array
import numpy
import workloads
from clusters import (
    bare_workers,
    cluster,
    digests,
    leaves_nothing,
    once_it_runs,
    plain_digests,
    records,
    separate_scheduler,
    settled_records,
)
from dask.delayed import delayed
from distributed import Client, Future, LocalCluster
from harness import raised, run_all
from memplan import Refused
from memplan.dask import (
    BoundTooLow,
    EngineStopped,
    ResultTooLarge,
    Task,
    TaskFailed,
    WorkerLost,
    dask_order,
    least_bound,
    of_collection,
    plan,
    run,
    runner,
)
from memplan.dask.tasks import graph_of
from workloads import MB

# Bounds are kept

LOADS: Dict[str, Callable[[], workloads.Load]] = {
    "fork-join": lambda: workloads.fork_join(16),
    "random tree": lambda: workloads.random_tree(40),
    "random graph": lambda: workloads.random_graph(40),
    "fronts": lambda: workloads.fronts(12),
}


WANTED: Dict[str, Any] = {}
"""What a run without any bound leaves of each load."""


def keeps_its_bound(name: str, factor: float, client: Client) -> None:
    tasks = LOADS[name]().tasks
    bound = int(factor * least_bound(tasks, client))
    if name not in WANTED:
        WANTED[name] = plain_digests(client, tasks, sorted(graph_of(tasks, 0).kept))
        settled_records(client)
    records(client)
    futures = run(tasks, bound, client)
    assert digests(client, futures) == WANTED[name]
    del futures
    top, rest = blocks.top_and_rest(settled_records(client))
    assert rest == 0 and 0 < top <= bound, (top, rest, bound)
    leaves_nothing(client)


def keeps_the_bound_of_an_array(client: Client) -> None:
    tasks, rebuild = of_collection(workloads.symmetric_sum(5, 5), workloads.sizes_of_symmetric_sum)
    bound = least_bound(tasks, client)
    wanted = blocks.digest(workloads.symmetric_sum(5, 0).compute())
    settled_records(client)
    result = rebuild(run(tasks, bound, client))
    digest = digests(client, {0: client.compute(result)})[0]
    del result
    top, rest = blocks.top_and_rest(settled_records(client))
    assert rest == 0 and 0 < top <= bound, (top, rest, bound)
    assert digest == wanted
    leaves_nothing(client)


def computes_what_dask_computes(client: Client) -> None:
    x = dask.array.arange(400, chunks=50).reshape(20, 20).rechunk(10)
    for collection in ((x - x.mean()).std(), (x.T + x).sum(axis=0), (x @ x)[3:7, :2]):
        tasks, rebuild = of_collection(collection, lambda key: (100_000, 1_000_000))
        result = rebuild(run(tasks, least_bound(tasks, client), client))
        assert numpy.array_equal(result.compute(), client.compute(collection).result())
        del result
    leaves_nothing(client)


def is_no_worse_than_dasks_order(client: Client) -> None:
    tasks = workloads.random_graph(80).tasks
    kept, least = least_bound(tasks, client, dask_order(tasks)), least_bound(tasks, client)
    assert 0 < least <= kept and least == least_bound(tasks, client)
    for bound, order in ((least, None), (kept, dask_order(tasks))):
        assert raised(BoundTooLow, run, tasks, bound - 1, client, order).least == bound
    leaves_nothing(client)


def marked(path: str) -> int:
    """Leaves a mark each time it runs."""
    with open(path, "a") as file:
        file.write(".")
    return 5


def several_collections_are_computed_together(client: Client) -> None:
    def computed(given: Any) -> Any:
        tasks, rebuild = of_collection(given, lambda key: (100_000, 1_000_000))
        return dask.compute(rebuild(run(tasks, least_bound(tasks, client), client)))[0]

    x = dask.array.arange(400, chunks=200).reshape(20, 20)
    total, mean = x.sum(), x.mean(axis=0)
    assert computed([total, 5, total]) == [79800, 5, 79800]
    both = computed((total, mean))
    assert type(both) is tuple and both[0] == 79800 and numpy.array_equal(both[1], 190 + numpy.arange(20))
    with tempfile.TemporaryDirectory() as folder:
        path = Path(folder) / "marks"
        source = delayed(marked)(str(path))
        doubled, next_one = delayed(lambda value: 2 * value)(source), delayed(lambda value: value + 1)(source)
        assert computed({"doubled": doubled, "more": [next_one, total]}) == {"doubled": 10, "more": [6, 79800]}
        assert path.read_text() == ".", "what they share runs once"
    assert "no Dask collection" in str(raised(TypeError, of_collection, [1, "two"], lambda key: (0, 0)))
    leaves_nothing(client)


# A late release: what a task consumed lies with a worker that holds the interpreter's lock, and hears of no release meanwhile.


def announced(path: str, *words: Any) -> blocks.Block:
    Path(path).touch()
    return blocks.work(*words)


def hold_the_lock(path: str, seconds: float, *words: Any) -> blocks.Block:
    while not Path(path).exists():
        time.sleep(0.01)
    ctypes.PyDLL(None).usleep(int(seconds * 1e6))
    return blocks.work(*words)


def late_release(folder: str) -> List[Task]:
    """Tasks for two workers, whose order has its peak where 3 runs: it fetches a result from the worker that then holds the lock."""
    path = str(Path(folder) / "announced")
    return [
        workloads.task_of(0, 20 * MB, 0, 400),
        workloads.task_of(1, 19 * MB, 0, 0),
        Task(hold_the_lock, (path, 2, 2, MB, 0, 0), (), MB),
        Task(announced, (path, 3, MB, 0, 0.5), (0, 1), MB),
        workloads.task_of(4, 55 * MB, 0, 50),
        workloads.task_of(5, MB, 0, 0, (2, 3, 4)),
    ]


class HastyRun(runner._Run):
    """The runner with another rule: a task is finished when its future is done."""

    def _entered(self, key: str, worker: str, size: int) -> None:
        task = self._task_of(key)
        is_done = task in self.running
        super()._entered(key, worker, size)
        for result in self.tasks[task].inputs if is_done else ():
            self.admission.gone(result)

    def _left(self, key: str, worker: str) -> None:
        pass


def top_of_late_release(run_class: Any, client: Client) -> Tuple[int, int]:
    client.run(blocks.taken_records)
    with tempfile.TemporaryDirectory() as folder:
        tasks = late_release(folder)
        bound = least_bound(tasks, client, range(6))
        records(client)
        futures = run_class(tasks, bound, client, range(6)).results()
        assert futures[5].result().data.nbytes == MB
        futures.clear()
        return blocks.top_and_rest(settled_records(client))[0], bound


def keeps_its_bound_where_memory_is_released_late(client: Client) -> None:
    top, bound = top_of_late_release(runner._Run, client)
    assert top <= bound, (top, bound)
    leaves_nothing(client)


def would_pass_its_bound_if_tasks_finished_when_futures_are_done(client: Client) -> None:
    # Whether the release comes late is a race, which a busy machine may decide otherwise once; that it can is what is shown.
    runs = (top_of_late_release(HastyRun, client) for _ in range(5))
    assert any(top > bound for top, bound in runs), "the case is no case of a late release"


# What ends a run


def fails(*inputs: blocks.Block) -> None:
    raise ArithmeticError("on purpose")


def fails_at_first(path: str, times: int, *words: Any) -> blocks.Block:
    """Fails so many times, each time with all its memory taken."""
    made = blocks.work(*words)
    with open(path, "a+") as file:
        file.write(".")
        file.seek(0)
        if len(file.read()) <= times:
            raise ArithmeticError("at first")
    return made


def what_a_task_raises_ends_the_run(client: Client) -> None:
    tasks = workloads.random_tree(40).tasks
    tasks[20] = tasks[20]._replace(function=fails, arguments=())
    settled_records(client)
    error = raised(TaskFailed, run, tasks, 2 * least_bound(tasks, client), client)
    assert error.task == 20 and isinstance(error.__cause__, ArithmeticError)
    leaves_nothing(client)
    assert blocks.top_and_rest(settled_records(client))[1] == 0


def a_task_is_tried_again_within_the_bound(client: Client) -> None:
    with tempfile.TemporaryDirectory() as folder:
        words = (str(Path(folder) / "tries"), 2, 1, 4 * MB, 5 * MB, 0.01)
        tasks = [workloads.task_of(0, MB, 0, 1), Task(fails_at_first, words, (0,), 4 * MB, 5 * MB)]
        bound = least_bound(tasks, client)
        assert bound == 10 * MB
        settled_records(client)
        futures = run(tasks, bound, client, retries=2)
        assert futures[1].result().data.nbytes == 4 * MB
        del futures
        assert blocks.top_and_rest(settled_records(client)) == (bound, 0)
        Path(words[0]).unlink()
        assert raised(TaskFailed, partial(run, retries=1), tasks, bound, client).task == 1
        leaves_nothing(client)


def a_result_greater_than_stated_ends_the_run(client: Client) -> None:
    tasks = [workloads.task_of(0, 2 * MB, 0, 0), workloads.task_of(1, MB, 3 * MB, 0, (0,))]
    tasks[0] = tasks[0]._replace(size=MB)
    for bound in (5 * MB, 6 * MB - 1):  # what is left fits, and with it the next task does not
        error = raised(ResultTooLarge, run, tasks, bound, client)
        assert (error.task, error.size, error.stated) == (0, 2 * MB, MB)
        leaves_nothing(client)
    error = raised(ResultTooLarge, run, tasks[:1], 2 * MB - 1, client)  # what is left does not fit
    assert (error.task, error.size, error.stated) == (0, 2 * MB, MB)
    leaves_nothing(client)


def a_result_greater_than_stated_takes_what_room_there_is(client: Client) -> None:
    tasks = workloads.random_tree(40).tasks
    wanted = plain_digests(client, tasks, sorted(graph_of(tasks, 0).kept))
    settled_records(client)
    stated = [task._replace(size=task.size * 9 // 10) for task in tasks]
    bound = 2 * least_bound(tasks, client)
    futures = run(stated, bound, client)
    assert digests(client, futures) == wanted
    assert futures.summary is not None and len(futures.summary.greater()) == len(tasks)
    assert futures.summary.enough == least_bound(tasks, client, plan(stated, client).order)
    del futures
    top, rest = blocks.top_and_rest(settled_records(client))
    assert rest == 0 and 0 < top <= bound, (top, rest, bound)
    leaves_nothing(client)


def a_bound_below_the_peak_is_refused(client: Client) -> None:
    tasks = workloads.random_tree(40).tasks
    least = least_bound(tasks, client)
    settled_records(client)
    assert raised(BoundTooLow, run, tasks, least - 1, client).least == least
    assert not any(settled_records(client)), "a task has run"
    leaves_nothing(client)


def an_order_that_is_none_is_refused(client: Client) -> None:
    tasks = [workloads.task_of(0, MB, 0, 0), workloads.task_of(1, MB, 0, 0, (0,))]
    assert raised(Refused, run, tasks, 9 * MB, client, [1, 0]).at == 1
    leaves_nothing(client)


def a_cancelled_task_ends_the_run(client: Client) -> None:
    tasks = [workloads.task_of(0, MB, 0, 0), workloads.task_of(1, MB, 0, 2000, (0,))]

    def cancel() -> None:
        client.cancel([Future(key, client) for key in list(client.futures)])

    canceller = once_it_runs(client, cancel)
    assert raised(EngineStopped, run, tasks, 9 * MB, client)
    canceller.join()
    leaves_nothing(client)


def two_runs_and_a_subscription_do_not_clash(client: Client) -> None:
    heard: List[Any] = []
    client.subscribe_topic("all", heard.append)
    tasks = workloads.random_graph(40).tasks
    bound = least_bound(tasks, client)
    wanted = plain_digests(client, tasks, sorted(graph_of(tasks, 0).kept))
    ends: List[Any] = []
    runs = [threading.Thread(target=lambda: ends.append(digests(client, run(tasks, bound, client)))) for _ in range(2)]
    for it in runs:
        it.start()
    for it in runs:
        it.join()
    assert ends == [wanted, wanted] and "all" in client._event_handlers
    client.unsubscribe_topic("all")
    leaves_nothing(client)


def workers_have_bounds_of_their_own(client: Client) -> None:
    workers = sorted(client.nthreads())[:2]
    tasks = [workloads.random_tree(60, seed).tasks for seed in (1, 2)]
    bounds = [least_bound(some, client, workers=[worker]) for some, worker in zip(tasks, workers)]
    settled_records(client)
    ends: List[Any] = []

    def run_part(part: int) -> None:
        ends.append(digests(client, run(tasks[part], bounds[part], client, workers=[workers[part]])))

    parts = [threading.Thread(target=run_part, args=(part,)) for part in range(2)]
    for part in parts:
        part.start()
    for part in parts:
        part.join()
    assert len(ends) == 2
    told = client.run(blocks.taken_records)
    assert [blocks.top_and_rest([told[worker]])[0] for worker in workers] == bounds
    assert "not there" in str(raised(EngineStopped, partial(run, workers=["tcp://127.0.0.1:1"]), tasks[0], bounds[0], client))
    leaves_nothing(client)


def a_lost_worker_ends_the_run() -> None:
    with bare_workers(3) as (client, programs):
        tasks = workloads.random_tree(40, slowness=6).tasks
        bound = 2 * least_bound(tasks, client)
        killer = once_it_runs(client, programs[0].kill)
        error = raised(WorkerLost, run, tasks, bound, client)
        assert error.worker.startswith("tcp://127.0.0.1")
        killer.join()
        leaves_nothing(client)
        settled_records(client)
        futures = run(tasks, bound, client)
        assert len(futures) == 1
        del futures
        top, rest = blocks.top_and_rest(settled_records(client))
        assert rest == 0 and top <= bound
        assert not any(client.run(lambda: "memplan" in sys.modules).values())


def a_closed_client_ends_the_run() -> None:
    with LocalCluster(n_workers=1, processes=False, dashboard_address="127.0.0.1:0", silence_logs=50) as made:
        client = Client(made)
        closer = once_it_runs(client, client.close)
        raised(EngineStopped, run, [workloads.task_of(0, MB, 0, 3000)], MB, client)
        closer.join()


def a_dead_scheduler_ends_the_run() -> None:
    with separate_scheduler() as (client, program):
        killer = once_it_runs(client, program.kill)
        raised(EngineStopped, run, [workloads.task_of(0, MB, 0, 8000)], MB, client)
        killer.join()


# The loopback address alone


def addresses_of(process: int) -> List[str]:
    """The addresses on which a process listens."""
    sockets = set()
    for link in Path(f"/proc/{process}/fd").iterdir():
        try:
            sockets.add(os.readlink(link))
        except OSError:
            pass
    found = []
    for table in ("tcp", "tcp6"):
        for line in Path(f"/proc/{process}/net/{table}").read_text().splitlines()[1:]:
            words = line.split()
            if words[3] == "0A" and f"socket:[{words[9]}]" in sockets:
                found.append(words[1].split(":")[0])
    return found


def listens_on_the_loopback_address_alone(client: Client) -> None:
    processes = {os.getpid(), *client.run(os.getpid).values()}
    found = [address for process in processes for address in addresses_of(process)]
    assert found and set(found) == {"0100007F"}, found


Check = Callable[[Client], None]

CHECKS_ON_ANY_CLUSTER: List[Tuple[str, Check]] = [
    *(
        (f"{name} within {factor} times the least peak", partial(keeps_its_bound, name, factor))
        for name in LOADS
        for factor in (1, 1.2, 2)
    ),
    ("an array's graph within its least bound", keeps_the_bound_of_an_array),
    ("a plan is no worse than Dask's order", is_no_worse_than_dasks_order),
    ("arrays are what Dask computes", computes_what_dask_computes),
    ("several collections are computed together", several_collections_are_computed_together),
    ("what a task raises ends the run", what_a_task_raises_ends_the_run),
    ("a task is tried again within the bound", a_task_is_tried_again_within_the_bound),
    ("a result greater than stated ends the run where it has no room", a_result_greater_than_stated_ends_the_run),
    ("a result greater than stated takes what room there is", a_result_greater_than_stated_takes_what_room_there_is),
    ("a bound below the peak is refused", a_bound_below_the_peak_is_refused),
    ("an order that is none is refused", an_order_that_is_none_is_refused),
    ("a cancelled task ends the run", a_cancelled_task_ends_the_run),
    ("two runs and a subscription do not clash", two_runs_and_a_subscription_do_not_clash),
    ("nothing listens but on the loopback address", listens_on_the_loopback_address_alone),
]

CHECKS_ON_PROCESSES: List[Tuple[str, Check]] = [("workers have bounds of their own", workers_have_bounds_of_their_own)]

CHECKS_ON_TWO_PROCESSES: List[Tuple[str, Check]] = [
    ("a late release keeps the bound", keeps_its_bound_where_memory_is_released_late),
    ("it would pass it if tasks finished when futures are done", would_pass_its_bound_if_tasks_finished_when_futures_are_done),
]

CHECKS_OF_THEIR_OWN: List[Tuple[str, Callable[[], None]]] = [
    ("Dask's processes: a lost worker ends the run", a_lost_worker_ends_the_run),
    ("Dask's threads: a closed client ends the run", a_closed_client_ends_the_run),
    ("Dask's processes: a dead scheduler ends the run", a_dead_scheduler_ends_the_run),
]


def main() -> int:
    status = 0
    for kind, processes, workers, checks in (
        ("threads", False, 4, CHECKS_ON_ANY_CLUSTER),
        ("processes", True, 4, CHECKS_ON_ANY_CLUSTER + CHECKS_ON_PROCESSES),
        ("processes", True, 2, CHECKS_ON_TWO_PROCESSES),
    ):
        with cluster(processes, workers) as client:
            status |= run_all([(f"Dask's {kind}: {name}", partial(check, client)) for name, check in checks])
    return status | run_all(CHECKS_OF_THEIR_OWN)


if __name__ == "__main__":
    sys.exit(main())
