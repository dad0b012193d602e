"""What the runner on Dask refuses by name before anything runs, and how it names tasks."""

from __future__ import annotations

import asyncio
import dataclasses
import importlib
import sys
from functools import partial
from types import SimpleNamespace
from typing import Any, Callable, Dict, List, NamedTuple, Optional, Tuple

import dask
import dask.array
import numpy
from clusters import cluster, leaves_nothing
from dask.delayed import Delayed, delayed
from dask.highlevelgraph import HighLevelGraph, MaterializedLayer
from distributed import Client, Future
from harness import raised, run_all
from memplan import Refused
from memplan.dask import (
    AnnotationRefused,
    ResultTooLarge,
    Standstill,
    Task,
    TaskFailed,
    TasksInACycle,
    UnbookedData,
    WorkerLost,
    least_bound,
    of_collection,
    remote,
    run,
)
from memplan.dask.errors import keys_told
from memplan.dask.inside import unbooked
from memplan.dask.versions import require_dask, require_scheduler

KB = 1000


def identity(*values: Any) -> Any:
    return values


def sizes(key: Any) -> Tuple[int, int]:
    return 100 * KB, 100 * KB


# Futures and collections inside tasks


@dataclasses.dataclass
class Record:
    name: str
    data: Any


class Pair(NamedTuple):
    left: Any
    right: Any


class Opaque:
    def __init__(self, data: Any) -> None:
        self.data = data


PLACES: List[Tuple[str, Callable[[Any], Any]]] = [
    ("arguments[0]", lambda it: Task(identity, (it,))),
    ("arguments[1]", lambda it: Task(identity, (1, it))),
    ("arguments[0][2]", lambda it: Task(identity, ([1, "two", it],))),
    ("arguments[0][0][1]", lambda it: Task(identity, (((1, it), 2),))),
    ("arguments[0][0]", lambda it: Task(identity, ({it},))),
    ("arguments[0]['x'][0]", lambda it: Task(identity, ({"w": 1, "x": [it]},))),
    ("arguments[0] (a key)", lambda it: Task(identity, ({it: 1},))),
    ("arguments[0][1]", lambda it: Task(identity, (Pair(1, it),))),
    ("arguments[0].data", lambda it: Task(identity, (Record("a", it),))),
    ("arguments[0].stop", lambda it: Task(identity, (slice(None, it),))),
    ("arguments[0].args[0]", lambda it: Task(identity, (partial(identity, it),))),
    ("function.args[0]", lambda it: Task(partial(identity, it))),
    ("function.keywords['x']", lambda it: Task(partial(identity, x=it))),
    ("function.__self__", lambda it: Task(it.__repr__)),
    ("function.func.__self__", lambda it: Task(partial(it.__repr__))),
]


def futures_in_a_task_are_refused(client: Client) -> None:
    future = client.scatter(numpy.ones(1000))
    for where, make in PLACES:
        tasks = [Task(identity, (), (), KB), make(future)._replace(inputs=(0,), size=KB, key="total")]
        for call in (partial(run, tasks, KB * KB, client), partial(least_bound, tasks, client)):
            error = raised(UnbookedData, call)
            assert (error.task, error.key, error.where, error.what) == (1, "total", where, future), (where, error.where)
            assert str(error).startswith(f"task 1 (total) has Future {future.key} in {where}: ")
    leaves_nothing(client)


def collections_in_a_task_are_refused(client: Client) -> None:
    waits, array = delayed(identity)(1), dask.array.ones(4, chunks=2)
    cases = [(waits, where, make(waits)) for where, make in PLACES] + [(array, "arguments[0][0]", Task(identity, ([array],)))]
    for collection, where, task in cases:
        error = raised(UnbookedData, run, [task], KB * KB, client)
        assert (error.task, error.key, error.where) == (0, None, where) and error.what is collection, (where, error)
        assert f"task 0 has {type(collection).__name__} " in str(error)


def futures_in_a_collection_are_refused(client: Client) -> None:
    future = client.scatter(numpy.ones(1000))
    persisted = client.persist(dask.array.ones(4, chunks=2))
    for collection, key in (
        (delayed(numpy.sum)(future, dask_key_name="total"), "total"),
        (delayed(sum)([future, future], dask_key_name="total"), "total"),
        (delayed(identity)({"x": [future]}, dask_key_name="total"), "total"),
        (delayed(partial(identity, future))(dask_key_name="total"), "total"),
        (dask.array.from_delayed(delayed(future), (1000,), float), "Future"),
        (persisted, (persisted.name, 0)),
        ([delayed(1), persisted.sum()], (persisted.name, 0)),
    ):
        error = raised(UnbookedData, of_collection, collection, sizes)
        assert str(key) in str(error.key) and isinstance(error.what, Future), (error.key, key)
        assert error.where.startswith(f"graph[{error.key!r}]")
    leaves_nothing(client)


def what_has_none_is_not_refused(client: Client) -> None:
    within: List[Any] = [1]
    within.append(within)
    held = delayed(1)
    for value in (within, {"a": (1, 2.5, b"x")}, numpy.ones(3), partial(identity, slice(1, 2)), Record, Record("a", 1), Future):
        assert unbooked(value, "it") is None
    assert unbooked(Opaque(held), "it") is None, "the page says that attributes are not seen"
    assert unbooked(lambda: held, "it") is None, "the page says that closures are not seen"
    deep: Any = held
    for _ in range(5000):
        deep = [deep]
    found = unbooked(deep, "it")
    assert found is not None and found[1] is held


# Annotations


class Shuffled(MaterializedLayer):
    """A layer with priorities that Dask has put there, as those of a shuffle of a DataFrame."""

    def __init__(self, mapping: Dict[str, Any]) -> None:
        super().__init__(mapping, annotations={"priority": {"__expanded_annotations__": None, **dict.fromkeys(mapping, 1)}})


def annotations_are_refused(client: Client) -> None:
    for annotation, value, instead in (
        ("retries", 2, "retries"),
        ("workers", ["tcp://127.0.0.1:1"], "workers"),
        ("allow_other_workers", True, "workers"),
        ("resources", {"GPU": 1}, "the workers that have them"),
        ("priority", 3, "order"),
        ("color", "red", "nothing of the kind"),
    ):
        with dask.annotate(**{annotation: value}):
            one, many = delayed(identity)(1, dask_key_name="one"), dask.array.ones(4, chunks=2) + 1
            raised_by_run = raised(AnnotationRefused, run, [Task(identity, (1,), (), KB)], KB, client)
        for collection in (one, delayed(identity)(one), many, (delayed(1), many.sum())):
            error = raised(AnnotationRefused, of_collection, collection, sizes)
            assert error.annotation == annotation and error.layer.split("-")[0] in ("one", "add", "ones", "ones_like"), error.layer
            assert f"{annotation}={value!r} of the layer {error.layer}" in str(error) and instead in str(error)
        assert raised_by_run.annotation == annotation and raised_by_run.layer is None
        assert "around the run" in str(raised_by_run)
    tasks, rebuild = of_collection(delayed(identity)(1), sizes)
    assert rebuild(run(tasks, 200 * KB, client)).compute() == (1,), "without any there is nothing to refuse"
    tasks, rebuild = of_collection(Delayed("one", HighLevelGraph({"one": Shuffled({"one": (identity, 1)})}, {"one": set()})), sizes)
    assert rebuild(run(tasks, 200 * KB, client)).compute() == (1,), "what Dask says of a layer of its own is not refused"
    leaves_nothing(client)


# Graphs, bounds, clients


def cycles_are_refused(client: Client) -> None:
    def task(*inputs: int) -> Task:
        return Task(identity, (), inputs, KB, key="abcd"[sum(inputs) % 4])

    for tasks, cycle in (
        ([task(), task(1)], {1}),
        ([task(1), task(0)], {0, 1}),
        ([task(2), task(0), task(1), task(0, 1)], {0, 1, 2}),
        ([task(), task(0, 2), task(0, 1)], {1, 2}),
    ):
        for call in (partial(run, tasks, KB * KB, client), partial(least_bound, tasks, client)):
            error = raised(Refused, call)
            assert isinstance(error, TasksInACycle) and error.kind == 17 and set(error.tasks) == cycle
            assert error.tasks[0] == error.tasks[-1]
            assert all(before in tasks[after].inputs for before, after in zip(error.tasks, error.tasks[1:]))
            assert all(f"task {it} ({tasks[it].key})" in str(error) for it in cycle)
    leaves_nothing(client)


def what_memplan_refuses_is_told_with_its_key(client: Client) -> None:
    class OfATask(TasksInACycle):
        task = 1

    for keys, told in ((["a", "b"], "wait: task 1 is b"), (["a", None], "wait")):
        error = OfATask([1], [None])
        error.args = ("wait",)

        def refuse() -> None:
            with keys_told(keys):
                raise error

        assert str(raised(Refused, refuse)) == told


def no_tasks_have_no_results(client: Client) -> None:
    assert run([], 0, client) == {} and run((), KB, client, []) == {} and least_bound([], client) == 0


def a_bound_that_is_no_whole_number_is_refused(client: Client) -> None:
    tasks = [Task(identity, (1,), (), KB)]
    for bound in ("much", "1 yard", 1e9, None, numpy.float64(1e6)):
        for some in (tasks, []):
            words = f"the bound is a whole number of bytes, as an int, or in words as '2GB', and not {bound!r}"
            assert words in str(raised(TypeError, run, some, bound, client))
    for bound in (numpy.int64(KB), "1kB", "1 KiB"):
        assert run(tasks, bound, client)[0].result() == (1,)
    leaves_nothing(client)


def an_asynchronous_client_is_refused(client: Client) -> None:
    async def refused() -> None:
        async with Client(client.scheduler.address, asynchronous=True) as other:
            tasks = [Task(identity, (1,), (), KB)]
            for call in (partial(run, tasks, KB, other), partial(least_bound, tasks, other)):
                assert "is asynchronous" in str(raised(TypeError, call))

    asyncio.run(refused())


# Errors name tasks


def fails(*_: Any) -> None:
    raise ArithmeticError("on purpose")


def the_default_size_is_told_where_it_is_too_small(client: Client) -> None:
    tasks = [Task(len, ("abc",), key="length")]
    error = raised(ResultTooLarge, run, tasks, sys.getsizeof(3) - 1, client)
    assert (error.task, error.key, error.size, error.stated) == (0, "length", sys.getsizeof(3), 0)
    assert "task 0 (length) left 28 bytes" in str(error) and "0 were stated" in str(error) and "Task(.., size=..)" in str(error)
    error = raised(ResultTooLarge, run, [tasks[0]._replace(key=None)], 0, client)
    assert error.key is None and str(error).startswith("task 0 left 28 bytes")
    leaves_nothing(client)


def errors_have_the_keys_of_a_collection(client: Client) -> None:
    broken = dask.array.ones(4, chunks=2).map_blocks(fails, dtype=float, meta=numpy.empty(0))
    tasks, _ = of_collection(broken, sizes)
    error = raised(TaskFailed, run, tasks, KB * KB, client)
    assert error.key == tasks[error.task].key and error.key in {(broken.name, 0), (broken.name, 1)}
    assert str(error).startswith(f"task {error.task} {error.key} raised ArithmeticError")
    tasks, _ = of_collection(delayed(identity)("a", dask_key_name="letter"), lambda key: (1, 0))
    error = raised(ResultTooLarge, run, tasks, 50, client)
    assert (error.task, error.key) == (0, "letter") and "task 0 (letter) left" in str(error)
    leaves_nothing(client)


def a_lost_worker_is_told_with_its_tasks(client: Client) -> None:
    error = WorkerLost("tcp://a:1", {3: "total", 4: ("x", 0)})
    assert error.tasks == [3, 4]
    assert str(error) == "the worker tcp://a:1 left the cluster while it ran task 3 (total), task 4 ('x', 0)"
    assert str(WorkerLost("tcp://a:1", {})) == "the worker tcp://a:1 left the cluster"


def a_standstill_tells_what_it_knows(client: Client) -> None:
    waiting: Dict[int, List[str]] = {7: ["tcp://a:1"], 8: [], 9: [], 11: [], 12: []}
    keys: Dict[int, Optional[str]] = {**dict.fromkeys(waiting), 7: "total"}
    error = Standstill(30.2, {"tcp://a:1": "paused"}, {"tcp://a:1": 400}, waiting, keys)
    assert (error.seconds, error.statuses, error.held, error.waiting) == (30.2, {"tcp://a:1": "paused"}, {"tcp://a:1": 400}, waiting)
    for part in (
        "nothing has moved for 30 seconds",
        "tcp://a:1 is paused and holds 400 bytes",
        "task 7 (total) can start only on tcp://a:1",
        "task 8 can start on any worker",
        "2 more tasks wait",
        "more memory",
    ):
        assert part in str(error), part


# Versions


def a_dask_without_what_is_needed_is_refused_at_import(client: Client) -> None:
    def load_without(module: str, name: str) -> Callable[[str], Any]:
        """An import of modules of which one has not one name."""

        def load(wanted: str) -> Any:
            there = importlib.import_module(wanted)
            if wanted != module:
                return there
            return SimpleNamespace(**{it: getattr(there, it) for it in dir(there) if it != name})

        return load

    require_dask()
    error = raised(ImportError, require_dask, load_without("dask.optimization", "SubgraphCallable"))
    assert "no dask.optimization.SubgraphCallable" in str(error) and "tried with dask and distributed 2022.12.1" in str(error)
    assert dask.__version__ in str(error)

    def load_late(wanted: str) -> Any:
        return SimpleNamespace(Task=object) if wanted == "dask._task_spec" else importlib.import_module(wanted)

    assert "dask._task_spec.Task" in str(raised(ImportError, require_dask, load_late))


def a_scheduler_without_what_is_needed_is_refused(client: Client) -> None:
    assert client.run_on_scheduler(remote.lacking()) == []
    other = SimpleNamespace(plugins={}, event_counts={}, tasks={})
    assert "no events, no event_subscriber" in str(raised(ImportError, require_scheduler, remote.lacking()(other)))


CHECKS: List[Tuple[str, Callable[[Client], None]]] = [
    ("futures in a task are refused", futures_in_a_task_are_refused),
    ("collections in a task are refused", collections_in_a_task_are_refused),
    ("futures in a collection are refused", futures_in_a_collection_are_refused),
    ("what has no future inside is not refused", what_has_none_is_not_refused),
    ("annotations are refused", annotations_are_refused),
    ("cycles are refused", cycles_are_refused),
    ("what memplan refuses is told with its key", what_memplan_refuses_is_told_with_its_key),
    ("no tasks have no results", no_tasks_have_no_results),
    ("a bound that is no whole number is refused", a_bound_that_is_no_whole_number_is_refused),
    ("an asynchronous client is refused", an_asynchronous_client_is_refused),
    ("the default size is told where it is too small", the_default_size_is_told_where_it_is_too_small),
    ("errors have the keys of a collection", errors_have_the_keys_of_a_collection),
    ("a lost worker is told with its tasks", a_lost_worker_is_told_with_its_tasks),
    ("a standstill tells what it knows", a_standstill_tells_what_it_knows),
    ("a Dask without what is needed is refused at import", a_dask_without_what_is_needed_is_refused_at_import),
    ("a scheduler without what is needed is refused", a_scheduler_without_what_is_needed_is_refused),
]


def main() -> int:
    with cluster(processes=False, workers=2) as client:
        return run_all([(f"refusals: {name}", partial(check, client)) for name, check in CHECKS])


if __name__ == "__main__":
    sys.exit(main())
