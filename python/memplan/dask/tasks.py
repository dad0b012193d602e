"""Tasks for a run, and what the core has to know of them."""

from __future__ import annotations

import operator
from graphlib import CycleError, TopologicalSorter
from typing import Any, Callable, Dict, Hashable, List, Mapping, NamedTuple, Optional, Sequence, Set, SupportsIndex, Tuple

import dask
import dask.order
from dask.base import unpack_collections
from dask.core import flatten, get_dependencies
from dask.highlevelgraph import HighLevelGraph, Layer
from dask.optimization import SubgraphCallable
from dask.utils import parse_bytes
from distributed import Future
from .._runs import steps_of
from .._work import Ordered
from ..admission import EFFORT_OF_A_RUN, ResultGraph, ResultPlan
from ..graphs import Graph

from .errors import AnnotationRefused, TasksInACycle, UnbookedData
from .inside import unbooked


class Task(NamedTuple):
    """``function(*arguments, *results of inputs)`` leaves a result of at most ``size`` bytes, and needs at most ``extra`` more beside
    that and its inputs while it runs. ``inputs`` are tasks, counted from 0; a result that no task consumes, or that is ``kept``, stays.
    ``key`` is what errors call the task, beside its number."""

    function: Callable[..., Any]
    arguments: Tuple[Any, ...] = ()
    inputs: Tuple[int, ...] = ()
    size: int = 0
    extra: int = 0
    kept: bool = False
    key: Optional[Hashable] = None


class LeastBound(int):
    """A number of bytes: the peak of an order. ``below`` is one that no order has a peak below, which is proved."""

    below: int

    def __new__(cls, peak: int, below: int) -> "LeastBound":
        made = super().__new__(cls, peak)
        made.below = below
        return made

    @property
    def is_least(self) -> bool:
        """Whether no order has a lower peak."""
        return self.below == self


class TaskPlan(NamedTuple):
    """An order of tasks, from 0, its peak, a bound that no order has a peak below, and the keys of the tasks in the order."""

    order: List[int]
    peak: int
    bound: int
    names: List[Optional[Hashable]]

    @property
    def is_least(self) -> bool:
        """Whether no order has a lower peak."""
        return self.peak == self.bound


def bytes_of(bound: Any) -> int:
    """A whole number of bytes, or one in words: ``"2GB"``."""
    try:
        return parse_bytes(bound) if isinstance(bound, str) else operator.index(bound)
    except (TypeError, ValueError):
        told = "the bound is a whole number of bytes, as an int, or in words as '2GB'"
        raise TypeError(f"{told}, and not {bound!r}") from None


def of_graph(
    graph: Graph, functions: Mapping[Any, Callable[..., Any]], order: Optional[Ordered] = None, unit: SupportsIndex = 1
) -> List[Task]:
    """The tasks of a graph, along an order of it or a plan, for ``order=range(len(tasks))``; without one as they are numbered.

    ``functions`` has for each task what is called with the results that it reads, in the order of the graph's items. Each task leaves one
    result at most, as those of `Graph.of_mapping`; one that no task reads stays. ``unit`` says how many bytes a unit of the graph's sizes
    is. Shares are not counted: a task needs all of its extra.

    >>> tasks = of_graph(DIAMOND, {"load": list, "count": len, "sort": sorted, "merge": lambda *parts: parts}, DIAMOND.plan(), unit=1000)
    >>> [(task.key, task.inputs, task.size) for task in tasks]
    [('load', (), 10000), ('count', (0,), 1000), ('sort', (0,), 10000), ('merge', (1, 2), 2000)]
    """
    steps = steps_of(graph, functions, order, unit)
    return [Task(it.function, (), tuple(it.inputs), it.size, it.extra, False, it.name) for it in steps]


def home_of(tasks: Sequence[Task], task: Task) -> Optional[int]:
    """The input at whose worker a task runs where results are copied between workers: its greatest."""
    return max(task.inputs, key=lambda result: tasks[result].size) if task.inputs else None


def graph_of(tasks: Sequence[Task], others: int) -> ResultGraph:
    """The tasks for the core, where each result may be copied to so many other workers.

    A task fetches all of its inputs but the greatest. The copy of a result that it alone consumes goes when the task is finished, and is
    part of its extra; those of a result that other tasks consume, or that stays, go with the result, and are part of its size.
    """
    kept = [index for index, task in enumerate(tasks) if task.kept]
    inputs, sizes, extras = [task.inputs for task in tasks], [task.size for task in tasks], [task.extra for task in tasks]
    plain = ResultGraph(inputs, sizes, extras, kept)
    copies = [0] * len(tasks)
    for index, task in enumerate(tasks):
        for result in set(task.inputs) - {home_of(tasks, task)}:
            if plain.owners[result] == index + 1:
                extras[index] += min(others, 1) * tasks[result].size
            else:
                copies[result] = min(others, copies[result] + 1)
    return ResultGraph(inputs, [size * (1 + copied) for size, copied in zip(sizes, copies)], extras, kept)


def plan_of(graph: ResultGraph, order: Optional[Sequence[int]] = None, effort: int = EFFORT_OF_A_RUN) -> ResultPlan:
    """A plan of least peak where each result has one consumer, else one that begins with ``order``, or without one with Dask's own, and is
    never worse; its tasks count from 0."""
    if graph.is_forest and order is None:
        found = graph.planned()
        peak = graph.least_bound(found)
        return ResultPlan(found, peak, peak)
    return graph.plan_from(order_of_dask(graph) if order is None else order, effort)


def order_of(graph: ResultGraph) -> List[int]:
    """The order of `plan_of`."""
    return plan_of(graph).order


def order_of_dask(graph: ResultGraph) -> List[int]:
    """The order that Dask gives to such tasks."""
    ranks = dask.order.order(dict.fromkeys(range(len(graph.inputs))), {task: set(inputs) for task, inputs in enumerate(graph.inputs)})
    return sorted(ranks, key=ranks.__getitem__)


def dask_order(tasks: Sequence[Task]) -> List[int]:
    """The order in which Dask itself would take the tasks, for a run that is to keep to it.

    >>> dask_order([Task(len, inputs=(1,), size=28), Task(list, size=100)])
    [1, 0]
    """
    refuse_cycles(tasks)
    return order_of_dask(graph_of(tasks, 0))


def refuse_cycles(tasks: Sequence[Task]) -> None:
    """`TasksInACycle` where tasks wait for each other."""
    try:
        TopologicalSorter({index: task.inputs for index, task in enumerate(tasks)}).prepare()
    except CycleError as error:
        cycle = error.args[1]
        raise TasksInACycle(cycle, [tasks[task].key for task in cycle]) from None


def refuse_unbooked(tasks: Sequence[Task]) -> None:
    """`UnbookedData` where a task has a future or a Dask collection inside."""
    for index, task in enumerate(tasks):
        found = unbooked(task.arguments, "arguments") or unbooked(task.function, "function")
        if found is not None:
            raise UnbookedData(index, task.key, *found)


def refuse_annotations(annotations: Optional[Mapping[str, Any]], layer: Optional[str] = None) -> None:
    """`AnnotationRefused` where there is any."""
    for annotation, value in (annotations or {}).items():
        raise AnnotationRefused(annotation, value, layer)


class Read(NamedTuple):
    """A collection, or several, as Dask would compute them: ``graph`` is optimized, ``inputs`` has for each key those that its task reads, in
    the order of the graph, ``wanted`` those of the results, ``layers`` the graphs before they were optimized, and ``rebuild`` makes
    collections of results by their keys."""

    graph: Dict[Hashable, Any]
    inputs: Dict[Hashable, List[Hashable]]
    wanted: Set[Hashable]
    layers: List[Any]
    rebuild: Callable[[Mapping[Hashable, Any]], Any]


def read(collection: Any) -> Read:
    """Refused as by `of_collection`."""
    given, repack = unpack_collections(collection)
    if not given:
        raise TypeError(f"there is no Dask collection in {collection!r}")
    layers = [one.__dask_graph__() for one in given]
    for one in layers:
        _refuse_annotated_layers(one)
    collections = dask.optimize(*given)
    graph: Dict[Hashable, Any] = {}
    for one in collections:
        graph.update(one.__dask_graph__())
    index = {key: number for number, key in enumerate(graph)}
    for key, value in graph.items():
        found = unbooked(value, f"graph[{key!r}]")
        if found is not None:
            raise UnbookedData(index[key], key, *found)
    inputs = {key: sorted(get_dependencies(graph, key), key=index.__getitem__) for key in graph}
    wanted = set(flatten([one.__dask_keys__() for one in collections]))

    def rebuild(results: Mapping[Hashable, Any]) -> Any:
        return repack([_of_results(one, {key: results[key] for key in flatten(one.__dask_keys__())}) for one in collections])[0]

    return Read(graph, inputs, wanted, layers, rebuild)


def tasks_of(it: Read, told: Mapping[Hashable, Tuple[int, int]]) -> List[Task]:
    """Its tasks, in the order of the graph, with the size and the extra of each key."""
    index = {key: number for number, key in enumerate(it.graph)}
    tasks = []
    for key, value in it.graph.items():
        inputs = it.inputs[key]
        function = SubgraphCallable({key: value}, key, inputs)
        tasks.append(Task(function, (), tuple(map(index.__getitem__, inputs)), *told[key], key in it.wanted, key))
    return tasks


def of_collection(collection: Any, sizes: Any = None) -> Tuple[List[Task], Callable[[Dict[int, Future]], Any]]:
    """The tasks of a Dask collection, and a function that makes a collection of their results, as `dask.persist` does.

    Several collections are given as `dask.compute` takes them, in a tuple, a list or a dict, and come back as they were given. They are
    optimized first, together, so that small tasks are fused. ``sizes`` are those that `record` has measured, `Sizes`, or tell for each key
    of the graph that comes of it the size and the extra of its task, as a function or a mapping. Without any the shapes and dtypes of
    arrays tell them, as ``Sizes()`` does.

    Raises `AnnotationRefused` where a layer has annotations of the caller's, `UnbookedData` where the graph has futures, as that of a
    collection has that is persisted, and `SizesUnknown` where the size of a task is told by nothing.

    >>> total = dask.delayed(sum)([1, 2], dask_key_name="total")
    >>> tasks, rebuild = of_collection(total, lambda key: (28, 0))
    >>> [(task.key, task.size) for task in tasks]
    [('total', 28)]
    """
    it = read(collection)
    if sizes is None:
        from .sizes import Sizes  # here, since that module stands on this one

        sizes = Sizes()
    if hasattr(sizes, "of_graph"):
        told = sizes.of_graph(it.graph, it.inputs, it.layers)
    else:
        told = {key: sizes[key] if isinstance(sizes, Mapping) else sizes(key) for key in it.graph}
    tasks = tasks_of(it, told)

    def rebuild(futures: Dict[int, Future]) -> Any:
        return it.rebuild({task.key: futures[number] for number, task in enumerate(tasks) if number in futures})

    return tasks, rebuild


def _of_results(collection: Any, futures: Dict[Hashable, Future]) -> Any:
    finish, arguments = collection.__dask_postpersist__()
    return finish(futures, *arguments)


def _refuse_annotated_layers(graph: Any) -> None:
    for name, layer in graph.layers.items() if isinstance(graph, HighLevelGraph) else ():
        refuse_annotations(_annotations_of_the_caller(layer), name)


def _annotations_of_the_caller(layer: Layer) -> Dict[str, Any]:
    """Without those that Dask puts there: a shuffle of a DataFrame has priorities of its keys, which it marks as its own."""
    return {annotation: value for annotation, value in (layer.annotations or {}).items() if not _is_of_dask(value)}


def _is_of_dask(value: Any) -> bool:
    return isinstance(value, dict) and "__expanded_annotations__" in value
