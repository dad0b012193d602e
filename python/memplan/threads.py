"""Tasks on the threads of one process, within a bound on memory that memplan's core keeps: to be used, or copied into a runner.

The decisions are the core's. What is here hands the tasks to `concurrent.futures`, and reports what became of them.
"""

from __future__ import annotations

from collections import deque
from concurrent.futures import Future, ThreadPoolExecutor
from functools import partial
from queue import SimpleQueue
from typing import Any, Callable, Deque, Dict, List, Mapping, NamedTuple, Optional, Sequence, SupportsIndex, Tuple

from ._runs import steps_of
from ._work import Ordered
from .admission import Admission, ResultGraph
from .graphs import Graph


class Task(NamedTuple):
    """``function(*arguments, *results of inputs)`` leaves a result of at most ``size`` bytes, and needs at most ``extra`` more beside
    that and its inputs while it runs. ``inputs`` are tasks, counted from 0; a result that no task consumes, or that is ``kept``, stays."""

    function: Callable[..., Any]
    arguments: Tuple[Any, ...] = ()
    inputs: Tuple[int, ...] = ()
    size: int = 0
    extra: int = 0
    kept: bool = False


def of_graph(
    graph: Graph, functions: Mapping[Any, Callable[..., Any]], order: Optional[Ordered] = None, unit: SupportsIndex = 1
) -> List[Task]:
    """The tasks of a graph, along an order of it or a plan, for ``order=range(len(tasks))``; without one as they are numbered.

    ``functions`` has for each task what is called with the results that it reads, in the order of the graph's items. Each task leaves one
    result at most, as those of `Graph.of_mapping`; one that no task reads stays. ``unit`` says how many bytes a unit of the graph's sizes
    is. Shares are not counted: a task needs all of its extra.

    >>> plan = DIAMOND.plan()
    >>> tasks = of_graph(DIAMOND, {"load": list, "count": len, "sort": sorted, "merge": lambda *parts: parts}, plan)
    >>> run(tasks, bound=plan.peak, workers=2, order=range(4))
    {3: (0, [])}
    """
    return [Task(it.function, (), tuple(it.inputs), it.size, it.extra) for it in steps_of(graph, functions, order, unit)]


def graph_of(tasks: Sequence[Task]) -> ResultGraph:
    """What the core has to know of the tasks."""
    kept = [index for index, task in enumerate(tasks) if task.kept]
    return ResultGraph([task.inputs for task in tasks], [task.size for task in tasks], [task.extra for task in tasks], kept)


def run(tasks: Sequence[Task], bound: int, workers: int, order: Optional[Sequence[int]] = None) -> Dict[int, Any]:
    """Runs the tasks on so many threads with at most ``bound`` bytes of results and extras; the results that stay, by their tasks.

    >>> run([Task(list, size=100), Task(len, inputs=(0,), size=28)], bound=128, workers=2)
    {1: 0}

    Without an ``order`` the tasks run along a plan of least peak where each result has one consumer. Elsewhere the plan begins with the
    tasks as they stand, each after its inputs, and is never worse; ``range(len(tasks))`` is that order itself.
    Raises `TypeError` or `OverflowError` where a size, an extra or the bound is no whole number that the library takes,
    `memplan.admission.GraphRefused`, which counts tasks from 0, `memplan.admission.BoundTooLow`, or what a task raises, once the tasks
    that run by then have ended.
    """
    graph = graph_of(tasks)
    if order is None and not graph.is_forest:
        order = graph.planned_from(range(len(tasks)))
    admission = Admission(graph, bound, order)
    results: Dict[int, Any] = {}
    ended: SimpleQueue[Tuple[int, Future[None]]] = SimpleQueue()

    # A result goes straight to the table, since a future, or the frame that fills it, may keep what it has for longer.
    def work(index: int) -> None:
        task = tasks[index]
        results[index] = task.function(*task.arguments, *(results[result] for result in task.inputs))

    def end(index: int, future: Future[None]) -> None:
        ended.put((index, future))

    ready: Deque[int] = deque()
    running = 0
    with ThreadPoolExecutor(workers) as pool:
        while admission.left:
            ready.extend(admission.ready())
            while ready and running < workers and admission.start(ready[0]):
                index = ready.popleft()
                pool.submit(work, index).add_done_callback(partial(end, index))
                running += 1
            index, future = ended.get()
            running -= 1
            future.result()
            admission.done(index)
            for result in admission.spent(index):
                del results[result]
                admission.gone(result)
    return results
