"""The runner on threads, and what it shares with the one on Dask: how tasks are worded for the core."""

from __future__ import annotations

import sys
import time
from functools import partial
from typing import Any, Dict, List

import blocks
import workloads
from harness import raised, run_all
from memplan import Refused
from memplan.admission import Admission, BoundTooLow, GraphRefused, ResultGraph
from memplan.threads import Task, graph_of, run
from workloads import MB


def in_turn(tasks: List[Task]) -> Dict[int, Any]:
    """The results of the tasks, one after the other and without any bound."""
    results: List[Any] = []
    for task in tasks:
        results.append(task.function(*task.arguments, *(results[result] for result in task.inputs)))
    return {index: blocks.digest(results[index]) for index in graph_of(tasks).kept}


def topological(load: workloads.Load) -> List[Task]:
    """The tasks numbered anew, so that each stands after its inputs."""
    tasks, graph = load.tasks, graph_of(load.tasks)
    order = graph.planned() if graph.is_forest else range(len(tasks))
    places = {task: place for place, task in enumerate(order)}
    return [tasks[task]._replace(inputs=tuple(places[result] for result in tasks[task].inputs)) for task in order]


LOADS = {
    "fork-join": lambda: workloads.fork_join(16),
    "random tree": lambda: workloads.random_tree(80),
    "random graph": lambda: workloads.random_graph(80),
}


def keeps_its_bound(make: Any, factor: float) -> None:
    tasks = topological(make())
    wanted = in_turn(tasks)
    graph = graph_of(tasks)
    order = graph.planned() if graph.is_forest else graph.planned_from(range(len(tasks)))
    bound = int(factor * graph.least_bound(order))
    blocks.taken_records()
    results = run(tasks, bound, workers=4)
    assert {index: blocks.digest(result) for index, result in results.items()} == wanted
    results.clear()
    top, rest = blocks.top_and_rest([blocks.taken_records()])
    assert rest == 0 and 0 < top <= bound, (top, rest, bound)
    if factor == 1:
        assert top > 0.8 * bound, "so little was there that the bound was not tried"


# Two results of 4, which 5 takes with 3 of its own, and whose second one 3 takes too.
def shared_results_are_held() -> None:
    graph = ResultGraph(inputs=[(), (), (0, 1), (1, 1)], sizes=[4, 4, 5, 0], extras=[0, 0, 3, 1])
    assert not graph.is_forest and graph.kept == {2, 3}
    assert graph.least_bound([0, 1, 2, 3]) == 4 + 4 + 3 + 5
    assert graph.least_bound([1, 3, 0, 2]) == 4 + 4 + 3 + 5
    assert graph.least_bound([0, 1, 3, 2]) == 4 + 4 + 3 + 5
    admission = Admission(graph, 16, [0, 1, 2, 3])
    assert admission.ready() == [0, 1] and admission.start(0) and admission.start(1)
    assert admission.spent(0) == [] and admission.spent(1) == [] and admission.used == 8
    admission.done(0)
    admission.done(1)
    assert admission.ready() == [2] and admission.start(2) and admission.used == 16
    assert admission.spent(2) == [0]
    admission.done(2)
    assert admission.ready() == [] and admission.used == 16, "its input is not gone yet"
    admission.gone(0)
    assert admission.used == 4 + 5 and admission.ready() == [3] and admission.start(3)
    assert admission.spent(3) == [1] and admission.used == 4 + 5 + 1
    admission.done(3)
    assert admission.left == 1 and admission.used == 4 + 5 + 1, "the shared result is not gone yet"
    admission.gone(1)
    assert admission.left == 0 and admission.used == 5


# The input of all three goes with the last of them, which is best the one that needs least; as they stand that is the one that needs most.
def a_plan_is_better_than_the_tasks_as_they_stand() -> None:
    tasks = [Task(int, (), (), 10), Task(lambda _: 1, (), (0,), 5), Task(lambda _: 1, (), (0,), 4, 1), Task(lambda _: 1, (), (0,), 3, 6)]
    tasks.append(Task(lambda *_: 2, (), (1, 2, 3), 2))
    graph = graph_of(tasks)
    assert graph.least_bound(range(5)) == 28 and graph.least_bound(graph.planned_from(range(5))) == 22
    assert run(tasks, 22, 2) == {4: 2}
    assert raised(BoundTooLow, run, tasks, 21, 2).least == 22
    assert raised(BoundTooLow, run, tasks, 27, 2, range(5)).least == 28


def bounds_below_the_peak_are_refused() -> None:
    tasks = [Task(blocks.work, (0, MB, 0, 0), (), MB, 0), Task(blocks.work, (1, MB, 0, 0), (0,), MB, 0)]
    refusal = raised(BoundTooLow, run, tasks, 2 * MB - 1, 2)
    assert refusal.least == 2 * MB and not blocks.taken_records()
    assert raised(OverflowError, run, tasks, -1, 2)


# Taken for 0, as they once were, six of these would run at once within a bound of 1.
def fractions_are_refused() -> None:
    ran = []
    for size, extra, words in ((0, 0.9, "extras[0]: 0.9 is no whole number"), (2.9, 0, "sizes[0]: 2.9 is no whole number")):
        tasks = [Task(lambda *_: ran.append(1), (), (), size, extra) for _ in range(8)]
        tasks += [Task(lambda *_: ran.append(1), (), (0, 1)), Task(lambda *_: ran.append(1), (), (0, 2))]
        assert str(raised(TypeError, run, tasks, 1, 6)) == words
    assert str(raised(TypeError, run, [Task(int)], 1.5, 2)) == "bound: 1.5 is no whole number"
    assert not ran


def wrong_graphs_are_refused() -> None:
    def task(*inputs: int) -> Task:
        return Task(blocks.work, (0, 1, 0, 0), inputs, 1)

    assert raised(GraphRefused, run, [task(), task(1)], MB, 2).task == 1, "a task waits for itself"
    assert raised(Refused, run, [task(1), task(0)], MB, 2).kind == 17, "two wait for each other"
    assert raised(GraphRefused, run, [task(1), task(), task(1)], MB, 2).place == 0, "the first task waits for the second"
    assert raised(GraphRefused, run, [task(), task(0), task(0)], MB, 2, [0, 1, 1]).place == 2, "a task stands twice"
    assert raised(GraphRefused, run, [task(), task(0), task(0)], MB, 2, [0, 1]).kind == 23, "a task is missing"
    assert "there is none" in str(raised(ValueError, run, [task(1)], MB, 2))


def what_a_task_raises_ends_the_run() -> None:
    def fail(block: blocks.Block) -> None:
        raise ArithmeticError("on purpose")

    tasks = [Task(blocks.work, (0, MB, 0, 0), (), MB), Task(fail, (), (0,), MB), Task(blocks.work, (1, MB, 0, 0.2), (), MB)]
    blocks.taken_records()
    began = time.monotonic()
    assert "on purpose" in str(raised(ArithmeticError, run, tasks, 10 * MB, 2))
    assert time.monotonic() - began >= 0.2, "a task that runs comes to its end first"
    assert blocks.top_and_rest([blocks.taken_records()])[1] == 0
    assert list(run(tasks[:1], MB, 2)) == [0]


CHECKS = [
    *(
        (f"threads: {name} within {factor} times the least peak", partial(keeps_its_bound, make, factor))
        for name, make in LOADS.items()
        for factor in (1, 1.2, 2)
    ),
    ("threads: shared results are held until their last consumer is finished", shared_results_are_held),
    ("threads: a plan is better than the tasks as they stand", a_plan_is_better_than_the_tasks_as_they_stand),
    ("threads: bounds below the peak are refused", bounds_below_the_peak_are_refused),
    ("threads: sizes that are no whole numbers are refused", fractions_are_refused),
    ("threads: wrong graphs are refused", wrong_graphs_are_refused),
    ("threads: what a task raises ends the run", what_a_task_raises_ends_the_run),
]

if __name__ == "__main__":
    sys.exit(run_all(CHECKS))
