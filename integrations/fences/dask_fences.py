"""Fences in a graph of Dask: `fenced` adds them through markers, small tasks that return None."""

from __future__ import annotations

from collections.abc import Mapping, Sequence
from typing import Any, Optional

from fenced_graph import FencedGraph, Unfit, gathered


def over(*_ended: Any) -> None:
    """Of tasks that have ended nothing is kept: what waits for them holds a None."""


def after(result: Any, *_markers: None) -> Any:
    return result


def keys_by_name(dsk: Mapping[Any, Any], graph: FencedGraph) -> list[Any]:
    """The keys that are called as the tasks are."""
    called = {str(key): key for key in dsk}
    missing = [name for name in graph.names if name not in called]
    if missing:
        raise Unfit(f"no key of the graph is called {missing[0]}")
    return [called[name] for name in graph.names]


def check_results(graph: FencedGraph) -> None:
    """A result is held as a whole, to the last of its readers."""
    made: set[int] = set()
    for item in graph.graph.items:
        if item.maker in made and item.size:
            raise Unfit(f"task {item.maker} makes several items, and a result of Dask is one")
        if item.maker and item.size:
            made.add(item.maker)


def markers_of(graph: FencedGraph, keys: Sequence[Any]) -> dict[Any, Any]:
    """One for each task that is waited for, and one of such for each join: a marker of several results would hold the first for the last."""
    readers = {task for tasks in graph.used_joins.values() for task in tasks}
    tasks = readers | {start for start, _ in graph.fences if start <= graph.size}
    found: dict[Any, Any] = {marker(graph, task): (over, keys[task - 1]) for task in tasks}
    for join, before in graph.used_joins.items():
        found[marker(graph, join)] = (over, *(marker(graph, task) for task in before))
    return found


def marker(graph: FencedGraph, number: int) -> str:
    return f"memplan-over-{graph.word(number)}"


def fenced(dsk: Mapping[Any, Any], graph: FencedGraph, keys: Optional[Sequence[Any]] = None) -> dict[Any, Any]:
    """The graph with fences. Task K of them is `keys[K - 1]`, or else the key that is called as the task is.

    It is for a graph that is not optimized any more: to fuse a marker with the task that waits for it would keep what the marker was to let go. Those that
    read a result wait for its marker too: it reads the result, and might else be the last that does.
    """
    check_results(graph)
    keys = keys_by_name(dsk, graph) if keys is None else keys
    markers = markers_of(graph, keys)
    found = {**dsk, **markers}
    for task, before in gathered(graph.tasks, sorted({*graph.arcs, *graph.fences})).items():
        waits = [name for name in (marker(graph, number) for number in before) if name in markers]
        if waits:
            found[keys[task - 1]] = (after, dsk[keys[task - 1]], *waits)
    return found
