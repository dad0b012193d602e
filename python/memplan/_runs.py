"""The tasks of a graph as runners take them: each with its function, the tasks whose results it is called with, and its sizes."""

from __future__ import annotations

from typing import Any, Callable, Dict, Iterator, List, Mapping, NamedTuple, Optional, SupportsIndex

from ._arrays import listed
from ._numbers import U64, whole
from ._work import Ordered
from .graphs import Graph


class Step(NamedTuple):
    """``inputs`` are places among the steps, from 0."""

    name: Any
    function: Callable[..., Any]
    inputs: List[int]
    size: int
    extra: int


def steps_of(
    graph: Graph, functions: Mapping[Any, Callable[..., Any]], order: Optional[Ordered], unit: SupportsIndex
) -> Iterator[Step]:
    """In an order, or as they are numbered. Each task has to leave one result at most, and nothing may be there before any has run."""
    if not isinstance(graph, Graph):
        raise TypeError(f"graph: a {type(graph).__name__} is no Graph")
    numbers = list(range(1, len(graph) + 1)) if order is None else graph._numbered(order).tolist()
    graph.replay(graph.plan(effort=0) if order is None else order)  # else it is refused
    bytes_each, place = whole("unit", unit, U64), {number: at for at, number in enumerate(numbers)}
    sizes: Dict[int, int] = {}
    inputs: Dict[int, List[int]] = {number: [] for number in numbers}
    starts, readers = listed(graph.starts), listed(graph.readers)
    for at, (size, producer) in enumerate(zip(listed(graph.size), listed(graph.producer))):
        if producer == 0:
            raise ValueError(f"items[{at}]: no task makes it")
        if producer in sizes:
            raise ValueError(f"items[{at}]: {graph.naming.words(producer)} makes another one too")
        sizes[producer] = size
        for reader in readers[starts[at] : starts[at + 1]]:
            inputs[reader].append(place[producer])
    extras = listed(graph.extra)
    for number in numbers:
        name = graph.naming.name(number)
        if name not in functions:
            raise ValueError(f"functions: there is none for {name!r}")
        told = sizes.get(number, 0) * bytes_each, extras[number - 1] * bytes_each
        yield Step(name, functions[name], inputs[number], *told)
