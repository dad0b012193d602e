"""Graphs of Dask, which is asked for only where one is read: plain graphs, and collections as `memplan.dask` reads them for its runs."""

from __future__ import annotations

import reprlib
from collections.abc import Mapping
from importlib import import_module
from typing import Any, Callable, Dict, Hashable, List, NamedTuple, SupportsIndex, Tuple, Union

from . import SharedItem
from ._numbers import U64, whole

Sizes = Union[Mapping[Any, Any], Callable[[Any], Any]]
"""For each key the size of its result, or that and the extra of its task."""


class Collection(NamedTuple):
    """The keys of the tasks, their extras, and the items, as `ResultGraph.system` of `memplan.admission` tells them."""

    keys: List[Hashable]
    extras: List[int]
    items: List[SharedItem]


def of_dask(name: str) -> Any:
    try:
        return import_module(name)
    except ImportError as lack:
        raise ImportError("graphs of Dask are read by Dask: pip install 'memplan[dask]' (Debian: python3-distributed)") from lack


def is_plain(graph: Any) -> bool:
    """Whether it is a mapping from keys to tasks, and not a collection, or some in a dict."""
    is_collection = of_dask("dask.base").is_dask_collection
    return isinstance(graph, Mapping) and not is_collection(graph) and not any(map(is_collection, graph.values()))


def inputs_of(graph: Mapping[Any, Any]) -> Dict[Any, List[Any]]:
    """The keys that each task of a plain graph reads, in the order of the graph."""
    tasks = dict(graph)
    place = {key: at for at, key in enumerate(tasks)}
    get_dependencies = of_dask("dask.core").get_dependencies
    return {key: sorted(get_dependencies(tasks, key), key=place.__getitem__) for key in tasks}


def read_collection(collection: Any, sizes: Sizes) -> Collection:
    """Optimized, as Dask would run it; the results that the collection is made of stay to the end."""
    try:
        reader: Any = import_module("memplan.dask.tasks")
    except ModuleNotFoundError as lack:
        told = "collections of Dask are read by memplan.dask, with distributed: pip install 'memplan[dask]'"
        raise ImportError(f"{told} ({lack})") from lack
    tasks, _ = reader.of_collection(collection, lambda key: told_of(sizes, key))
    extras, items = reader.graph_of(tasks, 0).system()
    return Collection([task.key for task in tasks], extras, items)


def told_of(sizes: Sizes, key: Hashable) -> Tuple[int, int]:
    """The size and the extra of a key, checked."""
    if isinstance(sizes, Mapping):
        if key not in sizes:
            raise ValueError(f"sizes: there is none for {key!r}")
        told = sizes[key]
    elif callable(sizes):
        told = sizes(key)
    else:
        raise TypeError(f"sizes: {reprlib.repr(sizes)} is neither a mapping nor a function of keys")
    size: SupportsIndex
    extra: SupportsIndex
    size, extra = told if isinstance(told, tuple) and len(told) == 2 else (told, 0)
    return whole(f"sizes[{key!r}]", size, U64), whole(f"sizes[{key!r}], its extra", extra, U64)
