"""What lies inside a task: futures and Dask collections, which stand for memory that no run books."""

from __future__ import annotations

import dataclasses
from functools import partial
from types import MethodType
from typing import Any, Iterator, Optional, Tuple

from dask.base import is_dask_collection
from dask.core import literal
from dask.optimization import SubgraphCallable
from distributed import Future

_PLAIN = frozenset({type(None), bool, int, float, complex, str, bytes, range})
"""Types that hold nothing: most of what there is."""


def unbooked(value: Any, name: str) -> Optional[Tuple[str, Any]]:
    """The first future or Dask collection in a value of this name, and where it is; none where there is none.

    Looked into are lists, tuples, sets, dicts, slices and data classes, as Dask does, and besides them partials, bound methods and
    subgraphs. Closures, and the attributes of other objects, are not.
    """
    stack, seen = [(name, value)], {}
    while stack:
        where, it = stack.pop()
        if isinstance(it, Future) or is_dask_collection(it):
            return where, it
        if id(it) not in seen:
            seen[id(it)] = it  # kept, so that no other object comes to have its number
            parts = [(step, part) for step, part in _parts_of(it) if type(part) not in _PLAIN]
            stack += [(where + step, part) for step, part in reversed(parts)]
    return None


def _parts_of(value: Any) -> Iterator[Tuple[str, Any]]:
    """What a value has inside, each part with the step that leads there."""
    if isinstance(value, (list, tuple, set, frozenset)):
        yield from ((f"[{place}]", part) for place, part in enumerate(value))
    elif isinstance(value, dict):
        yield from ((f"[{key!r}]", part) for key, part in value.items())
        yield from ((" (a key)", key) for key in value)
    elif dataclasses.is_dataclass(value) and not isinstance(value, type):
        yield from ((f".{field.name}", getattr(value, field.name, None)) for field in dataclasses.fields(value))
    else:
        for names in (names for kind, names in _ATTRIBUTES.items() if isinstance(value, kind)):
            yield from ((f".{name}", getattr(value, name)) for name in names)


_ATTRIBUTES = {
    partial: ("func", "args", "keywords"),
    MethodType: ("__self__",),
    SubgraphCallable: ("dsk",),
    literal: ("data",),
    slice: ("start", "stop", "step"),
}
"""The attributes of other types that are looked into."""
