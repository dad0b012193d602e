"""What the tasks of a graph of Dask are called from one build of a collection to the next, where keys have another token each time."""

from __future__ import annotations

import re
from functools import partial
from graphlib import TopologicalSorter
from hashlib import blake2b
from types import MethodType
from typing import Any, Dict, Hashable, Iterator, List, Mapping, NamedTuple, Sequence, Tuple

from dask.core import literal
from dask.optimization import SubgraphCallable
from dask.utils import key_split

_TOKEN = re.compile(r"[0-9a-f]{32}|[0-9a-f]{8}(?:-[0-9a-f]{4}){3}-[0-9a-f]{12}")
_PLAIN = (type(None), bool, int, float, complex, range)
_CLOSED = object()


class Signature(NamedTuple):
    """A task in words that a second build of its collection has too: with the constants that it is called with, without these, and by its
    name alone. The first two have the place in the collection, as that of a chunk, the functions, and all this of the tasks before it."""

    exact: str
    shape: str
    name: str


def signatures(graph: Mapping[Hashable, Any], inputs: Mapping[Hashable, Sequence[Hashable]]) -> Dict[Hashable, Signature]:
    """That of each key of a graph without circles, of which ``inputs`` tells what each task reads."""
    found: Dict[Hashable, Signature] = {}
    subgraphs: Dict[Tuple[int, bool], str] = {}
    for key in TopologicalSorter(inputs).static_order():
        name, place = key_split(key), repr(key[1:]) if isinstance(key, tuple) else ""
        before = {it: found[it] for it in inputs[key]}
        exact, shape = (
            _digest([name, place, *_words(graph[key], {it: told[at] for it, told in before.items()}, at == 0, subgraphs)])
            for at in range(2)
        )
        found[key] = Signature(exact, shape, name)
    return found


def _digest(words: Sequence[str]) -> str:
    return blake2b("\0".join(words).encode("utf-8", "surrogatepass"), digest_size=12).hexdigest()


def _words(value: Any, inputs: Mapping[Hashable, str], constants: bool, subgraphs: Dict[Tuple[int, bool], str]) -> Iterator[str]:
    """A task from the outside to the inside, where the keys that it reads stand for what is said of these."""
    stack = [value]
    while stack:
        it = stack.pop()
        if it is _CLOSED:
            yield ")"
        elif isinstance(it, (str, bytes, tuple, *_PLAIN)) and is_key(it, inputs):
            yield "input " + inputs[it]
        elif isinstance(it, SubgraphCallable):
            yield _of_subgraph(it, constants, subgraphs)
        else:
            parts = _parts_of(it)
            yield _word(it, constants) if parts is None else type(it).__name__ + "("
            stack += [] if parts is None else [_CLOSED, *reversed(parts)]


def is_key(value: Any, inputs: Mapping[Hashable, Any]) -> bool:
    """Whether a value is one of these keys."""
    try:
        return value in inputs
    except TypeError:
        return False  # a tuple with a list in it, say


def _of_subgraph(subgraph: Any, constants: bool, known: Dict[Tuple[int, bool], str]) -> str:
    """Each chunk of a layer has the same one, so it is told once. Its keys are words like any other."""
    at = id(subgraph.dsk), constants
    if at not in known:
        tasks = sorted(subgraph.dsk.items(), key=lambda task: _without_tokens(str(task[0])))
        told = [_without_tokens(str(subgraph.outkey))]
        for key, value in tasks:
            told += [_without_tokens(str(key)), *_words(value, {}, constants, known)]
        known[at] = _digest(told)
    return "subgraph " + known[at]


def _parts_of(value: Any) -> Any:
    """What a value has inside, in an order that does not change; None where it has nothing."""
    if isinstance(value, (list, tuple)):
        return list(value)
    if isinstance(value, (set, frozenset)):
        return sorted(value, key=repr)
    if isinstance(value, dict):
        return [part for item in value.items() for part in item]
    if isinstance(value, partial):
        return [value.func, *value.args, value.keywords]
    if isinstance(value, MethodType):
        return [value.__func__, value.__self__]
    if isinstance(value, slice):
        return [value.start, value.stop, value.step]
    if isinstance(value, literal):
        return [value.data]
    return None


def _word(value: Any, constants: bool) -> str:
    """A constant as it is, a function by its name, anything else by its type, and its shape where it has one."""
    kind = type(value).__name__
    if isinstance(value, (str, *_PLAIN)):
        return f"{kind} {_without_tokens(repr(value))}" if constants else kind
    if callable(value):
        names: List[Any] = [getattr(value, it, None) for it in ("__module__", "__qualname__", "method")]
        return " ".join([kind, *(it for it in names if isinstance(it, str))])
    shape, dtype = getattr(value, "shape", None), getattr(value, "dtype", "")
    return f"{kind} {shape} {dtype}" if isinstance(shape, tuple) else kind


def _without_tokens(words: str) -> str:
    return _TOKEN.sub("", words)
