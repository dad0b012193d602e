"""Sizes of the tasks of collections: as a run before left them, or as shapes and dtypes tell them."""

from __future__ import annotations

import json
import math
import os
import re
import uuid
from collections import Counter
from contextlib import contextmanager
from functools import partial
from pathlib import Path
from typing import Any, Dict, Hashable, Iterable, Iterator, List, Mapping, NamedTuple, Optional, Sequence, Tuple, Union

import dask
from dask.highlevelgraph import HighLevelGraph
from dask.utils import key_split
from distributed import Client

from . import remote
from .errors import SizesUnknown
from .runner import _others, _threads, least_bound, run
from .structure import Signature, is_key, signatures
from .tasks import Task, graph_of, order_of_dask, read, refuse_cycles, tasks_of

_FORM = "memplan sizes 1"
_MOST = 1 << 40
"""The greatest size that the library takes."""


class Slack(NamedTuple):
    """How much more than was measured is stated: so many times as much, and so many bytes.

    Dask takes samples of long lists and of columns of texts, at random, so that the same result measures differently each time. Of 43
    collections whose sizes were stated as a run before had them, 11 left one that was greater; with these numbers none did.
    """

    times: float = 1.1
    more: int = 1000

    def over(self, size: int) -> int:
        """
        >>> Slack().over(500), Slack(1, 0).over(500)
        (1550, 500)
        """
        return math.ceil(size * self.times) + self.more


class Measured(NamedTuple):
    """What a task left and needed beside, in bytes; and whether `dask.sizeof` counts a result like it without samples."""

    size: int
    extra: int
    is_exact: bool


class Sizes:
    """Sizes and extras of tasks, for `of_collection`, which finds them by what the tasks are: names without tokens, places, functions and
    constants, and the tasks before them. So those of a run hold for the next build of the same collection, also where its keys are others.

    For each task the first of these that is there is taken: a task that is alike in all that; one that is alike but for the constants;
    the greatest of its name; the shape and the dtype of the chunk, where it is one of an array, with an extra of the same size, which is a
    guess; ``otherwise``, a size and an extra. Where there is none, `SizesUnknown` has the names. ``slack`` is what is added to all that
    may differ from one run to the next: all but the sizes of arrays of numbers of tasks that are alike.

    >>> import dask.array
    >>> from memplan.dask import of_collection
    >>> x = dask.array.ones((100, 100), chunks=50)
    >>> tasks, _ = of_collection(x, Sizes())
    >>> [task.size for task in tasks]
    [20000, 20000, 20000, 20000]
    """

    def __init__(self, slack: Slack = Slack(), otherwise: Optional[Tuple[int, int]] = None) -> None:
        self.slack = slack
        self.otherwise = otherwise
        self._tables: Tuple[Dict[str, Measured], ...] = ({}, {}, {})  # by the parts of a signature

    def __len__(self) -> int:
        """How many kinds of tasks were recorded.

        >>> len(Sizes())
        0
        """
        return len(self._tables[0])

    def learn(self, of: Signature, measured: Measured) -> None:
        """Notes what a task left; of several that are alike the greatest counts.

        >>> sizes = Sizes()
        >>> sizes.learn(Signature("a", "b", "load"), Measured(10, 0, True))
        >>> len(sizes)
        1
        """
        for table, word in zip(self._tables, of):
            had = table.get(word, measured)
            greatest = max(had.size, measured.size), max(had.extra, measured.extra)
            table[word] = Measured(*greatest, had.is_exact and measured.is_exact)

    def of_graph(
        self, graph: Mapping[Hashable, Any], inputs: Mapping[Hashable, Sequence[Hashable]], layers: Iterable[Any] = ()
    ) -> Dict[Hashable, Tuple[int, int]]:
        """The size and the extra of each key of a graph that comes of collections whose own graphs, before that, are ``layers``.

        >>> Sizes(otherwise=(5, 1)).of_graph({"a": (len, "b"), "b": (list,)}, {"a": ["b"], "b": []})
        {'b': (5, 1), 'a': (5, 1)}
        """
        chunks = _chunks_of(layers)
        _follow_aliases(chunks, graph)
        told = {key: self._stated(signature, chunks.get(key)) for key, signature in signatures(graph, inputs).items()}
        unknown = Counter(key_split(key) for key, pair in told.items() if pair is None)
        if unknown:
            raise SizesUnknown(unknown)
        return {key: pair for key, pair in told.items() if pair is not None}

    def _stated(self, of: Signature, chunk: Optional[int]) -> Optional[Tuple[int, int]]:
        over = self.slack.over
        exact, *near = (table.get(word) for table, word in zip(self._tables, of))
        if exact is not None:
            return exact.size if exact.is_exact else over(exact.size), over(exact.extra)
        for it in near:
            if it is not None:
                return over(it.size), over(it.extra)
        return self.otherwise if chunk is None else (chunk, chunk)

    def save(self, path: Union[str, "os.PathLike[str]"]) -> None:
        """Writes what was recorded to a file, as JSON.

        >>> Sizes().save(FOLDER / "sizes.json")
        """
        told = {"form": _FORM, "slack": self.slack, "otherwise": self.otherwise, "tables": self._tables}
        Path(path).write_text(json.dumps(told), encoding="utf-8")

    @classmethod
    def load(cls, path: Union[str, "os.PathLike[str]"]) -> "Sizes":
        """Reads such a file; `ValueError` where it is none.

        >>> Sizes(Slack(2, 0)).save(FOLDER / "sizes.json")
        >>> Sizes.load(FOLDER / "sizes.json").slack
        Slack(times=2, more=0)
        """
        told = json.loads(Path(path).read_text(encoding="utf-8"))
        if not isinstance(told, dict) or told.get("form") != _FORM:
            raise ValueError(f"{path} has no sizes of memplan")
        otherwise: Any = told["otherwise"] and tuple(told["otherwise"])
        sizes = cls(Slack(*told["slack"]), otherwise)
        for table, rows in zip(sizes._tables, told["tables"]):
            table.update((word, Measured(*numbers)) for word, numbers in rows.items())
        return sizes


# Shapes and dtypes

_PARTS = {"chunk", "partial", "combine"}
"""Words in the names of layers that are such parts."""

_PARTS_OF_A_SUM = 3
"""Where an array is reduced, a chunk on the way may be several arrays, in a dict: a variance has three."""


def _chunks_of(graphs: Iterable[Any]) -> Dict[Hashable, int]:
    """The bytes of each chunk of each array of numbers whose layers know their chunks."""
    found: Dict[Hashable, int] = {}
    for graph in graphs:
        for name, layer in graph.layers.items() if isinstance(graph, HighLevelGraph) else ():
            told = layer.collection_annotations or {}
            if told.get("dtype") is not None and not told["dtype"].hasobject and "chunks" in told:
                found.update(_bytes_of_chunks(name, told["chunks"], told["dtype"].itemsize))
    return found


def _bytes_of_chunks(name: str, chunks: Sequence[Sequence[float]], itemsize: int) -> Iterator[Tuple[Hashable, int]]:
    """By the key of each; those of unknown length are left out."""
    is_part = not _PARTS.isdisjoint(re.split("[-_]", key_split(name)))
    sizes: List[Tuple[Tuple[int, ...], float]] = [((), itemsize)]
    for lengths in chunks:
        sizes = [((*place, at), size * length) for place, size in sizes for at, length in enumerate(lengths)]
    for place, size in sizes:
        if not math.isnan(size):
            yield (name, *place), int(size) * _PARTS_OF_A_SUM + 1000 if is_part else int(size)


def _follow_aliases(chunks: Dict[Hashable, int], graph: Mapping[Hashable, Any]) -> None:
    """Where tasks are fused, the key that there was stands for a new one, which leaves the same result."""
    for key, value in graph.items():
        if key in chunks and isinstance(value, (str, tuple)) and is_key(value, graph):
            chunks.setdefault(value, chunks[key])


# A first run


def record(collection: Any, client: Optional[Client] = None, slack: Slack = Slack()) -> Tuple[Any, Sizes]:
    """Computes a collection, or several as `of_collection` takes them, and measures what each task leaves and what it needs beside.

    A size is what `dask.sizeof.sizeof` tells, and an extra what Python's `tracemalloc` has seen at most while the task ran, without its
    result and its inputs: that of numpy, of pandas and of Python itself, and not what a library of C takes for itself. Of the tasks
    in one process one runs at a time. On the cluster of a client as few results are there at once as their order allows, whose sizes no one
    knows yet; what comes back is the collection on that cluster. Without a client the tasks run in this process, one after the other, and
    what comes back is the results, as of `dask.compute`.

    >>> result, sizes = record(dask.delayed(sum)([1, 2], dask_key_name="total"))
    >>> result, len(sizes)
    (3, 1)
    """
    seen: Dict[int, Measured] = {}
    it = read(collection)
    tasks = tasks_of(it, dict.fromkeys(it.graph, (0, 0)))
    refuse_cycles(tasks)
    results = _recorded_here(tasks, seen) if client is None else _recorded_there(tasks, seen, client)
    named, sizes = signatures(it.graph, it.inputs), Sizes(slack)
    for task, measured in seen.items():
        sizes.learn(named[tasks[task].key], measured)
    rebuilt = it.rebuild({tasks[task].key: result for task, result in results.items()})
    return (rebuilt if client is not None else dask.compute(rebuilt, scheduler="sync")[0]), sizes


def _recorded_here(tasks: Sequence[Task], seen: Dict[int, Measured]) -> Dict[int, Any]:
    graph, measure = graph_of(tasks, 0), remote.measurer()
    results: Dict[int, Any] = {}
    uses = [len(users) for users in graph.consumers]
    for number in order_of_dask(graph):
        task = tasks[number]
        inputs = [*task.arguments, *(results[it] for it in task.inputs)]
        results[number], size, extra, is_exact = measure(task.function, inputs)
        seen[number] = Measured(size, extra, is_exact)
        del inputs
        for it in set(task.inputs):
            uses[it] -= 1
            if uses[it] == 0 and it not in graph.kept:
                del results[it]
    return results


def _recorded_there(tasks: Sequence[Task], seen: Dict[int, Measured], client: Client) -> Dict[int, Any]:
    topic = f"memplan-sizes-{uuid.uuid4().hex}"
    most = _MOST // (1 + _others(_threads(client, None)))
    tell = remote.teller()
    measured = [task._replace(function=partial(tell, task.function, topic, at), size=most) for at, task in enumerate(tasks)]
    with _heard(client, topic, seen):
        return run(measured, least_bound(measured, client), client)


@contextmanager
def _heard(client: Client, topic: str, seen: Dict[int, Measured]) -> Iterator[None]:
    """Notes what tasks tell. A worker tells of a task before it tells of its result, so all is noted when a run ends."""

    def note(event: Any) -> None:
        task, size, extra, is_exact = event[1]
        seen[task] = Measured(size, extra, is_exact)

    client.subscribe_topic(topic, note)
    try:
        yield
    finally:
        client.run_on_scheduler(remote.eraser(topic))
        client._event_handlers.pop(topic, None)
