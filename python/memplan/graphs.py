"""Task graphs: tasks, and the items that one makes and any number of others read."""

from __future__ import annotations

from dataclasses import dataclass
from typing import Any, Dict, Hashable, Iterable, List, Mapping, Optional, Sequence, SupportsIndex, Tuple, Union

from . import EFFORT, _calls
from ._arrays import frozen, kept, listed, optional, shifted, sums
from ._dask import Sizes, inputs_of, is_plain, read_collection, told_of
from ._naming import NOTHING, Naming, columns_of, places
from ._networks import attributes_of, edges_of, nodes_of
from ._numbers import U32, U64, Width, _together, _turned, whole
from ._texts import GraphText, PathLike, graph_text, read_bound, read_bytes, read_graph, read_plan
from ._types import Array, Axes, WholeNumbers
from ._work import Ordered, Work
from .results import Bound, Gap, Gaps, Item, Join, Plan, Readers, kept_with
from .workflows import Workflow

_PRODUCERS = (Width("q", -1, U32.most - 1, "32 bits"), U32)  # of tasks that count from 0, and from 1


@dataclass(frozen=True, init=False, repr=False, eq=False)
class Graph(Work):
    """Tasks that hand items to each other, each to any number of readers.

    The columns are arrays of int64 that nobody writes to, or lists where there is no numpy. Of tasks: ``extra``, what each needs beside its
    items while it runs; ``share``, what it takes over from those that it alone reads; ``time``, how long it runs. Of items: ``size``;
    ``producer``, which counts from 1 whatever the tasks are called, and is 0 where there is none; those of ``readers`` from ``starts[k]``
    to ``starts[k + 1]`` read item k.

    >>> graph = Graph([0, 0, 0], [(10, -1, [0, 1]), (3, 0, [2]), (4, 1, [2])], base=0)
    >>> plan = graph.plan()
    >>> plan.peak, plan.is_least
    (17, True)
    """

    extra: Array
    share: Array
    time: Array
    size: Array
    producer: Array
    starts: Array
    readers: Array
    naming: Naming

    _option = "--graph"
    _plan_version = 3

    def __init__(
        self,
        extra: WholeNumbers,
        items: Sequence[Tuple[SupportsIndex, Optional[SupportsIndex], Iterable[SupportsIndex]]],
        share: Optional[WholeNumbers] = None,
        time: Optional[WholeNumbers] = None,
        *,
        base: SupportsIndex = 1,
        names: Optional[Sequence[Hashable]] = None,
    ) -> None:
        """Items are tuples (size, producer, readers) of numbers from ``base``, 1 or 0; None, or one less than the base, stands for no
        producer. Readers may stand in any order, or in a set. Tasks have the ``names``, else they are called by numbers from the base."""
        first = Naming.of(0, base).base
        rows = items if isinstance(items, list) else list(items)
        sizes, producers, lists = _turned("items", rows, ["size", "producer", "readers"], "parts")
        made = [first - 1 if it is None else it for it in producers]
        of_items = [sorted(it) if isinstance(it, (set, frozenset)) else it for it in lists]
        read = _together("items[{}].readers", of_items)
        named = kept("items[{}].size", sizes), kept("items[{}].producer", made, _PRODUCERS[first])
        self._keep(extra, *named, sums(map(len, of_items)), listed(read), share, time, first, names)

    def _keep(
        self,
        extra: Any,
        size: Array,
        producer: Array,
        starts: List[int],
        readers: List[int],
        share: Optional[WholeNumbers],
        time: Optional[WholeNumbers],
        base: int,
        names: Optional[Sequence[Hashable]],
    ) -> None:
        needs = kept("extra", extra)
        count = len(needs)
        columns = {"extra": needs, "share": optional("share", share, 0, count), "time": optional("time", time, 1, count)}
        for name, values in columns.items():
            if len(values) != count:
                raise ValueError(f"{name}: there are {len(values)} numbers, and {count} tasks")
        for start, end in zip(starts, starts[1:]):
            if end - start > 1:
                readers[start:end] = sorted(readers[start:end])
        columns.update(size=size, producer=shifted(producer, 1 - base), starts=frozen(starts), readers=shifted(frozen(readers), 1 - base))
        for name, values in columns.items():
            object.__setattr__(self, name, values)
        object.__setattr__(self, "naming", Naming.of(count, base, names))

    @classmethod
    def of_columns(
        cls,
        extra: WholeNumbers,
        size: WholeNumbers,
        producer: WholeNumbers,
        starts: WholeNumbers,
        readers: WholeNumbers,
        share: Optional[WholeNumbers] = None,
        time: Optional[WholeNumbers] = None,
        *,
        base: SupportsIndex = 1,
        names: Optional[Sequence[Hashable]] = None,
    ) -> "Graph":
        """Of columns as the graph has them, with the readers of all items in one array, and one start more than there are items. Tasks are
        numbers from ``base``, 1 or 0; one less stands for no producer. Starts are from 0.

        >>> graph = Graph.of_columns([0, 0, 0], [10, 3, 4], [-1, 0, 1], [0, 2, 3, 4], [0, 1, 2, 2], base=0)
        >>> graph.items[0]
        Item(size=10, producer=None, readers=(0, 1))
        """
        first = Naming.of(0, base).base
        at, read = listed(kept("starts", starts)), listed(kept("readers", readers, U32))
        sizes, producers = kept("size", size), kept("producer", producer, _PRODUCERS[first])
        if not len(at) - 1 == len(sizes) == len(producers):
            raise ValueError(f"size, producer, starts: there are {len(sizes)}, {len(producers)} and {len(at)}, and not one start more")
        if at[0] != 0 or at[-1] != len(read) or any(start > end for start, end in zip(at, at[1:])):
            raise ValueError(f"starts: they do not rise from 0 to the {len(read)} readers")
        graph = cls.__new__(cls)
        graph._keep(extra, sizes, producers, at, read, share, time, first, names)
        return graph

    @classmethod
    def of_mapping(
        cls,
        inputs: Mapping[Any, Iterable[Any]],
        size: Mapping[Any, SupportsIndex],
        extra: Mapping[Any, SupportsIndex] = NOTHING,
        share: Mapping[Any, SupportsIndex] = NOTHING,
        time: Mapping[Any, SupportsIndex] = NOTHING,
    ) -> "Graph":
        """Of the tasks whose results each task reads; each leaves one result, of a size. What is not told of a task else is 0, its time 1.

        >>> graph = Graph.of_mapping(
        ...     {"load": [], "count": ["load"], "sort": ["load"], "merge": ["count", "sort"]},
        ...     size={"load": 10, "count": 1, "sort": 10, "merge": 2},
        ... )
        >>> plan = graph.plan()
        >>> plan.order, plan.peak
        (['load', 'count', 'sort', 'merge'], 21)
        """
        naming = Naming.of(len(inputs), 1, list(inputs))
        sizes = places(naming, size, "size", None)
        readers: List[List[int]] = [[] for _ in inputs]
        for task, (name, made) in enumerate(inputs.items(), 1):
            for it in dict.fromkeys(made):
                readers[naming.known(f"inputs[{name!r}]", it) - 1].append(task)
        items = list(zip(sizes, range(1, len(sizes) + 1), readers))
        return cls._of_items(naming, items, extra, share, time)

    @classmethod
    def of_edges(
        cls,
        edges: Iterable[Tuple[Any, Any, SupportsIndex]],
        extra: Mapping[Any, SupportsIndex] = NOTHING,
        share: Mapping[Any, SupportsIndex] = NOTHING,
        time: Mapping[Any, SupportsIndex] = NOTHING,
    ) -> "Graph":
        """Of triples (from, to, size), each an item of its own with one reader; None stands for no task. The tasks are those of the edges,
        as they come, and those that ``extra`` has beside. What several tasks read would count as often as it is read: use
        `of_mapping`.

        >>> graph = Graph.of_edges([("load", "count", 5), ("count", None, 1)], extra={"count": 2})
        >>> graph.replay(["load", "count"])
        8
        """
        triples = list(edges)
        for at, triple in enumerate(triples):
            if not isinstance(triple, (tuple, list)) or len(triple) != 3:
                raise TypeError(f"edges[{at}]: {triple!r} is no tuple (from, to, size)")
        named = dict.fromkeys(end for start, to, _ in triples for end in (start, to) if end is not None)
        naming = Naming.of(len({**named, **extra}), 1, list({**named, **extra}))
        items = []
        for at, (start, to, size) in enumerate(triples):
            made = 0 if start is None else naming.numbers[start]
            items.append((whole(f"edges[{at}].size", size, U64), made, [] if to is None else [naming.numbers[to]]))
        return cls._of_items(naming, items, extra, share, time)

    @classmethod
    def of_networkx(
        cls, graph: Any, out: str = "out", size: str = "size", extra: str = "extra", share: str = "share", time: str = "time"
    ) -> "Graph":
        """Of a digraph of networkx, whose nodes are the names of the tasks, with an edge from each to those that read what it makes.
        ``out`` names the attribute of a node whose result is one item for all its readers; ``size`` that of an edge which hands on an item
        of its own. An edge without a size reads its node's result. Attributes ``extra`` and ``share`` of nodes are 0 where they are
        missing, and ``time`` 1.

        >>> graph = networkx.DiGraph([("load", "count"), ("load", "sort"), ("count", "merge"), ("sort", "merge")])
        >>> networkx.set_node_attributes(graph, {"load": 10, "count": 1, "sort": 10, "merge": 2}, "out")
        >>> Graph.of_networkx(graph).plan().peak
        21
        """
        nodes = nodes_of(graph)
        naming = Naming.of(len(nodes), 1, list(nodes))
        readers: Dict[Any, List[int]] = {node: [] for node in nodes}
        items: List[Tuple[int, int, List[int]]] = []
        for node, reader, attributes in edges_of(graph):
            if size in attributes:
                made = whole(f"edges[{node!r}, {reader!r}].{size}", attributes[size], U64)
                items.append((made, naming.numbers[node], [naming.numbers[reader]]))
            elif out in nodes[node]:
                readers[node].append(naming.numbers[reader])
            else:
                raise ValueError(f"graph: edge {node!r}, {reader!r} has no attribute {size!r}, and node {node!r} no attribute {out!r}")
        for node, attributes in nodes.items():
            if out in attributes:
                made = whole(f"nodes[{node!r}].{out}", attributes[out], U64)
                items.append((made, naming.numbers[node], list(dict.fromkeys(readers[node]))))
        told = (attributes_of(nodes, name, default) for name, default in ((extra, 0), (share, 0), (time, 1)))
        return cls._of_items(naming, items, *told)

    @classmethod
    def of_dask(cls, collection: Any, sizes: Sizes, time: Mapping[Any, SupportsIndex] = NOTHING) -> "Graph":
        """Of a Dask collection, or several in a list, a tuple or a dict, which are optimized first, as Dask would run them; or of a plain
        Dask graph, a mapping from keys to tasks, as it is. The keys are the names. ``sizes``, a mapping or a function of keys, has for
        each the size of its result, or that and the extra of its task. The results that the collection is made of stay to the end, and in
        a plain graph those that no task reads. Times are 1 where none are told.

        >>> tasks = {"load": (range, 9), "count": (len, "load"), "sort": (sorted, "load"), "merge": (max, "count", "sort")}
        >>> plan = Graph.of_dask(tasks, sizes={"load": 10, "count": 1, "sort": (10, 5), "merge": 2}).plan()
        >>> plan.order, plan.peak
        (['load', 'sort', 'count', 'merge'], 25)
        """
        if is_plain(collection):
            inputs = inputs_of(collection)
            told = {key: told_of(sizes, key) for key in inputs}
            size, extra = ({key: pair[at] for key, pair in told.items()} for at in range(2))
            return cls.of_mapping(inputs, size, extra, time=time)
        read = read_collection(collection, sizes)
        columns = columns_of(Naming.of(len(read.keys), 1, read.keys), time=(time, 1))
        return cls(read.extras, read.items, **columns, names=read.keys)

    @classmethod
    def from_dask(cls, collection: Any, sizes: Sizes, time: Mapping[Any, SupportsIndex] = NOTHING) -> "Graph":
        """The name that `of_dask` had before.

        >>> Graph.from_dask({"load": (range, 9)}, sizes={"load": 10}).names
        ['load']
        """
        return cls.of_dask(collection, sizes, time)

    @classmethod
    def _of_items(
        cls,
        naming: Naming,
        items: List[Tuple[int, int, List[int]]],
        extra: Mapping[Any, SupportsIndex],
        share: Mapping[Any, SupportsIndex],
        time: Mapping[Any, SupportsIndex],
    ) -> "Graph":
        columns = columns_of(naming, extra=(extra, 0), share=(share, 0), time=(time, 1))
        return cls(items=items, **columns, names=naming.names)

    @classmethod
    def of_text(cls, text: Union[str, bytes]) -> "Graph":
        """Of a task graph file's text, of either version. The tasks have the names that stand in comments ``# K NAME``, or numbers from 1.

        >>> Graph.of_text("graph 1\\ntasks 1\\n2 0 1\\narcs 1\\n0 1 5\\nend\\n").items
        [Item(size=5, producer=None, readers=(1,))]
        """
        return cls._of_text(read_graph(text)[0])

    @classmethod
    def read(cls, path: PathLike) -> "Graph":
        """Reads a task graph file, of either version.

        >>> Graph.read(EXAMPLES / "shared.graph").plan().peak
        16
        """
        return cls._of_text(read_graph(read_bytes(path), str(path))[0])

    @classmethod
    def _of_text(cls, it: GraphText) -> "Graph":
        return cls.of_columns(it.extra, it.size, it.producer, it.starts, it.readers, it.share, it.time, names=it.names)

    @property
    def items(self) -> List[Item]:
        """The items, with their tasks as they are called.

        >>> Graph([0, 0], [(5, 1, [2])], names=["load", "count"]).items
        [Item(size=5, producer='load', readers=('count',))]
        """
        return [
            Item(size, self.naming.name(producer) if producer else None, readers)
            for size, producer, readers in zip(listed(self.size), listed(self.producer), self._readers())
        ]

    def _readers(self) -> List[Tuple[Any, ...]]:
        starts = listed(self.starts)
        told = list(map(self.naming.name, listed(self.readers)))
        return [tuple(told[start:end]) for start, end in zip(starts, starts[1:])]

    def _shared(self) -> List[Readers]:
        return [Readers(at, readers) for at, readers in enumerate(self._readers()) if len(readers) > 1]

    # Commands

    def plan(self, start: Optional[Ordered] = None, effort: SupportsIndex = EFFORT, evidence: bool = False) -> Plan:
        """An order, its peak, and a bound that no order has a peak below: the same number wherever the graph is series-parallel. Elsewhere
        ``effort`` says how much is searched, and the peak is no higher than that of ``start``. Evidence for the bound comes where it is
        asked for.

        >>> plan = DIAMOND.plan(evidence=True)
        >>> plan.order, plan.peak, plan.bound
        (['load', 'count', 'sort', 'merge'], 21, 21)
        >>> DIAMOND.check(plan)
        """
        numbers, steps = None if start is None else self._numbered(start, "start"), whole("effort", effort, U64)
        if numbers is not None and len(numbers) == 0 and len(self):
            raise ValueError("start: it has no place")
        if evidence:
            page = self._run("plan", numbers, ["--effort", str(steps)])
            return self._plan_told(read_plan(page.text, page.file))
        told = memoryview(b"").cast("I") if numbers is None else numbers
        order, peak, bound = self._asked(_calls.plan_shared, self._system(), told, steps, order=told)
        return kept_with(Plan(self.naming.told(order), peak, bound), work=self)

    def check(self, plan: Plan, workers: SupportsIndex = 1) -> None:
        """Judges a plan by its evidence, whoever made it, on so many threads; refused with the first objection.

        >>> plan = DIAMOND.plan(evidence=True)
        >>> DIAMOND.check(plan._replace(order=["load", "sort", "merge", "count"]))
        Traceback (most recent call last):
        memplan._refusals.TaskRefused: order[2], task 'merge': a task stands before one that produces what it consumes
        """
        self._judge_plan(plan, workers)

    def bound(self, order: Optional[Ordered] = None, effort: SupportsIndex = EFFORT) -> Bound:
        """What no order has a peak below, evidence for it, and the peak of an order beside.

        >>> found = DIAMOND.bound(["load", "sort", "count", "merge"])
        >>> found.bound, found.peak
        (21, 21)
        """
        numbers = None if order is None else self._numbered(order)
        page = self._run("bound", numbers, ["--effort", str(whole("effort", effort, U64))])
        peak = None if numbers is None else page.section(b"peak")
        bound, evidence = read_bound(page)
        told = self._evidence_told(evidence)
        assert told is not None
        return Bound(bound, told, peak)

    def replay(self, order: Ordered) -> int:
        """The peak of an order; refused with the first place at which it is none.

        >>> DIAMOND.replay(["load", "sort", "count", "merge"])
        21
        """
        numbers = self._numbered(order)
        return self._asked(_calls.replay_shared, self._system(), numbers, order=numbers)

    def spill(self, order: Ordered, bound: SupportsIndex) -> Gaps:
        """The least volume that has to go to disk where an order runs within a bound, and the gaps between uses in which some does.

        >>> graph = Graph.read(EXAMPLES / "shared.graph")
        >>> graph.spill([1, 2, 3, 4, 5], bound=15)
        Gaps(volume=1, gaps=[Gap(item=1, reader=5, amount=1)])
        """
        page = self._run("spill", self._numbered(order), self._limits(bound))
        volume = page.section(b"volume")
        items, readers, amounts = page.table(page.section(b"gaps"), 3)
        called = [self.naming.name(reader) if reader else None for reader in readers]
        return Gaps(volume, [Gap(item - 1, reader, amount) for item, reader, amount in zip(items, called, amounts)])

    def reduce(self) -> Workflow:
        """A series-parallel workflow with the least peak of the graph. Its tasks are called as here, and those that are put between,
        without need, are a `Join` each: without these an order of the workflow is one of the graph, of no higher peak. Refused where there
        is none.

        >>> workflow = DIAMOND.reduce()
        >>> order = [task for task in workflow.plan().order if not isinstance(task, Join)]
        >>> DIAMOND.replay(order) == DIAMOND.plan().peak
        True
        """
        page = self._run("reduce")
        workflow = Workflow.of_text(page.text)
        numbers = [int(line.split()[2]) for line in page.text.split(b"\n") if line[:1] == b"#"]
        return workflow.renamed([self._task_or_join(number) for number in numbers])

    def _task_or_join(self, number: int) -> Any:
        return self.naming.name(number) if self.naming.has(number) else Join(number - len(self))

    def plot(self, ax: Optional[Axes] = None, *, most: int = 40, unit: Optional[str] = None) -> Axes:
        """The tasks, each below all that it reads from, by matplotlib, as `memplan.plot.graph` draws them.

        >>> DIAMOND.plot(unit="MB").get_title(loc="left")
        'graph of 4 tasks'
        """
        from . import plot

        return plot.graph(self, ax, most=most, unit=unit)

    # Files

    def text(self, version: Optional[int] = None) -> str:
        """The task graph file as a text, of version 2, or of version 1 if that is asked for and no item has several readers. Names stand in
        comments.

        >>> print(Graph([2], [(5, None, [1])]).text(version=1), end="")
        graph 1
        tasks 1
        2 0 1
        arcs 1
        0 1 5
        end
        """
        if version not in (None, 1, 2) or (version == 1 and self._shared()):
            raise ValueError(f"version: the graph cannot be told in version {version!r}")
        names = None if self.naming.names is None else list(self.naming.names)
        return graph_text(self._as_text()._replace(names=names), version or 2)

    def _as_text(self) -> GraphText:
        columns = self.extra, self.share, self.time, self.size, self.producer, self.starts, self.readers
        return GraphText(*map(listed, columns))

    def _input(self) -> str:
        return graph_text(self._as_text(), 2)

    # How the library is asked

    def _system(self) -> _calls.System:
        starts = listed(self.starts)
        counts = [end - start for start, end in zip(starts, starts[1:])]
        return _calls.system_of(self.extra, self.share, self.time, self.size, self.producer, counts, self.readers)

    def _judge(self) -> None:
        self._judged_by(_calls.replay_shared, self._system())
