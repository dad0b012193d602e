"""Trees of tasks, each of which leaves one block to its parent, as the fronts of a sparse matrix do."""

from __future__ import annotations

from dataclasses import dataclass
from typing import Any, Dict, Hashable, List, Literal, Mapping, Optional, Sequence, SupportsIndex, Tuple, Union

from . import _calls, _columns, fronts
from ._arrays import frozen, kept, listed, optional, shifted
from ._naming import NOTHING, Naming, columns_of
from ._networks import attributes_of, nodes_of
from ._numbers import I64, U32, U64, Width, column, numpy, whole
from ._texts import Page, PathLike, TreeText, matrix_text, order_text, read_bytes, read_tree, tree_text
from ._types import Array, Axes, Matrix, Tasks, WholeNumbers
from ._work import Ordered, Work
from .results import Claims, FrontRows, Plan, Segments, Spill, Stairs, kept_with

_PARENTS = (Width(I64.letter, -1, U32.most - 1, "32 bits"), U32)  # of nodes that count from 0, and from 1


@dataclass(frozen=True, init=False, repr=False, eq=False)
class Tree(Work):
    """Tasks that leave one block to their parent each.

    The columns are arrays of int64 that nobody writes to, or lists where there is no numpy: ``parent``, which counts from 1 whatever the
    tasks are called, and is 0 at a root; ``out``, what a task leaves; ``extra``, what it needs beside that while it runs; ``share``, what
    it takes over from the blocks of its children; ``time``, how long it runs. ``front_of`` has the number of the front of each column of a
    matrix; ``ranks`` the place of each in the order that the fronts come of, which counts within each front; and ``pattern`` the columns as
    they were given, where they start and the rows of their entries.

    >>> tree = Tree([1, -1], out=[4, 0], extra=[2, 9], base=0)
    >>> tree.plan().peak, tree.names
    (13, [0, 1])
    """

    parent: Array
    out: Array
    extra: Array
    share: Array
    time: Array
    naming: Naming
    front_of: Optional[Array]
    pattern: Optional[Tuple[Array, Array]]
    ranks: Optional[Array]

    _option = "--tree"
    _plan_version = 1

    def __init__(
        self,
        parent: WholeNumbers,
        out: WholeNumbers,
        extra: WholeNumbers,
        share: Optional[WholeNumbers] = None,
        time: Optional[WholeNumbers] = None,
        *,
        base: SupportsIndex = 1,
        names: Optional[Sequence[Hashable]] = None,
        front_of: Optional[WholeNumbers] = None,
        pattern: Optional[Tuple[WholeNumbers, WholeNumbers]] = None,
        ranks: Optional[WholeNumbers] = None,
    ) -> None:
        """Parents are numbers from ``base``, 1 or 0, and one less, 0 or -1, is the parent of a root. So are tasks called where they have no
        ``names``. Without them shares are 0, and times 1."""
        first = Naming.of(0, base).base
        above = shifted(kept("parent", parent, _PARENTS[first]), 1 - first)
        count = len(above)
        columns = {"parent": above, "out": kept("out", out), "extra": kept("extra", extra)}
        columns.update(share=optional("share", share, 0, count), time=optional("time", time, 1, count))
        for name, values in columns.items():
            if len(values) != count:
                raise ValueError(f"{name}: there are {len(values)} numbers, and {count} parents")
            object.__setattr__(self, name, values)
        object.__setattr__(self, "naming", Naming.of(count, base, names))
        object.__setattr__(self, "front_of", None if front_of is None else kept("front_of", front_of, U32))
        entries = None if pattern is None else (kept("indptr", pattern[0], U32), kept("indices", pattern[1], U32))
        object.__setattr__(self, "pattern", entries)
        object.__setattr__(self, "ranks", None if ranks is None else kept("ranks", ranks, U32))

    @classmethod
    def of_mapping(
        cls,
        parents: Mapping[Any, Any],
        out: Mapping[Any, SupportsIndex],
        extra: Mapping[Any, SupportsIndex] = NOTHING,
        share: Mapping[Any, SupportsIndex] = NOTHING,
        time: Mapping[Any, SupportsIndex] = NOTHING,
    ) -> "Tree":
        """Of the parent of each task, None at a root, and what tasks leave. What is not told of a task else is 0, and its time 1.

        >>> tree = Tree.of_mapping({"left": "top", "right": "top", "top": None}, out={"left": 3, "right": 4, "top": 0}, extra={"left": 8})
        >>> plan = tree.plan()
        >>> plan.order, plan.peak
        (['left', 'right', 'top'], 11)
        """
        naming = Naming.of(len(parents), 1, list(parents))
        above = [0 if it is None else naming.known(f"parents[{name!r}]", it) for name, it in parents.items()]
        columns = columns_of(naming, out=(out, None), extra=(extra, 0), share=(share, 0), time=(time, 1))
        return cls(above, **columns, names=naming.names)

    @classmethod
    def of_networkx(cls, graph: Any, out: str = "out", extra: str = "extra", share: str = "share", time: str = "time") -> "Tree":
        """Of a digraph of networkx with an edge from each node to its parent. The nodes are the names; ``out`` and the others name
        attributes of theirs. Each node has to have the first; without the others it is 0, and the time 1.

        >>> graph = networkx.DiGraph([("left", "top"), ("right", "top")])
        >>> networkx.set_node_attributes(graph, {"left": 3, "right": 4, "top": 0}, "out")
        >>> Tree.of_networkx(graph).plan().peak
        7
        """
        nodes = nodes_of(graph)
        parents: Dict[Any, Any] = {node: None for node in nodes}
        for node, parent in graph.edges():
            if parents[node] is not None:
                raise ValueError(f"graph: {node!r} has several parents, {parents[node]!r} and {parent!r}")
            parents[node] = parent
        columns = [attributes_of(nodes, name, default) for name, default in ((out, None), (extra, 0), (share, 0), (time, 1))]
        return cls.of_mapping(parents, *columns)

    @classmethod
    def of_matrix(
        cls,
        matrix: Matrix,
        order: Optional[WholeNumbers] = None,
        shape: Literal["triangle", "square"] = "triangle",
        in_place: bool = False,
        zeros: Optional[SupportsIndex] = None,
        *,
        base: SupportsIndex = 1,
    ) -> "Tree":
        """The fronts of a sparse symmetric matrix, as `memplan.fronts` makes them: of scipy, in any format, or its pair (indptr, indices).
        Sizes count entries. A front's time is the number of its columns. ``base`` says from where fronts are numbered.

        >>> arrow = [0, 3, 3, 3, 3], [1, 2, 3]
        >>> tree = Tree.of_matrix(arrow)
        >>> len(tree), tree.plan().peak, [list(map(int, columns)) for columns in tree.columns()]
        (3, 5, [[1], [2], [0, 3]])
        """
        pattern = _columns(matrix)
        made = fronts(pattern, order, shape, in_place, zeros)
        first = Naming.of(0, base).base
        parents, told = shifted(made.parent, first - 1), (made.out, made.extra, made.share, made.columns)
        if order is not None:
            ranks: Any = inverse(column("order[{}]", order, U32).tolist())
        else:  # in a front of minimum degree it does not matter which column comes first, but in those that were merged
            ranks = None if zeros is None else fronts(pattern).front_of
        return cls(parents, *told, base=first, front_of=made.front_of, pattern=pattern, ranks=ranks)

    @classmethod
    def of_text(cls, text: Union[str, bytes]) -> "Tree":
        """Of a tree file's text. The tasks have the names that stand in comments ``# K NAME``, or numbers from 1.

        >>> Tree.of_text("tree 1\\nnodes 1\\n0 7 2 1\\nend\\n# 1 align_3\\n").names
        ['align_3']
        """
        return cls._of_columns(read_tree(text))

    @classmethod
    def read(cls, path: PathLike) -> "Tree":
        """Reads a tree file, of either version.

        >>> Tree.read(EXAMPLES / "five.tree").plan().peak
        11
        """
        return cls._of_columns(read_tree(read_bytes(path), str(path)))

    @classmethod
    def _of_columns(cls, read: TreeText) -> "Tree":
        return cls(read.parent, read.out, read.extra, read.share, read.time, names=read.names)

    # Commands

    def plan(self, evidence: bool = False) -> Plan:
        """An order of least peak; with the claims that show it, where evidence is asked for.

        >>> plan = FIVE.plan()
        >>> plan.peak, plan.is_least, FIVE.replay(plan)
        (11, True, 11)
        """
        if evidence:
            order, peak, claims = self._asked(_calls.certify_tree, self._nodes())
            return kept_with(Plan(self.naming.told(order), peak, peak, claims), work=self)
        order, peak = self._asked(_calls.plan_tree, self._nodes())
        return kept_with(Plan(self.naming.told(order), peak, peak), work=self)

    def check(self, plan: Plan) -> None:
        """Judges a plan by its claims, whoever made it; refused with the first objection.

        >>> plan = FIVE.plan(evidence=True)
        >>> FIVE.check(plan)
        >>> FIVE.check(plan._replace(peak=10, bound=10))
        Traceback (most recent call last):
        memplan._refusals.TaskRefused: the order has another peak (11)
        """
        if not isinstance(plan, Plan):
            raise TypeError(f"plan: a {type(plan).__name__} is no Plan")
        if not isinstance(plan.evidence, Claims):
            raise ValueError("plan: it has no claims; plan(evidence=True) makes it with claims")
        peak, order = whole("peak", plan.peak, U64), self._numbered(plan)
        if plan.bound != peak:
            raise ValueError("plan: claims on a tree show that the peak is least, and the bound is another number")
        self._asked(_calls.check_tree, self._nodes(), order, peak, plan.evidence, order=order)

    def post(self) -> Tuple[Tasks, int]:
        """The best postorder, and its peak: no postorder has a lower one.

        >>> order, peak = FIVE.post()
        >>> peak
        15
        """
        order, peak = self._asked(_calls.best_postorder, self._nodes())
        return self.naming.told(order), peak

    def replay(self, order: Ordered) -> int:
        """The peak of an order; refused with the first place at which it is none.

        >>> FIVE.replay(["a", "b", "c", "d", "top"])
        15
        """
        numbers = self._numbered(order)
        return self._asked(_calls.replay_tree, self._nodes(), numbers, order=numbers)

    def spill(self, order: Ordered, bound: SupportsIndex) -> Spill:
        """The least volume that has to go to disk where an order runs within a bound, and how much of the block of each task, in turn.

        >>> spill = FIVE.spill(["a", "b", "c", "d", "top"], bound=11)
        >>> spill.volume, list(map(int, spill.amounts))
        (4, [0, 4, 0, 0, 0])
        """
        numbers, limit = self._numbered(order), whole("bound", bound, U64)
        amounts, volume = self._asked(_calls.spill_tree, self._nodes(), numbers, limit, order=numbers)
        return Spill(volume, amounts)

    def segments(self) -> Dict[Any, Segments]:
        """How low memory can come within each bound, in the subtree of each task.

        >>> FIVE.segments()["b"].backward
        Stairs(level=5, steps=[(6, 1), (10, 0)])
        """
        return dict(zip(self.names, segments_of(self._run("segments"))))

    def plot(self, ax: Optional[Axes] = None, *, most: int = 24, unit: Optional[str] = None, name: str = "") -> Axes:
        """The tree from the roots down, at most so many tasks, by matplotlib, as `memplan.plot.tree` draws it.

        >>> FIVE.plot(name="five.tree").get_title(loc="left")
        'tree of five.tree, from the roots down: 5 of 5 are drawn'
        """
        from . import plot

        return plot.tree(self, ax, most=most, unit=unit, name=name)

    # Matrices

    def columns(self) -> List[Array]:
        """The columns of each front of a matrix, from 0, in the order in which they are eliminated.

        >>> Tree([0], [1], [2]).columns()
        Traceback (most recent call last):
        ValueError: the tree is of no matrix
        """
        sizes, found = [0] * len(self), []
        for front in self._fronts():
            sizes[front - 1] += 1
        start, together = 0, self._sorted(list(range(1, len(self) + 1)))
        for size in sizes:
            found.append(frozen(together[start : start + size]))
            start += size
        return found

    def elimination(self, order: Ordered) -> Array:
        """The columns of a matrix in the order in which they are eliminated where its fronts run in an order: `of_matrix` makes these
        fronts of it too.

        >>> tree = Tree.of_matrix(([0, 3, 3, 3, 3], [1, 2, 3]))
        >>> list(map(int, tree.elimination([2, 1, 3])))
        [2, 1, 0, 3]
        """
        numbers = self._numbered(order)
        self._asked(_calls.replay_tree, self._nodes(), numbers, order=numbers)
        return frozen(self._sorted(numbers.tolist()))

    def fronts(self, bound: Optional[SupportsIndex] = None, workers: SupportsIndex = 1) -> FrontRows:
        """The rows of each front of a matrix whose fronts were not merged: its own columns, and those to which they are joined and which
        come later, in the order of their elimination, as numbers of the matrix, from 0. They are made in rounds, on so many threads,
        where at most ``bound`` rows are held at once; refused where that is too few for the fronts one after the other.

        >>> made = Tree.of_matrix(([0, 3, 3, 3, 3], [1, 2, 3])).fronts(bound=4, workers=2)
        >>> [list(map(int, rows)) for rows in made.rows]
        [[1, 0], [2, 0], [0, 3]]
        >>> [list(map(int, fronts)) for fronts in made.rounds], made.used
        ([[1, 2], [3]], 4)
        """
        columns = self.columns()
        if self.pattern is None:
            raise ValueError("the tree has no pattern of its matrix")
        places = listed(self._sorted(list(range(1, len(self) + 1))))
        order = order_text(place + 1 for place in places).encode()
        files = {"--matrix": matrix_text(*map(listed, self.pattern)).encode(), "--perm": order}
        limits = self._limits(U64.most if bound is None else bound, whole("workers", workers, U32))
        page = self._report("fronts", files, limits)
        found, rounds, used = (page.section(word) for word in (b"fronts", b"rounds", b"used"))
        made = [self.naming.told(list(map(int, row))) for row in page.rows(rounds)]
        page.at += rounds
        rows = [frozen([places[int(place) - 1] for place in row]) for row in page.rows(found)]
        if found != len(self) or any(listed(own) != listed(all_[: len(own)]) for own, all_ in zip(columns, rows)):
            raise ValueError("the fronts of the tree are not those of its matrix, or are merged")
        return FrontRows(rows, made, used)

    def _sorted(self, order: List[int]) -> Any:
        """The columns of the matrix by the places of their fronts, and in each by their ranks."""
        place = [0] * (len(self) + 1)
        for at, front in enumerate(order):
            place[front] = at
        front_of = self._fronts()
        ranks = [0] * len(front_of) if self.ranks is None else listed(self.ranks)
        if numpy is not None:
            return numpy.lexsort((ranks, numpy.asarray(place)[front_of]))
        return sorted(range(len(front_of)), key=lambda column: (place[front_of[column]], ranks[column]))

    def _fronts(self) -> List[int]:
        if self.front_of is None:
            raise ValueError("the tree is of no matrix")
        return listed(self.front_of)

    # Files

    def text(self, version: Optional[int] = None) -> str:
        """The tree file as a text, of version 2 where a share is not 0, or of the version that is asked for. Names stand in comments.

        >>> print(Tree([0], out=[7], extra=[2], names=["align_3"]).text(), end="")
        tree 1
        nodes 1
        0 7 2 1
        end
        # 1 align_3
        """
        has_shares = any(listed(self.share))
        if version not in (None, 1, 2) or (version == 1 and has_shares):
            raise ValueError(f"version: the tree cannot be told in version {version!r}")
        names = None if self.naming.names is None else list(self.naming.names)
        return tree_text(self._as_text()._replace(names=names), 2 if has_shares else version or 1)

    def _as_text(self) -> TreeText:
        return TreeText(*map(listed, (self.parent, self.out, self.extra, self.share, self.time)))

    def _input(self) -> str:
        return tree_text(self._as_text(), 2)

    # How the library is asked

    def _nodes(self) -> _calls.Nodes:
        return _calls.nodes_of(self.parent, self.out, self.extra, self.share, self.time)

    def _judge(self) -> None:
        self._judged_by(_calls.replay_tree, self._nodes())


def inverse(order: List[int]) -> List[int]:
    """The place of each number of an order."""
    places = [0] * len(order)
    for place, number in enumerate(order):
        places[number] = place
    return places


def segments_of(page: Page) -> List[Segments]:
    """The report of `segments`: two lines for each number."""
    count = page.section(b"segments")
    stairs = []
    for row in page.rows(2 * count):
        level, *steps = map(int, row[2:])
        stairs.append(Stairs(level, list(zip(steps[::2], steps[1::2]))))
    return [Segments(forward, backward) for forward, backward in zip(stairs[::2], stairs[1::2])]

