"""memplan for Python: orders of least memory for the fronts of a sparse factorization, or for any tree of tasks, with proof.

The calls are those of ``libmemplan.so`` (see ``memplan.h``), which is proved; this module, which hands arrays over and back, is not.
Arrays may be lists or numpy arrays; where numpy is there, arrays come back as numpy arrays of int64, else as lists.

A number is a whole one: an int, or of a type with ``__index__``, as numpy's integers. A float, a bool, text and the like are a `TypeError`,
and a number that is negative or too great for the library's field an `OverflowError`; both name the value, as ``extra[3]: 2.9 is no whole
number``. Places in these names count from 0. What fits its field is judged by the library, which raises `Refused`.
"""

from __future__ import annotations

import ctypes
import os
from array import array
from pathlib import Path
from typing import Any, Dict, List, Literal, NamedTuple, NoReturn, Optional, Sequence, SupportsIndex, Tuple, Type, Union

from ._numbers import (
    BOOLS,
    U32,
    U64,
    back,
    column,
    columns_of,
    columns_with_lists,
    fields_of,
    for_c,
    numbers,
    numpy,
    structures,
    view,
    whole,
)
from ._types import Array, Matrix, Rows, SharedItems, WholeNumbers

__all__ = [
    "EFFORT",
    "Analysis",
    "Blockers",
    "Bound",
    "Certificate",
    "Claims",
    "Core",
    "Fences",
    "FormatError",
    "FrontRows",
    "Fronts",
    "Gap",
    "Gaps",
    "Graph",
    "Item",
    "Join",
    "Need",
    "Plan",
    "Readers",
    "Refused",
    "Segments",
    "SharedItem",
    "SharedPlan",
    "Simulation",
    "Spill",
    "Stairs",
    "States",
    "TaskRefused",
    "Tree",
    "Workflow",
    "__version__",
    "analyse",
    "best_postorder",
    "certify",
    "check",
    "columns",
    "fronts",
    "minimum_degree",
    "plan",
    "plan_shared",
    "replay",
    "replay_shared",
    "replay_system",
    "spill",
]


class _Node(ctypes.Structure):
    _fields_ = [
        ("parent", ctypes.c_uint32),
        ("out", ctypes.c_uint64),
        ("extra", ctypes.c_uint64),
        ("share", ctypes.c_uint64),
        ("time", ctypes.c_uint64),
    ]


class _Task(ctypes.Structure):
    _fields_ = [("extra", ctypes.c_uint64), ("share", ctypes.c_uint64), ("time", ctypes.c_uint64)]


class _Item(ctypes.Structure):
    _fields_ = [("size", ctypes.c_uint64), ("from_", ctypes.c_uint32), ("to", ctypes.c_uint32)]


class _SharedItem(ctypes.Structure):
    _fields_ = [("size", ctypes.c_uint64), ("from_", ctypes.c_uint32), ("readers", ctypes.c_uint32)]


class _Claim(ctypes.Structure):
    _fields_ = [
        ("position", ctypes.c_uint32),
        ("backward", ctypes.c_uint32),
        ("bound", ctypes.c_int64),
        ("rest", ctypes.c_uint64),
    ]


class _FrontOptions(ctypes.Structure):
    _fields_ = [
        ("shape", ctypes.c_uint32),
        ("in_place", ctypes.c_uint32),
        ("merge", ctypes.c_uint32),
        ("zeros", ctypes.c_uint64),
    ]


class _Fault(ctypes.Structure):
    _fields_ = [("kind", ctypes.c_uint32), ("at", ctypes.c_uint64), ("value", ctypes.c_uint64)]


_KINDS = {
    1: "memory ran out",
    2: "an array has another length than is needed",
    3: "there is room for fewer claims than are needed",
    4: "the workers are not from 1 to 4,096",
    10: "there is no node",
    11: "there are more than 1,000,000 tasks",
    12: "a parent is no node",
    13: "a time is 0",
    14: "a size is greater than 2^40",
    15: "a time is greater than 2^40",
    16: "all sizes together are greater than 2^60",
    17: "the parents lead to no root, or the tasks wait for each other",
    18: "a share does not fit",
    20: "no task has this number",
    21: "a task stands twice",
    22: "a task stands before one that produces what it consumes",
    23: "the order ends before every task has run",
    30: "the bound is below the peak of the order",
    31: "a step needs more for itself than the bound",
    40: "the order has more than 1,000,000 places",
    41: "the peak is greater than 2^60",
    42: "there are more than 4,000,001 claims",
    43: "a claim is out of place or past a limit",
    44: "the order has another peak",
    45: "no claim on the whole is strong enough",
    46: "a claim does not meet its rule",
    50: "there are more than 4,000,001 items",
    51: "an item is produced or consumed by no task",
    52: "the size of an item is greater than 2^40",
    53: "there are more than 10,000,000 readers",
    54: "there are not as many readers as the items say",
    55: "a reader of an item is no task",
    56: "an item is read by the task that produces it",
    57: "the readers of an item do not rise",
    60: "the base is neither 0 nor 1",
    61: "there is no column",
    62: "there are more than 1,000,000 columns",
    63: "there are more than 10,000,000 entries",
    64: "a column starts before the one before it, or the first one not at the base",
    65: "the starts tell another number of entries than there are rows",
    66: "the row of an entry is none",
    67: "the order has not as many places as there are columns",
    68: "the order names a column that is none",
    69: "the order names a column twice",
    70: "more than 50,000 columns are not ordered by minimum degree",
    71: "no shape has this number",
    72: "there is room for fewer nodes than there are fronts",
    73: "there are not as many fronts of columns as columns",
    74: "the front of a column is none of those in the order",
}


_USAGE, _NO_MEMORY, _CLAIM_ROOM = 2, 8, 3


class Refused(ValueError):
    """A call was refused.

    ``status``, ``kind``, ``at`` and ``value`` are those of ``memplan.h``: ``at`` counts from 1, and is 0 where the kind has no place.

    >>> try:
    ...     plan([2, 3], [1, 1], [0, 0])
    ... except Refused as refusal:
    ...     print(refusal, refusal.status, refusal.kind, refusal.at)
    a parent is no node at 2 3 12 2
    """

    def __init__(self, status: int, fault: _Fault) -> None:
        self.status = status
        self.kind: int = fault.kind
        self.at: int = fault.at
        self.value: int = fault.value
        place = f" at {self.at}" if self.at else ""
        told = f" ({self.value})" if self.value else ""
        super().__init__(_KINDS.get(self.kind, "refused") + place + told)


class Certificate(NamedTuple):
    """A plan with the claims that certify it; claims are tuples (position, backward, bound, rest)."""

    order: Union[Array, Sequence[int]]
    peak: int
    claims: List[Tuple[int, int, int, int]]


class Fronts(NamedTuple):
    """The tree of the fronts of a matrix, as `plan` and the other calls take it, and the front of each column.

    Nodes are numbered from 1: ``front_of[j]`` is the number of the node whose front has column j, which counts from 0. The columns, in the
    order in which they were to be eliminated, sorted by their fronts are an order of elimination with these fronts. ``columns`` says how
    many columns each front has.
    """

    parent: Array
    out: Array
    extra: Array
    share: Array
    columns: Array
    front_of: Array


class Analysis(NamedTuple):
    """The fronts of a matrix, as in `Fronts`, and in ``order`` its columns, from 0, as the analysis numbers them: along the postorder of the
    elimination tree. It has the fill of the order that was analysed, and the columns of each front come after those of its children."""

    parent: Array
    out: Array
    extra: Array
    share: Array
    columns: Array
    front_of: Array
    order: Array


class SharedItem(NamedTuple):
    """An item that any number of tasks read: its size; the task that produces it, from 1, or 0 where it is there from the start; and the
    tasks that read it, which rise. Without readers it stays to the end."""

    size: int
    from_: int
    readers: Sequence[int] = ()


EFFORT = 1_000_000_000
"""The effort of `plan_shared` where nothing else is said: that of the program's command ``plan`` for a task graph."""


class SharedPlan(NamedTuple):
    """An order of tasks, its peak, and a bound that no order has a peak below."""

    order: Array
    peak: int
    bound: int

    @property
    def is_least(self) -> bool:
        """Whether the bound shows that no order has a lower peak. Where it does not, the peak may still be least.

        >>> SharedPlan([1, 2], peak=9, bound=7).is_least
        False
        """
        return self.bound == self.peak


_Signature = Tuple[Any, List[Any]]  # a call's result and its arguments


def _signatures() -> Tuple[Dict[str, _Signature], Dict[str, _Signature]]:
    """The result and the arguments of each call: of those that plan or begin a core, and of those on a core."""
    size, u32, u64 = ctypes.c_size_t, ctypes.c_uint32, ctypes.c_uint64
    nodes: List[Any] = [ctypes.POINTER(_Node), size]
    order: List[Any] = [ctypes.POINTER(u32), size]
    claims: List[Any] = [ctypes.POINTER(_Claim), size]
    system: List[Any] = [ctypes.POINTER(_Task), size, ctypes.POINTER(_Item), size]
    shared: List[Any] = [ctypes.POINTER(_Task), size, ctypes.POINTER(_SharedItem), size, ctypes.POINTER(u32), size]
    number: List[Any] = [ctypes.POINTER(u64)]
    fault: List[Any] = [ctypes.POINTER(_Fault)]
    options: List[Any] = [ctypes.POINTER(_FrontOptions)]
    core: List[Any] = [ctypes.c_void_p]
    plans: Dict[str, _Signature] = {
        "version": (ctypes.c_char_p, []),
        "plan_tree": (u32, nodes + order + number + fault),
        "best_postorder": (u32, nodes + order + number + fault),
        "replay_tree": (u32, nodes + order + number + fault),
        "certify_tree": (u32, nodes + order + number + claims + number + fault),
        "check_tree": (u32, nodes + order + [u64] + claims + fault),
        "spill_tree": (u32, nodes + order + [u64, ctypes.POINTER(u64), size] + number + fault),
        "fronts": (u32, [u32] + order + order + order + options + nodes + number + order + fault),
        "analyse": (u32, [u32] + order + order + order + options + nodes + number + order + order + fault),
        "minimum_degree": (u32, [u32] + order + order + order + fault),
        "columns": (u32, [u32] + order + order + order + order + fault),
        "replay_system": (u32, system + order + number + fault),
        "replay_shared": (u32, shared + order + number + fault),
        "plan_shared": (u32, shared + order + [u64] + order + number + number + fault),
        "core_begin": (u32, core + nodes + order + [u64, u32] + fault),
        "core_begin_system": (u32, core + system + order + [u64, u32] + fault),
        "core_begin_shared": (u32, core + shared + order + [u64, u32] + fault),
    }
    steps: Dict[str, _Signature] = {
        "core_size": (size, []),
        "core_new": (None, core),
        "core_end": (None, core),
        "core_activate": (u32, core),
        "core_next": (u32, core),
        "core_start": (u32, core + [u32]),
        "core_finish": (u32, core + [u32]),
        "core_is_startable": (u32, core + [u32]),
        "core_is_done": (u32, core + [u32]),
        "core_used": (u64, core),
        "core_booked": (u64, core),
    }
    return plans, steps


_HOW_TO_LOAD = """memplan cannot load its library: {}.
Set MEMPLAN_LIBRARY to the path of libmemplan.so, or put libmemplan.so.1 where the system's loader looks (LD_LIBRARY_PATH, or ldconfig).
`make -C c` in memplan's repository builds it, as c/build/libmemplan.so; a wheel, made there by `make wheel`, has it inside."""


def _library() -> str:
    """The library that MEMPLAN_LIBRARY names; else the one that lies where this package lies: in it, as from a wheel, or near it, as in the
    repository (once `make -C c` has built it), as in a tarball, or as `make install` puts both; else what the system's loader finds."""
    here, name = Path(__file__).resolve().parent, "libmemplan.so.1"
    above = list(here.parents)
    near = [here, *(it / part for it in above[1:2] for part in ("c/build", "lib")), *(it / "lib" for it in above[3:4])]
    found = (str(folder / name) for folder in near if (folder / name).is_file())
    return os.environ.get("MEMPLAN_LIBRARY", "") or next(found, name)


def _loaded(loader: Type[ctypes.CDLL], calls: Dict[str, _Signature]) -> ctypes.CDLL:
    path = _library()
    try:
        library = loader(path)
        for name, (result, arguments) in calls.items():
            call = getattr(library, "memplan_" + name)
            call.restype = result
            call.argtypes = arguments
    except OSError as error:
        raise ImportError(_HOW_TO_LOAD.format(error), name="memplan", path=path) from error
    except AttributeError as error:
        older = f"{error}; the library is older than this package"
        raise ImportError(_HOW_TO_LOAD.format(older), name="memplan", path=path) from error
    return library


# Plans take long, and let other threads run meanwhile; so does the beginning of a core, which no other thread has yet. The calls on a core
# are short, and keep the interpreter's lock: so they are made one at a time, as the library needs it, whichever threads make them.
_PLANS, _STEPS = _signatures()
_plans, _steps = _loaded(ctypes.CDLL, _PLANS), _loaded(ctypes.PyDLL, _STEPS)

__version__: str = _plans.memplan_version().decode()
"""The version of the library."""


def _nodes(parent: WholeNumbers, out: WholeNumbers, extra: WholeNumbers, share: Optional[WholeNumbers]) -> Tuple[Any, int]:
    """The nodes as C has them, and how many they are."""
    columns = {"parent": column("parent[{}]", parent, U32), "out": column("out[{}]", out, U64), "extra": column("extra[{}]", extra, U64)}
    if share is not None:
        columns["share"] = column("share[{}]", share, U64)
    count = len(columns["parent"])
    if any(len(values) != count for values in columns.values()):
        raise ValueError("parent, out, extra and share have different lengths")
    return structures(_Node, count, **columns, time=_ones(count)), count


def _ones(count: int) -> memoryview:
    """The times of so many tasks, which no call uses."""
    return memoryview(array(U64.letter, [1]) * count if numpy is None else numpy.broadcast_to(numpy.uint64(1), count))


def _answer(status: int, fault: _Fault) -> None:
    if status == _NO_MEMORY:
        raise MemoryError("memplan: memory ran out")
    if status:
        raise Refused(status, fault)


def _order_of(call: Any, parent: Any, out: Any, extra: Any, share: Any) -> Tuple[Array, int]:
    nodes, count = _nodes(parent, out, extra, share)
    order, peak, fault = (ctypes.c_uint32 * max(count, 1))(), ctypes.c_uint64(), _Fault()
    _answer(call(nodes, count, order, count, ctypes.byref(peak), ctypes.byref(fault)), fault)
    return back(view(order, count)), peak.value


def plan(
    parent: WholeNumbers, out: WholeNumbers, extra: WholeNumbers, share: Optional[WholeNumbers] = None
) -> Tuple[Array, int]:
    """A traversal of least peak of a tree: the numbers of its nodes, from 1, and the peak.

    ``parent`` has the number of each node's parent, 0 at a root; ``out`` what it leaves to its parent; ``extra`` what it needs beside
    that while it runs; ``share`` what it takes over from the blocks of its children.

    >>> order, peak = plan([2, 5, 4, 5, 0], [1, 5, 1, 5, 0], [9, 0, 9, 0, 0])
    >>> peak, replay([2, 5, 4, 5, 0], [1, 5, 1, 5, 0], [9, 0, 9, 0, 0], order)
    (11, 11)
    """
    return _order_of(_plans.memplan_plan_tree, parent, out, extra, share)


def best_postorder(
    parent: WholeNumbers, out: WholeNumbers, extra: WholeNumbers, share: Optional[WholeNumbers] = None
) -> Tuple[Array, int]:
    """The best postorder of a tree, and its peak.

    >>> order, peak = best_postorder([2, 5, 4, 5, 0], [1, 5, 1, 5, 0], [9, 0, 9, 0, 0])
    >>> list(map(int, order)), peak
    ([1, 2, 3, 4, 5], 15)
    """
    return _order_of(_plans.memplan_best_postorder, parent, out, extra, share)


def replay(
    parent: WholeNumbers, out: WholeNumbers, extra: WholeNumbers, order: WholeNumbers, share: Optional[WholeNumbers] = None
) -> int:
    """The peak of an order of a tree; `Refused` with the first place at which it is no traversal.

    >>> replay([2, 5, 4, 5, 0], [1, 5, 1, 5, 0], [9, 0, 9, 0, 0], [1, 2, 3, 4, 5])
    15
    """
    (nodes, count), (places, length) = _nodes(parent, out, extra, share), numbers("order[{}]", order)
    peak, fault = ctypes.c_uint64(), _Fault()
    _answer(_plans.memplan_replay_tree(nodes, count, places, length, ctypes.byref(peak), ctypes.byref(fault)), fault)
    return peak.value


def certify(
    parent: WholeNumbers, out: WholeNumbers, extra: WholeNumbers, share: Optional[WholeNumbers] = None
) -> Certificate:
    """A traversal of least peak with the claims that certify it, which `check` accepts.

    >>> certificate = certify([2, 5, 4, 5, 0], [1, 5, 1, 5, 0], [9, 0, 9, 0, 0])
    >>> certificate.peak, len(certificate.claims)
    (11, 4)
    """
    nodes, count = _nodes(parent, out, extra, share)
    order, peak, written, fault = (ctypes.c_uint32 * max(count, 1))(), ctypes.c_uint64(), ctypes.c_uint64(), _Fault()
    room = count + 1
    while True:
        claims = (_Claim * room)()
        status = _plans.memplan_certify_tree(
            nodes, count, order, count, ctypes.byref(peak), claims, room, ctypes.byref(written), ctypes.byref(fault)
        )
        if status != _USAGE or fault.kind != _CLAIM_ROOM:
            break
        room = fault.value  # is enough
    _answer(status, fault)
    position, backward, bound, rest = (view(claims, written.value, name).tolist() for name in fields_of(_Claim))
    return Certificate(back(view(order, count)), peak.value, list(zip(position, backward, bound, rest)))


def check(
    parent: WholeNumbers,
    out: WholeNumbers,
    extra: WholeNumbers,
    certificate: Certificate,
    share: Optional[WholeNumbers] = None,
) -> None:
    """Judges a plan of a tree by its claims, whoever made it; `Refused` with the first objection.

    All numbers are judged as they stand: one that does not fit is an error, and is not taken for another.

    >>> tree = [2, 5, 4, 5, 0], [1, 5, 1, 5, 0], [9, 0, 9, 0, 0]
    >>> check(*tree, certify(*tree))
    >>> check(*tree, certify(*tree)._replace(peak=10))
    Traceback (most recent call last):
    memplan.Refused: the order has another peak (11)
    """
    if not isinstance(certificate, Certificate):
        raise TypeError(f"certificate: a {type(certificate).__name__} is no Certificate")
    (nodes, count), (places, length) = _nodes(parent, out, extra, share), numbers("order[{}]", certificate.order)
    peak, claims = whole("peak", certificate.peak, U64), columns_of("claims", certificate.claims, _Claim)
    told, fault = len(claims[0]), _Fault()
    made = structures(_Claim, told, **dict(zip(fields_of(_Claim), claims)))
    _answer(_plans.memplan_check_tree(nodes, count, places, length, peak, made, told, ctypes.byref(fault)), fault)


def spill(
    parent: WholeNumbers,
    out: WholeNumbers,
    extra: WholeNumbers,
    order: WholeNumbers,
    bound: SupportsIndex,
    share: Optional[WholeNumbers] = None,
) -> Tuple[Array, int]:
    """What has to go to disk where an order of a tree runs within a bound: the amount of each node's block, and all together.

    >>> amounts, volume = spill([2, 5, 4, 5, 0], [1, 5, 1, 5, 0], [9, 0, 9, 0, 0], [1, 2, 3, 4, 5], bound=11)
    >>> list(map(int, amounts)), volume
    ([0, 4, 0, 0, 0], 4)
    """
    (nodes, count), (places, length) = _nodes(parent, out, extra, share), numbers("order[{}]", order)
    limit = whole("bound", bound, U64)
    amounts, volume, fault = (ctypes.c_uint64 * max(count, 1))(), ctypes.c_uint64(), _Fault()
    _answer(
        _plans.memplan_spill_tree(nodes, count, places, length, limit, amounts, count, ctypes.byref(volume), ctypes.byref(fault)),
        fault,
    )
    return back(view(amounts, count)), volume.value


_SHAPES = {"triangle": 0, "square": 1}


def _columns(matrix: Any) -> Tuple[Any, Any]:
    """Where the columns start, and the rows of their entries."""
    if isinstance(matrix, tuple) and len(matrix) == 2:
        starts, rows = matrix
        return starts, rows
    if not hasattr(matrix, "tocsc"):
        raise TypeError(
            f"matrix: taken is a sparse matrix of scipy, or the pair (indptr, indices) of its columns, and not this {type(matrix).__name__}"
        )
    if len(matrix.shape) != 2 or matrix.shape[0] != matrix.shape[1]:
        raise ValueError("matrix: it is not square")
    columns = matrix.tocsc()
    return columns.indptr, columns.indices


def _options(shape: str, in_place: bool, zeros: Optional[SupportsIndex]) -> _FrontOptions:
    if shape not in tuple(_SHAPES):
        raise ValueError(f"shape: {shape!r} is neither 'triangle' nor 'square'")
    if not isinstance(in_place, BOOLS):
        raise TypeError(f"in_place: {in_place!r} is no bool")
    return _FrontOptions(_SHAPES[shape], bool(in_place), zeros is not None, 0 if zeros is None else whole("zeros", zeros, U64))


def _of_matrix(
    call: Any,
    matrix: Matrix,
    order: Optional[WholeNumbers],
    options: _FrontOptions,
    arrays: int,
) -> List[Array]:
    """What a call makes of a matrix: the five fields of its fronts, and so many arrays with a number for each column."""
    given = _columns(matrix)
    (starts, ends), (rows, entries) = numbers("indptr[{}]", given[0]), numbers("indices[{}]", given[1])
    places, length = numbers("order[{}]", () if order is None else order)
    count = max(ends - 1, 0)
    if order is not None and length == 0 and count > 0:
        raise ValueError("order: it has no place")
    nodes, made, fault = (_Node * max(count, 1))(), ctypes.c_uint64(), _Fault()
    written = [(ctypes.c_uint32 * max(count, 1))() for _ in range(arrays)]
    outputs = [argument for array in written for argument in (array, count)]
    status = call(
        0,
        starts,
        ends,
        rows,
        entries,
        places,
        length,
        ctypes.byref(options),
        nodes,
        count,
        ctypes.byref(made),
        *outputs,
        ctypes.byref(fault),
    )
    _answer(status, fault)
    fields = [back(view(nodes, made.value, name)) for name in fields_of(_Node)]
    return fields + [back(view(array, count)) for array in written]


def fronts(
    matrix: Matrix,
    order: Optional[WholeNumbers] = None,
    shape: Literal["triangle", "square"] = "triangle",
    in_place: bool = False,
    zeros: Optional[SupportsIndex] = None,
) -> Fronts:
    """The fronts of a sparse symmetric matrix that is eliminated in an order, as a multifrontal solver makes them.

    ``matrix`` is a sparse matrix of scipy, or the pair of its ``indptr`` and ``indices`` by columns; its lower triangle, the upper one, or
    both. ``order`` has its columns, from 0, in the order in which they are eliminated; with none it is that of minimum degree.
    ``shape`` says what is kept of fronts and blocks, ``"triangle"`` or ``"square"``; ``in_place``, that a front is built over the greatest
    block of its children; ``zeros``, how many explicit zeros a merge of two fronts may add, and with none no fronts are merged.

    >>> made = fronts(([0, 3, 3, 3, 3], [1, 2, 3]))
    >>> list(map(int, made.parent)), list(map(int, made.front_of))
    ([3, 3, 0], [3, 1, 2, 3])
    """
    return Fronts(*_of_matrix(_plans.memplan_fronts, matrix, order, _options(shape, in_place, zeros), 1))


def analyse(
    matrix: Matrix,
    order: Optional[WholeNumbers] = None,
    shape: Literal["triangle", "square"] = "triangle",
    in_place: bool = False,
    zeros: Optional[SupportsIndex] = None,
) -> Analysis:
    """The fronts of a matrix, as `fronts` makes them, and its columns in the order in which their analysis numbers them.

    >>> arrow = [0, 3, 3, 3, 3], [1, 2, 3]
    >>> made = analyse(arrow)
    >>> [int(column) for column in made.order], [int(front) for front in made.front_of]
    ([1, 2, 0, 3], [3, 1, 2, 3])
    """
    return Analysis(*_of_matrix(_plans.memplan_analyse, matrix, order, _options(shape, in_place, zeros), 2))


def minimum_degree(matrix: Matrix) -> Array:
    """The columns of a sparse symmetric matrix, from 0, in the order of minimum degree, which `fronts` takes where none is given: at each turn
    one of least degree, and of several the one of least number.

    >>> [int(column) for column in minimum_degree(([0, 3, 3, 3, 3], [1, 2, 3]))]
    [1, 2, 0, 3]
    """
    given = _columns(matrix)
    (starts, ends), (rows, entries) = numbers("indptr[{}]", given[0]), numbers("indices[{}]", given[1])
    count = max(ends - 1, 0)
    found, fault = (ctypes.c_uint32 * max(count, 1))(), _Fault()
    _answer(_plans.memplan_minimum_degree(0, starts, ends, rows, entries, found, count, ctypes.byref(fault)), fault)
    return back(view(found, count))


def columns(order: WholeNumbers, front_of: WholeNumbers, fronts: WholeNumbers) -> Array:
    """An order of the fronts as an order of elimination, for a solver: the columns of each front, in the order in which they stand in
    ``order``, one front after another.

    ``order`` and ``front_of`` are those of `analyse`, and ``fronts`` is an order of its fronts, as `plan` or `best_postorder` gives it. The
    new order has the same fill, and a solver whose postorder takes children by rising number makes fronts in a postorder, none of them
    merged, in just that order.

    >>> made = analyse(([0, 3, 3, 3, 3], [1, 2, 3]))
    >>> [int(column) for column in columns(made.order, made.front_of, [2, 1, 3])]
    [2, 1, 0, 3]
    """
    (given, count), (of, of_columns) = numbers("order[{}]", order), numbers("front_of[{}]", front_of)
    places, length = numbers("fronts[{}]", fronts)
    along, fault = (ctypes.c_uint32 * max(count, 1))(), _Fault()
    status = _plans.memplan_columns(0, given, count, of, of_columns, places, length, along, count, ctypes.byref(fault))
    _answer(status, fault)
    return back(view(along, count))


def _system(tasks: WholeNumbers, items: Rows) -> Tuple[Any, int, Any, int]:
    """The tasks and the items as C has them, and how many they are."""
    extras, (sizes, suppliers, consumers) = column("tasks[{}]", tasks, U64), columns_of("items", items, _Item)
    made = structures(_Task, len(extras), extra=extras, time=_ones(len(extras)))
    return made, len(extras), structures(_Item, len(sizes), size=sizes, from_=suppliers, to=consumers), len(sizes)


def replay_system(tasks: WholeNumbers, items: Rows, order: WholeNumbers) -> int:
    """The peak of an order of tasks that hand items to each other: the extra of each task, and items (size, from, to), 0 for none.

    >>> replay_system([0, 0, 2, 0], [(6, 0, 1), (3, 1, 2), (4, 1, 3), (2, 2, 4), (5, 3, 4), (1, 4, 0)], [1, 2, 3, 4])
    13
    """
    system, (places, length) = _system(tasks, items), numbers("order[{}]", order)
    peak, fault = ctypes.c_uint64(), _Fault()
    _answer(_plans.memplan_replay_system(*system, places, length, ctypes.byref(peak), ctypes.byref(fault)), fault)
    return peak.value


def _shared(tasks: WholeNumbers, items: SharedItems) -> Tuple[Any, int, Any, int, Any, int]:
    """The tasks, the items and the readers of all items as C has them, and how many they are."""
    extras = column("tasks[{}]", tasks, U64)
    (sizes, suppliers, counts), readers = columns_with_lists("items", items, _SharedItem)
    made = structures(_Task, len(extras), extra=extras, time=_ones(len(extras)))
    listed = structures(_SharedItem, len(sizes), size=sizes, from_=suppliers, readers=counts)
    return made, len(extras), listed, len(sizes), *for_c(readers)


def replay_shared(tasks: WholeNumbers, items: SharedItems, order: WholeNumbers) -> int:
    """The peak of an order of tasks that hand items to each other, each to any number of readers: the extra of each task, and items
    (size, from, readers), as `SharedItem` is one. An item counts once, until the last of its readers has run.

    >>> replay_shared([6, 1, 0, 0], [(10, 0, [1, 2, 3]), (3, 1, [4]), (4, 2, [4]), (5, 3, [4]), (2, 4, [])], [1, 2, 3, 4])
    22
    """
    system, (places, length) = _shared(tasks, items), numbers("order[{}]", order)
    peak, fault = ctypes.c_uint64(), _Fault()
    _answer(_plans.memplan_replay_shared(*system, places, length, ctypes.byref(peak), ctypes.byref(fault)), fault)
    return peak.value


def plan_shared(
    tasks: WholeNumbers, items: SharedItems, start: Optional[WholeNumbers] = None, effort: SupportsIndex = EFFORT
) -> SharedPlan:
    """A plan of tasks that hand items to each other, as in `replay_shared`: an order, its peak, and a bound that no order has a peak below.

    Where a series-parallel term tells the orders of the tasks, the peak is least, and the bound is the peak, whatever the effort. Elsewhere
    ``effort`` says how much is searched for an order and a bound: about so many steps for a thousand tasks, some 100 million a second, and
    more for more tasks. The plan begins with ``start``, if that is given, and its peak is not above that order's; `Refused` with the first
    place at which that is no traversal.

    >>> made = plan_shared([6, 1, 0, 0], [(10, 0, [1, 2, 3]), (3, 1, [4]), (4, 2, [4]), (5, 3, [4]), (2, 4, [])])
    >>> made.peak, made.is_least
    (22, True)
    """
    system, (places, length) = _shared(tasks, items), numbers("start[{}]", () if start is None else start)
    steps, count = whole("effort", effort, U64), system[1]
    if start is not None and length == 0 and count > 0:
        raise ValueError("start: it has no place")
    order, peak, bound, fault = (ctypes.c_uint32 * max(count, 1))(), ctypes.c_uint64(), ctypes.c_uint64(), _Fault()
    found = ctypes.byref(peak), ctypes.byref(bound), ctypes.byref(fault)
    _answer(_plans.memplan_plan_shared(*system, places, length, steps, order, count, *found), fault)
    return SharedPlan(back(view(order, count)), peak.value, bound.value)


class Core:
    """The activation core: tasks on several workers within a bound on memory.

    >>> core = Core.of_tree([2, 5, 4, 5, 0], [1, 5, 1, 5, 0], [9, 0, 9, 0, 0], order=[1, 3, 2, 4, 5], bound=20, workers=4)
    >>> ready = []
    >>> while task := core.activate():
    ...     ready.append(task)
    >>> ready, core.booked
    ([1, 3], 20)
    >>> core.start(1), core.start(3), core.used
    (True, True, 20)
    >>> core.finish(1), core.is_done(1), core.used
    (True, True, 11)

    Several threads may call one core: its calls keep the interpreter's lock, so that each is made by itself. A core cannot be copied.
    """

    _end = _steps.memplan_core_end

    def __init__(self) -> None:
        self._room = (ctypes.c_uint64 * (_steps.memplan_core_size() // 8 + 1))()
        at = ctypes.addressof(self._room)
        _steps.memplan_core_new(at)
        self._at = at

    @classmethod
    def of_tree(
        cls,
        parent: WholeNumbers,
        out: WholeNumbers,
        extra: WholeNumbers,
        order: WholeNumbers,
        bound: SupportsIndex,
        workers: SupportsIndex,
        share: Optional[WholeNumbers] = None,
    ) -> "Core":
        """A core for a tree, activated in an order; `Refused` where the order is none, or the bound is below its peak.

        >>> Core.of_tree([0], [4], [2], order=[1], bound=5, workers=1)
        Traceback (most recent call last):
        memplan.Refused: the bound is below the peak of the order (6)
        """
        return cls._begun(_plans.memplan_core_begin, _nodes(parent, out, extra, share), order, bound, workers)

    @classmethod
    def of_system(
        cls,
        tasks: WholeNumbers,
        items: Rows,
        order: WholeNumbers,
        bound: SupportsIndex,
        workers: SupportsIndex,
    ) -> "Core":
        """A core for tasks that hand items to each other, as in `replay_system`.

        >>> Core.of_system([2], [(3, 0, 1)], order=[1], bound=5, workers=1).used
        3
        """
        return cls._begun(_plans.memplan_core_begin_system, _system(tasks, items), order, bound, workers)

    @classmethod
    def of_shared(
        cls,
        tasks: WholeNumbers,
        items: SharedItems,
        order: WholeNumbers,
        bound: SupportsIndex,
        workers: SupportsIndex,
    ) -> "Core":
        """A core for tasks that hand items to each other, each to any number of readers, as in `replay_shared`.

        >>> Core.of_shared([0, 0], [(3, 0, [1, 2])], order=[1, 2], bound=3, workers=2).used
        3
        """
        return cls._begun(_plans.memplan_core_begin_shared, _shared(tasks, items), order, bound, workers)

    @classmethod
    def _begun(cls, begin: Any, work: Tuple[Any, ...], order: WholeNumbers, bound: Any, workers: Any) -> "Core":
        places, length = numbers("order[{}]", order)
        limits = whole("bound", bound, U64), whole("workers", workers, U32)
        core, fault = cls(), _Fault()
        _answer(begin(core._at, *work, places, length, *limits, ctypes.byref(fault)), fault)
        return core

    def activate(self) -> int:
        """Activates the next task of the order, where its need fits: its number, or 0.

        >>> core = Core.of_tree([0, 0], [4, 4], [2, 2], order=[2, 1], bound=10, workers=2)
        >>> core.activate(), core.activate()
        (2, 0)
        """
        return int(_steps.memplan_core_activate(self._at))

    def next(self) -> int:
        """Of the tasks that may start now the one that stands first in the order: its number, or 0. Constant time; it changes nothing.

        >>> core = Core.of_tree([0], [4], [2], order=[1], bound=6, workers=1)
        >>> core.next(), core.activate(), core.next(), core.start(1), core.next()
        (0, 1, 1, True, 0)
        """
        return int(_steps.memplan_core_next(self._at))

    def start(self, task: SupportsIndex) -> bool:
        """Starts a task, where it may start.

        >>> core = Core.of_tree([0], [4], [2], order=[1], bound=6, workers=1)
        >>> core.start(1), core.activate(), core.start(1)
        (False, 1, True)
        """
        return bool(_steps.memplan_core_start(self._at, whole("task", task, U32)) == 1)

    def finish(self, task: SupportsIndex) -> bool:
        """Ends a task, where it runs.

        >>> core = Core.of_tree([0], [4], [2], order=[1], bound=6, workers=1)
        >>> core.finish(1), core.activate(), core.start(1), core.finish(1)
        (False, 1, True, True)
        """
        return bool(_steps.memplan_core_finish(self._at, whole("task", task, U32)) == 1)

    def is_startable(self, task: SupportsIndex) -> bool:
        """Whether `start` would answer yes.

        >>> core = Core.of_tree([0], [4], [2], order=[1], bound=6, workers=1)
        >>> core.is_startable(1), core.activate(), core.is_startable(1)
        (False, 1, True)
        """
        return bool(_steps.memplan_core_is_startable(self._at, whole("task", task, U32)) == 1)

    def is_done(self, task: SupportsIndex) -> bool:
        """Whether a task is done.

        >>> Core.of_tree([0], [4], [2], order=[1], bound=6, workers=1).is_done(1)
        False
        """
        return bool(_steps.memplan_core_is_done(self._at, whole("task", task, U32)) == 1)

    @property
    def used(self) -> int:
        """The items that are present, and the needs of the running tasks.

        >>> Core.of_system([2], [(3, 0, 1)], order=[1], bound=5, workers=1).used
        3
        """
        return int(_steps.memplan_core_used(self._at))

    @property
    def booked(self) -> int:
        """The items that are present, and the needs of the activated tasks that are not done.

        >>> core = Core.of_system([2], [(3, 0, 1)], order=[1], bound=5, workers=1)
        >>> core.activate(), core.booked
        (1, 5)
        """
        return int(_steps.memplan_core_booked(self._at))

    def __reduce_ex__(self, protocol: Any) -> NoReturn:
        """What copies and pickles ask for: a copy would be the same place in memory, which both would free."""
        raise TypeError("a Core cannot be copied or pickled: it is a place in memory that it frees itself")

    def __del__(self) -> None:
        at = self.__dict__.pop("_at", None)  # none where its making was cut short
        if at is not None:
            self._end(at)


# The objects stand over what is above.
from ._refusals import TaskRefused  # noqa: E402
from ._texts import FormatError  # noqa: E402
from .graphs import Graph  # noqa: E402
from .results import (  # noqa: E402
    Blockers,
    Bound,
    Claims,
    Fences,
    FrontRows,
    Gap,
    Gaps,
    Item,
    Join,
    Need,
    Plan,
    Readers,
    Segments,
    Simulation,
    Spill,
    Stairs,
    States,
)
from .trees import Tree  # noqa: E402
from .workflows import Workflow  # noqa: E402
