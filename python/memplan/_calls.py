"""The calls of the library over columns, with the shares and the times of tasks, and the readers of all items in one array."""

from __future__ import annotations

import ctypes
from typing import Any, NamedTuple, Sequence, Tuple

from . import _answer, _Claim, _Fault, _Node, _plans, _SharedItem, _Task
from ._arrays import frozen
from ._numbers import I64, U32, U64, column, fields_of, for_c, room, structures, view
from ._types import Array
from .results import Claims


class Nodes(NamedTuple):
    nodes: Any
    length: int


class System(NamedTuple):
    """The tasks, the items, and the readers of all items."""

    tasks: Any
    length: int
    items: Any
    item_length: int
    readers: Any
    reader_length: int


def nodes_of(parent: Array, out: Array, extra: Array, share: Array, time: Array) -> Nodes:
    sizes = {name: column("{}", values, U64) for name, values in (("out", out), ("extra", extra), ("share", share), ("time", time))}
    return Nodes(structures(_Node, len(parent), parent=column("{}", parent, U32), **sizes), len(parent))


def system_of(
    extra: Array, share: Array, time: Array, size: Array, producer: Array, counts: Sequence[int], readers: Array
) -> System:
    sizes = {name: column("{}", values, U64) for name, values in (("extra", extra), ("share", share), ("time", time))}
    tasks = structures(_Task, len(extra), **sizes)
    named = {"size": column("{}", size, U64), "from_": column("{}", producer, U32), "readers": column("{}", counts, U32)}
    return System(tasks, len(extra), structures(_SharedItem, len(size), **named), len(size), *for_c(column("{}", readers, U32)))


def _order_of(call: Any, nodes: Nodes) -> Tuple[Array, int]:
    order, peak, fault = room(ctypes.c_uint32, nodes.length), ctypes.c_uint64(), _Fault()
    _answer(call(*nodes, order, nodes.length, ctypes.byref(peak), ctypes.byref(fault)), fault)
    return frozen(view(order, nodes.length)), peak.value


def plan_tree(nodes: Nodes) -> Tuple[Array, int]:
    return _order_of(_plans.memplan_plan_tree, nodes)


def best_postorder(nodes: Nodes) -> Tuple[Array, int]:
    return _order_of(_plans.memplan_best_postorder, nodes)


def certify_tree(nodes: Nodes) -> Tuple[Array, int, Claims]:
    order, peak, written, fault = room(ctypes.c_uint32, nodes.length), ctypes.c_uint64(), ctypes.c_uint64(), _Fault()
    most = 3 * nodes.length + 1  # is always enough
    claims = room(_Claim, most)
    told = ctypes.byref(peak), claims, most, ctypes.byref(written), ctypes.byref(fault)
    _answer(_plans.memplan_certify_tree(*nodes, order, nodes.length, *told), fault)
    columns = [frozen(view(claims, written.value, name)) for name in fields_of(_Claim)]
    return frozen(view(order, nodes.length)), peak.value, Claims(*columns)


def check_tree(nodes: Nodes, order: memoryview, peak: int, claims: Claims) -> None:
    widths = zip(fields_of(_Claim), claims, (U32, U32, I64, U64))
    columns = {name: column(f"claims.{name}[{{}}]", values, width) for name, values, width in widths}
    count, fault = len(claims.position), _Fault()
    if any(len(values) != count for values in columns.values()):
        raise ValueError("claims: their columns have different lengths")
    made = structures(_Claim, count, **columns)
    _answer(_plans.memplan_check_tree(*nodes, *for_c(order), peak, made, count, ctypes.byref(fault)), fault)


def replay_tree(nodes: Nodes, order: memoryview) -> int:
    peak, fault = ctypes.c_uint64(), _Fault()
    _answer(_plans.memplan_replay_tree(*nodes, *for_c(order), ctypes.byref(peak), ctypes.byref(fault)), fault)
    return peak.value


def spill_tree(nodes: Nodes, order: memoryview, bound: int) -> Tuple[Array, int]:
    amounts, volume, fault = room(ctypes.c_uint64, nodes.length), ctypes.c_uint64(), _Fault()
    told = bound, amounts, nodes.length, ctypes.byref(volume), ctypes.byref(fault)
    _answer(_plans.memplan_spill_tree(*nodes, *for_c(order), *told), fault)
    return frozen(view(amounts, nodes.length)), volume.value


def replay_shared(system: System, order: memoryview) -> int:
    peak, fault = ctypes.c_uint64(), _Fault()
    _answer(_plans.memplan_replay_shared(*system, *for_c(order), ctypes.byref(peak), ctypes.byref(fault)), fault)
    return peak.value


def plan_shared(system: System, start: memoryview, effort: int) -> Tuple[Array, int, int]:
    order, peak, bound, fault = room(ctypes.c_uint32, system.length), ctypes.c_uint64(), ctypes.c_uint64(), _Fault()
    found = ctypes.byref(peak), ctypes.byref(bound), ctypes.byref(fault)
    _answer(_plans.memplan_plan_shared(*system, *for_c(start), effort, order, system.length, *found), fault)
    return frozen(view(order, system.length)), peak.value, bound.value
