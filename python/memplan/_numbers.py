"""Whole numbers on their way to C and back. C would take a fraction, a bool, or a number that does not fit its field, for another number:
such values are refused here, by their names. The same holds with numpy and without it."""

from __future__ import annotations

import ctypes
import reprlib
from array import array
from collections.abc import Mapping, Set
from importlib import import_module
from operator import index
from typing import Any, Dict, List, NamedTuple, Optional, Sequence, Tuple, Type

from ._types import Array

numpy: Any
try:
    numpy = import_module("numpy")
except ImportError:
    numpy = None


class Width(NamedTuple):
    """Which numbers a field of C holds, and its letter for `array.array`, `memoryview` and numpy."""

    letter: str
    least: int
    most: int
    words: str


U32 = Width("I", 0, (1 << 32) - 1, "32 bits")
U64 = Width("Q", 0, (1 << 64) - 1, "64 bits")
I64 = Width("q", -(1 << 63), (1 << 63) - 1, "64 bits with a sign")

_WIDTHS: Dict[Any, Width] = {ctypes.c_uint32: U32, ctypes.c_uint64: U64, ctypes.c_int64: I64}

BOOLS: Tuple[type, ...] = (bool,) if numpy is None else (bool, numpy.bool_)
_BLOCK = 4096
_ROWS: Tuple[type, ...] = (tuple, list) if numpy is None else (tuple, list, numpy.ndarray)


def whole(name: str, value: Any, width: Width) -> int:
    """The value as an int, where it is a whole number that fits."""
    number = value if type(value) is int else _index(value)
    if number is None:
        raise TypeError(f"{name}: {reprlib.repr(value)} is no whole number")
    if width.least <= number <= width.most:
        return number
    raise OverflowError(f"{name}: {_unfit(number, width)}{_hint(name, number)}")


def _index(value: Any) -> Optional[int]:
    """The whole number that a value is, if it is one."""
    if not _is_whole(type(value)):
        return None
    try:
        return index(value)
    except TypeError:
        return None  # as of an array of numpy


def _unfit(number: int, width: Width) -> str:
    if number.bit_length() > 128:
        return f"a number of {number.bit_length()} bits does not fit {width.words}"
    return f"{number} is negative" if width.least == 0 > number else f"{number} does not fit {width.words}"


def _hint(name: str, number: int) -> str:
    return "; the parent of a root is 0" if number == -1 and name.startswith("parent[") else ""


def column(name: str, values: Any, width: Width) -> memoryview:
    """The values as C has them, which an array of numpy may have already: then nothing is copied. ``name`` is that of the value at a place,
    which stands for its braces: ``extra[{}]``."""
    if numpy is not None and isinstance(values, numpy.ndarray) and _is_column(values, width):
        is_as_wide = values.dtype.isnative and values.itemsize == numpy.dtype(width.letter).itemsize
        return memoryview(values.view(width.letter) if is_as_wide else values.astype(width.letter))
    given = _listed(name, values)
    kinds = set(map(type, given))
    if all(map(_is_whole, kinds)):
        try:
            return memoryview(array(width.letter, given if kinds == {int} else map(index, given)))
        except (OverflowError, TypeError):
            pass  # which value it is, and why, is told below
    return memoryview(array(width.letter, [whole(name.format(at), value, width) for at, value in enumerate(given)]))


def _is_column(values: Any, width: Width) -> bool:
    """Whether an array of numpy has whole numbers alone, which fit."""
    if values.ndim != 1 or values.dtype.kind not in "iu":
        return False
    return values.size == 0 or width.least <= int(values.min()) <= int(values.max()) <= width.most


def _is_whole(kind: type) -> bool:
    """Whether the values of a type are whole numbers, and not bools."""
    return kind is int or (hasattr(kind, "__index__") and not issubclass(kind, BOOLS))


def _listed(name: str, values: Any) -> Sequence[Any]:
    if isinstance(values, (list, tuple)):
        return values
    if hasattr(values, "__len__") and not isinstance(values, (str, bytes, Mapping, Set)):
        try:
            return list(values)
        except TypeError:
            pass  # as of an array of numpy without dimensions
    whole_name, _, _ = name.partition("[{}]")
    raise TypeError(f"{whole_name}: {reprlib.repr(values)} is no list or array of whole numbers")


def fields_of(kind: Any) -> Dict[str, Any]:
    """The fields of a structure of C, and the type of each."""
    return dict(kind._fields_)


def columns_of(name: str, rows: Any, kind: Type[ctypes.Structure]) -> List[memoryview]:
    """The columns of rows that have a number for each field of a structure."""
    fields = [(field.rstrip("_"), _WIDTHS[its]) for field, its in fields_of(kind).items()]
    turned = _turned(name, rows, [field for field, _ in fields], "numbers")
    return [column(f"{name}[{{}}].{field}", values, width) for (field, width), values in zip(fields, turned)]


def columns_with_lists(name: str, rows: Any, kind: Type[ctypes.Structure]) -> Tuple[List[memoryview], memoryview]:
    """The same of rows whose last part is a list of numbers of 32 bits, of which the structure has the length; and all lists, one after the
    other."""
    *fields, (last, _) = [(field.rstrip("_"), _WIDTHS[its]) for field, its in fields_of(kind).items()]
    *turned, lists = _turned(name, rows, [*(field for field, _ in fields), last], "parts")
    columns = [column(f"{name}[{{}}].{field}", values, width) for (field, width), values in zip(fields, turned)]
    together = _together(f"{name}[{{}}].{last}", lists)
    return [*columns, memoryview(array(U32.letter, map(len, lists)))], together


def _together(name: str, lists: Sequence[Any]) -> memoryview:
    """All numbers of the lists. They are looked at all together, which is faster, and list by list to name one that is wrong."""
    if set(map(type, lists)) <= {list, tuple}:
        try:
            return column("{}", [number for values in lists for number in values], U32)
        except (TypeError, OverflowError):
            pass
    made = array(U32.letter)
    for at, values in enumerate(lists):
        made.extend(column(name.format(at) + "[{}]", values, U32).tolist())
    return memoryview(made)


def _turned(name: str, rows: Any, fields: Sequence[str], parts: str) -> Sequence[Sequence[Any]]:
    """The columns of rows that have so many parts."""
    wanted = "(" + ", ".join(fields) + ")"
    if not isinstance(rows, _ROWS):
        raise TypeError(f"{name}: {reprlib.repr(rows)} is no list of tuples {wanted}")
    for at, row in enumerate(rows):
        if not isinstance(row, _ROWS):
            raise TypeError(f"{name}[{at}]: {reprlib.repr(row)} is no tuple {wanted}")
        if len(row) != len(fields):
            raise ValueError(f"{name}[{at}]: {reprlib.repr(row)} has not the {len(fields)} {parts} {wanted}")
    return [*zip(*rows)] or [()] * len(fields)


def structures(kind: Type[ctypes.Structure], count: int, **columns: memoryview) -> Any:
    """So many structures for C, from the columns of their fields; what has no column is 0. There is room for one at least."""
    if numpy is not None:
        return _structures_of_arrays(kind, count, {name: numpy.asarray(values) for name, values in columns.items()})
    made = (kind * max(count, 1))()
    for name, values in columns.items():
        view(made, count, name)[:] = values
    return made


def _structures_of_arrays(kind: Type[ctypes.Structure], count: int, columns: Dict[str, Any]) -> Any:
    """The same in the memory of an array, which is filled by as many at once as a processor has at hand."""
    rows = numpy.zeros(max(count, 1), kind)
    for start in range(0, count, _BLOCK):
        block = rows[start : start + _BLOCK]
        for name, values in columns.items():
            block[name] = values[start : start + _BLOCK]
    return (kind * len(rows)).from_buffer(rows)


def room(kind: Any, count: int) -> Any:
    """Room for so many numbers or structures, and for one at least; what of it C never writes takes no memory, where numpy is there."""
    if numpy is None:
        return (kind * max(count, 1))()
    return (kind * max(count, 1)).from_buffer(numpy.empty(max(count, 1), kind))


def numbers(name: str, values: Any) -> Tuple[Any, int]:
    """An array of C of numbers of 32 bits, with room for one at least, and how many they are."""
    return for_c(column(name, values, U32))


def for_c(given: memoryview) -> Tuple[Any, int]:
    """The same of numbers that were looked at already."""
    made = (ctypes.c_uint32 * max(len(given), 1))()
    view(made, len(given))[:] = given
    return made, len(given)


def view(made: Any, count: int, name: Optional[str] = None) -> memoryview:
    """The first elements of an array of C where they are: its numbers, or a field of its structures."""
    kind, offset = made._type_, 0
    if name is not None:
        kind, offset = fields_of(kind)[name], getattr(kind, name).offset
    size, width = ctypes.sizeof(kind), _WIDTHS[kind]
    step = ctypes.sizeof(made._type_) // size
    return memoryview(made).cast("B").cast(width.letter)[offset // size : count * step : step]


def back(seen: memoryview) -> Array:
    """What C wrote, for Python. With numpy it is signed, so that ``parent - 1`` is -1 at a root; no number is lost by that, as the
    library's sizes are at most 2^60 together."""
    listed: Any = seen.tolist() if numpy is None else seen
    made: Array = listed if numpy is None else numpy.array(listed, "int64")
    return made
