"""Columns of whole numbers as the objects keep them: arrays of numpy, int64, to which nobody writes; where there is no numpy, lists."""

from __future__ import annotations

from typing import Any, Iterable, List, Optional

from ._numbers import I64, U64, Width, column, numpy, whole
from ._types import Array, WholeNumbers

SIZE = Width(U64.letter, 0, I64.most, "63 bits")
"""Numbers that are kept as int64. The library takes none that is greater, and says so of smaller ones already."""


def kept(name: str, values: Any, width: Width = SIZE) -> Array:
    """A column of the caller's numbers, a copy; a wrong one is refused by its name, ``name[3]``, or as the name's braces say."""
    pattern = name if "{}" in name else f"{name}[{{}}]"
    seen = column(pattern, values, width)
    made: Any = seen.tolist() if numpy is None else numpy.asarray(seen)
    least, most = (min, max) if numpy is None else (numpy.min, numpy.max)
    if len(made) and not width.least <= int(least(made)) <= int(most(made)) <= width.most:
        for at, value in enumerate(seen.tolist()):
            whole(pattern.format(at), value, width)
    return frozen(made)


def frozen(values: Any) -> Array:
    """Numbers that were looked at already."""
    if numpy is None:
        return values.tolist() if isinstance(values, memoryview) else values  # type: ignore[no-any-return]
    made: Array = numpy.asarray(values).astype("int64")
    made.flags.writeable = False
    return made


def listed(values: Any) -> List[int]:
    """The numbers of a column as ints of Python."""
    ints: List[int] = values if isinstance(values, list) else values.tolist()
    return ints


def repeated(value: int, count: int) -> Array:
    """The same number so often; with numpy in one place."""
    if numpy is None:
        return frozen([value] * count)
    return numpy.broadcast_to(numpy.int64(value), count)  # type: ignore[no-any-return]


def shifted(values: Any, by: int) -> Array:
    """Each number more by so much."""
    if by == 0:
        return frozen(values) if isinstance(values, memoryview) else values  # type: ignore[no-any-return]
    if numpy is None:
        return frozen([value + by for value in values])
    return frozen(numpy.asarray(values).astype("int64") + by)


def sums(values: Iterable[int]) -> List[int]:
    """The sum of all values before each place, and of all at the end."""
    found = [0]
    for value in values:
        found.append(found[-1] + value)
    return found


def optional(name: str, values: Optional[WholeNumbers], default: int, count: int) -> Array:
    """A column of the caller's, or the same number everywhere."""
    return repeated(default, count) if values is None else kept(name, values)
