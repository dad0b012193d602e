"""What the calls take and give, in words for type checkers. Nothing here is asked when a call is made: `_numbers` judges what comes."""

from __future__ import annotations

from typing import TYPE_CHECKING, Any, Iterator, List, Protocol, Sequence, SupportsIndex, Tuple, Union

if TYPE_CHECKING:
    from numpy import dtype, int64, ndarray

    Array = ndarray[Any, dtype[int64]]
else:
    Array = Any
"""What comes back: an array of numpy, or where there is none a list. A checker that finds no numpy takes it for anything."""


class WholeNumbers(Protocol):
    """A list, a tuple or an array of numpy: whole numbers that stand in places, as those of a set do not."""

    def __len__(self) -> int: ...

    def __iter__(self) -> Iterator[SupportsIndex]: ...

    def __getitem__(self, place: int, /) -> Any: ...


class Rows(Protocol):
    """Tuples of whole numbers, or an array of numpy with a row for each."""

    def __len__(self) -> int: ...

    def __iter__(self) -> Iterator[WholeNumbers]: ...

    def __getitem__(self, place: int, /) -> Any: ...


SharedItems = Sequence[Tuple[SupportsIndex, SupportsIndex, WholeNumbers]]
"""Tuples (size, from, readers), as `SharedItem` is one."""


class SparseMatrix(Protocol):
    """A sparse matrix or array of scipy, of any format."""

    @property
    def shape(self) -> Tuple[int, ...]: ...

    def tocsc(self) -> Any: ...


Matrix = Union[SparseMatrix, Tuple[WholeNumbers, WholeNumbers]]

Tasks = Union[Array, List[Any]]
"""Tasks as the caller calls them: an array of their numbers, or a list of their names."""

Axes = Any
"""Those of matplotlib, whose types are not asked for."""
