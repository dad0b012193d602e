"""What the caller calls tasks: by numbers, or by names of the caller's own. Files and the library number them from 1."""

from __future__ import annotations

import reprlib
from array import array
from collections.abc import Mapping, Set
from dataclasses import dataclass
from types import MappingProxyType
from typing import Any, Dict, Hashable, Iterable, List, Optional, SupportsIndex, Tuple

from ._arrays import SIZE, frozen, listed, shifted
from ._numbers import U32, column, numpy, whole
from ._types import Tasks


@dataclass(frozen=True)
class Naming:
    """Numbers from ``base`` on, or the names, the first one that of task 1; ``numbers`` has the number of each name."""

    count: int
    base: int
    names: Optional[Tuple[Any, ...]]
    numbers: Dict[Any, int]

    @classmethod
    def of(cls, count: int, base: SupportsIndex = 1, names: Optional[Iterable[Hashable]] = None) -> "Naming":
        """A naming of so many tasks, whose names are known each by itself."""
        first = whole("base", base, U32)
        if first > 1:
            raise ValueError(f"base: {first} is neither 0 nor 1")
        if names is None:
            return cls(count, first, None, {})
        if isinstance(names, (str, bytes, Mapping, Set)):
            raise TypeError(f"names: {reprlib.repr(names)} is no list of names")
        told = tuple(names.tolist() if hasattr(names, "tolist") else names)
        numbers: Dict[Any, int] = {}
        if len(told) != count:
            raise ValueError(f"names: there are {len(told)}, and {count} tasks")
        for at, name in enumerate(told):
            if name is None:
                raise ValueError(f"names[{at}]: None is no name")
            if numbers.setdefault(_hashed(f"names[{at}]", name), at + 1) != at + 1:
                raise ValueError(f"names[{at}]: {name!r} is the name of an earlier task too")
        return cls(count, first, told, numbers)

    def name(self, number: int) -> Any:
        """What the task of a number is called."""
        return number - 1 + self.base if self.names is None else self.names[number - 1]

    def words(self, number: int) -> str:
        return f"task {self.name(number)!r}"

    def has(self, number: int) -> bool:
        return 1 <= number <= self.count

    def told(self, numbers: Any) -> Tasks:
        """What tasks are called: an array of numbers, or a list of names."""
        if self.names is None:
            return shifted(frozen(numbers) if isinstance(numbers, list) else numbers, self.base - 1)
        return [self.names[number - 1] for number in listed(numbers)]

    def number(self, what: str, task: Any) -> int:
        """The number of a task, 0 where there is none of this name. Numbers that are none are judged by who is told them."""
        if self.names is None:
            return (whole(what, task, U32) + 1 - self.base) & U32.most
        return self.numbers.get(_hashed(what, task), 0)

    def known(self, what: str, task: Any) -> int:
        """The same where there has to be such a task."""
        number = self.number(what, task)
        if not self.has(number):
            raise ValueError(f"{what}: {reprlib.repr(task)} is no task")
        return number

    def numbered(self, what: str, tasks: Any) -> memoryview:
        """The numbers of tasks in places, as of an order: a copy for C."""
        if self.names is None:
            given = column(f"{what}[{{}}]", tasks, U32)
            if self.base == 1:
                return given
            if numpy is None:
                return memoryview(array(U32.letter, [(number + 1) & U32.most for number in given]))
            return memoryview(numpy.asarray(given) + numpy.uint32(1))
        if isinstance(tasks, (str, bytes, Mapping, Set)) or not hasattr(tasks, "__len__"):
            raise TypeError(f"{what}: {reprlib.repr(tasks)} is no list of tasks")
        try:
            return memoryview(array(U32.letter, [self.numbers.get(task, 0) for task in tasks]))
        except TypeError:
            return memoryview(array(U32.letter, [self.number(f"{what}[{at}]", task) for at, task in enumerate(tasks)]))

    def parts(self) -> List[Any]:
        """All tasks, in the order of their numbers."""
        return list(range(self.base, self.base + self.count)) if self.names is None else list(self.names)


def _hashed(what: str, name: Any) -> Hashable:
    try:
        hash(name)
    except TypeError:
        raise TypeError(f"{what}: {reprlib.repr(name)} is no name, as it cannot be hashed") from None
    told: Hashable = name
    return told


NOTHING: Mapping[Any, SupportsIndex] = MappingProxyType({})
"""What a mapping of numbers is where none is given."""


def columns_of(naming: Naming, **told: Tuple[Mapping[Any, Any], Optional[int]]) -> Dict[str, Any]:
    """The columns of mappings, each with its default, by their names."""
    return {what: places(naming, values, what, default) for what, (values, default) in told.items()}


def places(naming: Naming, values: Mapping[Any, Any], what: str, default: Optional[int]) -> List[int]:
    """The number that a mapping has for each task; one that it lacks is the default, and is refused where there is none."""
    if not isinstance(values, Mapping):
        raise TypeError(f"{what}: {reprlib.repr(values)} is no mapping of numbers by tasks")
    for name in values:
        naming.known(what, name)
    found = []
    for name in naming.parts():
        value = values.get(name, default)
        if value is None:
            raise ValueError(f"{what}: there is none for {name!r}")
        is_plain = type(value) is int and 0 <= value <= SIZE.most
        found.append(value if is_plain else whole(f"{what}[{name!r}]", value, SIZE))
    return found
