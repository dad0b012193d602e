"""What is said where tasks, or what is asked of them, are refused: by the library in numbers, by the program in words."""

from __future__ import annotations

from typing import Any, Dict, List, NamedTuple, Optional, Sequence, Tuple

from . import _KINDS, Refused
from ._naming import Naming


class TaskRefused(Refused):
    """A call on a `Tree`, a `Graph` or a `Workflow` was refused.

    ``status``, ``kind``, ``at`` and ``value`` are as in every `Refused`; ``kind`` is 0 where only the program knows of such. ``reason`` is
    the word that FORMATS has for it, as ``too-early`` or ``cycle``. ``task`` is what the task is called that is at fault, or None. ``arcs``
    has what is left of a graph that is not series-parallel, pairs of tasks, None for none.

    >>> from memplan import Tree
    >>> tree = Tree.of_mapping({"left": "top", "right": "top", "top": None}, out={"left": 3, "right": 4, "top": 0})
    >>> try:
    ...     tree.replay(["left", "top", "right"])
    ... except TaskRefused as refusal:
    ...     print(refusal)
    ...     print(refusal.reason, refusal.kind, refusal.at, refusal.task)
    order[1], task 'top': a task stands before one that produces what it consumes
    too-early 22 2 top
    """

    def __init__(
        self,
        status: int,
        kind: int,
        reason: str,
        words: str,
        at: int = 0,
        value: int = 0,
        task: Any = None,
        arcs: Sequence[Tuple[Any, Any]] = (),
    ) -> None:
        ValueError.__init__(self, words)
        self.status = status
        self.kind = kind
        self.at = at
        self.value = value
        self.reason = reason
        self.task = task
        self.arcs = list(arcs)

    def __reduce__(self) -> Tuple[Any, ...]:
        """So that it can be told from one process to another."""
        return TaskRefused, (self.status, self.kind, self.reason, str(self), self.at, self.value, self.task, self.arcs)


class _Kind(NamedTuple):
    reason: str
    of: str  # what `at` counts


_TASK, _PLACE, _ITEM, _CLAIM = "task", "place", "item", "claim"

# The kinds of memplan.h. What is not here has no word in FORMATS.
_OF_LIBRARY: Dict[int, _Kind] = {
    4: _Kind("workers", ""),
    10: _Kind("count", ""),
    11: _Kind("tasks", ""),
    12: _Kind("parent", _TASK),
    13: _Kind("time", _TASK),
    14: _Kind("size", _TASK),
    15: _Kind("time", _TASK),
    16: _Kind("total", ""),
    17: _Kind("cycle", _TASK),
    18: _Kind("share", _TASK),
    20: _Kind("unknown", _PLACE),
    21: _Kind("repeated", _PLACE),
    22: _Kind("too-early", _PLACE),
    23: _Kind("missing", _PLACE),
    30: _Kind("bound", ""),
    31: _Kind("working-set", _PLACE),
    40: _Kind("tasks", ""),
    41: _Kind("total", ""),
    42: _Kind("positions", ""),
    43: _Kind("claim", _CLAIM),
    44: _Kind("peak", ""),
    45: _Kind("root", ""),
    46: _Kind("claim", ""),
    50: _Kind("positions", ""),
    51: _Kind("item", _ITEM),
    52: _Kind("size", _ITEM),
    53: _Kind("uses", ""),
    55: _Kind("item", _ITEM),
    56: _Kind("item", _ITEM),
    57: _Kind("item", _ITEM),
}
_OF_PROGRAM = {kind.reason: number for number, kind in _OF_LIBRARY.items() if 20 <= number <= 46}

# What only the program says, without its numbers.
_WORDS = {
    "need task": "there is no such task whose need could be told",
    "need low": "what is needed is below the bound",
    "set empty": "there is no blocker",
    "set base": "an amount of the base is told of no use",
    "blocker task": "a blocker is no task",
    "blocker rising": "a blocker is not above the one before",
    "blocker amounts": "an amount is told of no use",
    "blocker sizes": "the amounts of an item's uses are together above its size",
    "blocker open": "another task could take up more than it leaves",
    "blocker level": "what a blocker needs does not come to the bound",
    "states room": "so many states take too long, or too much memory",
    "states order": "there is an order with a peak below the bound",
    "states many": "more states are looked at than were told",
    "term": "the graph has no series-parallel term, of which there could be claims",
    "joins many": "the graph with its joins has too many tasks or items",
    "joins items": "the joins are not those of the items that several tasks read",
    "workers room": "what is set aside for the workers is above the bound",
    "fence join": "a fence leads to a join",
    "fence tasks": "a fence is not between tasks or joins of the graph",
    "fence apart": "a fence leads from a task to itself",
    "fences many": "there are too many items and fences",
    "fences cycle": "with the fences a task waits for itself",
    "amounts count": "there are more or fewer amounts than items and fences",
    "amount size": "an amount is below the size of its item",
    "amount limit": "an amount is above its limit",
    "amounts total": "the amounts together are above their limit",
    "bound": "the amounts certify more than the bound",
    "rest": "the graph is not series-parallel: these arcs are left where it was reduced",
    "uses": "an item has several readers, and which of them comes last no term tells: these arcs are left",
    "arcs": "the graph has too many arcs",
    "item": "an item has readers of which none comes after all the others",
    "range": "the priority has what is no task",
    "repeated": "the priority has a task twice",
    "count": "the priority has not every task, or more",
    "claim": "a claim is not past the one before",
    "stack-short": "a position has fewer terms before it than it takes",
    "not-one-term": "the positions leave more than one term, or none",
    "task-count": "there are not as many tasks as were told",
}


def told_by_library(status: int, kind: int, at: int, value: int, naming: Naming, order: Sequence[int]) -> TaskRefused:
    """``order`` has the numbers of the order that was handed over, if one was."""
    reason, of = _OF_LIBRARY.get(kind, _Kind("refused", ""))
    task, where = None, ""
    if of == _PLACE and at:
        where = f"order[{at - 1}]"
        if at <= len(order) and naming.has(order[at - 1]):
            task = naming.name(order[at - 1])
            where += f", task {task!r}"
    elif of == _TASK and naming.has(at):
        task, where = naming.name(at), naming.words(at)
    elif of in (_ITEM, _CLAIM) and at:
        where = f"{of}s[{at - 1}]"
    elif at:
        where = f"position {at}"
    words = _KINDS.get(kind, "refused") + (f" ({value})" if value else "")
    return TaskRefused(status, kind, reason, f"{where}: {words}" if where else words, at, value, task)


def told_by_program(status: int, report: bytes, naming: Naming, order: Sequence[int]) -> TaskRefused:
    """What the first line of a report says, and the arcs behind it."""
    lines = [line.split() for line in report.decode("ascii", "replace").splitlines()]
    first, *rest = lines or [[]]
    tokens = first[1:]  # behind `no` or `refused`
    numbers = [int(token) for token in tokens if token.isdigit()]
    words = [token for token in tokens if not token.isdigit()]
    if status == 1 and words[:1] == ["order"]:
        return told_by_library(status, _OF_PROGRAM[words[1]], numbers[0], 0, naming, order)
    if status == 1 and words == ["peak"]:
        return told_by_library(status, _OF_PROGRAM["peak"], 0, numbers[0], naming, order)
    if status == 1 and words[0] in ("root", "claim"):
        return told_by_library(status, 45 if words[0] == "root" else 46, numbers[0], 0, naming, order)
    if status == 5:
        return told_by_library(status, _OF_PROGRAM["bound"], 0, numbers[1], naming, order)
    if status == 10:
        return told_by_library(status, _OF_PROGRAM["working-set"], numbers[0], numbers[1], naming, order)
    if status == 9:
        return _told_of_reduction(words, numbers, rest, naming)
    if status == 1:
        return _told_of_evidence(" ".join(words), numbers, naming)
    reason, at = words[-1], numbers[0] if numbers else 0
    if status == 4:
        return TaskRefused(status, 0, reason, f"{words[1]}: the limit {reason} is passed")
    said = _WORDS.get(reason, f"what is told is refused as {reason}")
    return TaskRefused(status, 0, reason, f"{words[1]}, line {at}: {said}", at)


def _told_of_reduction(words: List[str], numbers: List[int], rest: List[List[str]], naming: Naming) -> TaskRefused:
    reason = words[1]
    arcs = [tuple(naming.name(end) if naming.has(end) else None for end in map(int, line)) for line in rest if line != ["end"]]
    at = numbers[0] if reason == "item" else 0
    where = f"items[{at - 1}]: " if at else ""
    return TaskRefused(9, 0, reason, where + _WORDS[reason], at, 0, None, [(it[0], it[1]) for it in arcs])


def _told_of_evidence(reason: str, numbers: List[int], naming: Naming) -> TaskRefused:
    at = numbers[0] if numbers else 0
    words, task = _WORDS.get(reason, reason), None
    if reason == "bound":
        return TaskRefused(1, 0, reason, f"{words} ({at})", 0, at)
    if reason == "fences cycle" and naming.has(at):
        task = naming.name(at)
        words = f"{naming.words(at)}: {words}"
    elif at:
        words = f"{reason.split()[0]}s[{at - 1}]: {words}"
    return TaskRefused(1, 0, reason, words, at, 0, task)


def told_of_workers() -> TaskRefused:
    return TaskRefused(2, 4, "workers", _KINDS[4])


def told_of_text(refusal: TaskRefused, task: Optional[int], naming: Naming, kind: int, where: str) -> TaskRefused:
    """A refusal of a line of the text that the program was given, in words of what stands there."""
    named = naming.name(task) if task is not None and naming.has(task) else None
    words = _KINDS.get(kind) or _WORDS.get(refusal.reason, refusal.reason)
    place = f"{where}, task {named!r}" if named is not None else where
    return TaskRefused(refusal.status, kind, refusal.reason, f"{place}: {words}", refusal.at, 0, named)
