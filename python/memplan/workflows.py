"""Series-parallel workflows, position by position in postfix order."""

from __future__ import annotations

from dataclasses import dataclass
from typing import Any, Hashable, List, Optional, Sequence, SupportsIndex, Tuple, Union

from ._arrays import frozen
from ._naming import Naming
from ._numbers import U64, whole
from ._texts import PathLike, WorkflowText, read_bytes, read_plan, read_workflow, workflow_text
from ._work import Ordered, Work
from .results import Plan, Segments, Spill
from .trees import segments_of

_FIELDS = {"data": ("size",), "task": ("extra", "share", "time"), "par": ("count",)}

Position = Tuple[Any, ...]
"""("data", size), ("task", extra, share, time) or ("par", count)."""


@dataclass(frozen=True, init=False, repr=False, eq=False)
class Workflow(Work):
    """Tasks in series and side by side. Each position works on a stack of parts: ``("data", size)`` puts an item there; ``("task", extra,
    share, time)`` takes the two on top, and puts there that task between them; ``("par", count)`` puts so many side by side. One part is
    left.

    >>> workflow = Workflow([("data", 4), ("data", 1), ("task", 3, 0, 1)], names=["sum"])
    >>> workflow.plan().order, workflow.plan().peak
    (['sum'], 8)
    """

    positions: Tuple[Position, ...]
    naming: Naming

    _option = "--workflow"
    _plan_version = 1

    def __init__(
        self, positions: Sequence[Sequence[Any]], *, base: SupportsIndex = 1, names: Optional[Sequence[Hashable]] = None
    ) -> None:
        """Tasks are numbered from ``base``, in the order of their positions, or have the ``names``."""
        told = tuple(_position(at, position) for at, position in enumerate(positions))
        object.__setattr__(self, "positions", told)
        object.__setattr__(self, "naming", Naming.of(sum(position[0] == "task" for position in told), base, names))

    @classmethod
    def of_text(cls, text: Union[str, bytes]) -> "Workflow":
        """Of a workflow file's text. The tasks have the names that stand in comments ``# K NAME``, or numbers from 1.

        >>> Workflow.of_text("workflow 1\\ntasks 0\\ndata 7\\nend\\n").positions
        (('data', 7),)
        """
        it = read_workflow(text)[0]
        return cls(it.positions, names=it.names)

    @classmethod
    def read(cls, path: PathLike) -> "Workflow":
        """Reads a workflow file, of either version.

        >>> Workflow.read(EXAMPLES / "branches.workflow").plan().peak
        13
        """
        it = read_workflow(read_bytes(path), str(path))[0]
        return cls(it.positions, names=it.names)

    def renamed(self, names: Sequence[Hashable]) -> "Workflow":
        """The same workflow, whose tasks have other names.

        >>> Workflow([("data", 4), ("data", 1), ("task", 3, 0, 1)]).renamed(["sum"]).names
        ['sum']
        """
        return Workflow(self.positions, names=names)

    # Commands

    def plan(self) -> Plan:
        """An order of least peak, with the claims that show it.

        >>> plan = Workflow.read(EXAMPLES / "branches.workflow").plan()
        >>> plan.peak, plan.is_least
        (13, True)
        """
        page = self._run("plan")
        return self._plan_told(read_plan(page.text, page.file))

    def check(self, plan: Plan, workers: SupportsIndex = 1) -> None:
        """Judges a plan by its claims, whoever made it, on so many threads; refused with the first objection.

        >>> workflow = Workflow.read(EXAMPLES / "branches.workflow")
        >>> workflow.check(workflow.read_plan(EXAMPLES / "branches.plan"))
        """
        self._judge_plan(plan, workers)

    def spill(self, order: Ordered, bound: SupportsIndex) -> Spill:
        """The least volume that has to go to disk where an order runs within a bound, and how much of each data item, in turn.

        >>> workflow = Workflow.read(EXAMPLES / "branches.workflow")
        >>> spill = workflow.spill(workflow.read_order(EXAMPLES / "branches.order"), bound=10)
        >>> spill.volume, list(map(int, spill.amounts))
        (4, [0, 0, 3, 0, 1, 0])
        """
        page = self._run("spill", self._numbered(order), self._limits(bound))
        volume = page.section(b"volume")
        items, told = page.table(page.section(b"items"), 2)
        amounts = [0] * sum(position[0] == "data" for position in self.positions)
        for item, amount in zip(items, told):
            amounts[item - 1] = amount
        return Spill(volume, frozen(amounts))

    def segments(self) -> List[Segments]:
        """How low memory can come within each bound, in the part that ends at each position.

        >>> Workflow([("data", 7)]).segments()
        [Segments(forward=Stairs(level=7, steps=[]), backward=Stairs(level=7, steps=[]))]
        """
        return segments_of(self._run("segments"))

    # Files

    def text(self, version: Optional[int] = None) -> str:
        """The workflow file as a text, of version 2 where a share is not 0, or of the version that is asked for. Names stand in comments.

        >>> print(Workflow([("data", 7)]).text(), end="")
        workflow 1
        tasks 0
        data 7
        end
        """
        has_shares = any(position[0] == "task" and position[2] for position in self.positions)
        if version not in (None, 1, 2) or (version == 1 and has_shares):
            raise ValueError(f"version: the workflow cannot be told in version {version!r}")
        names = None if self.naming.names is None else list(self.naming.names)
        return workflow_text(WorkflowText(list(self.positions), len(self), names), 2 if has_shares else version or 1)

    def _input(self) -> str:
        return workflow_text(WorkflowText(list(self.positions), len(self), None), 2)

    def _at_line(self, line: int) -> Tuple[int, str, Optional[int]]:
        at = line - 3  # behind two lines
        task = sum(position[0] == "task" for position in self.positions[: at + 1])
        is_task = 0 <= at < len(self.positions) and self.positions[at][0] == "task"
        return 0, f"positions[{at}]", task if is_task else None


def _position(at: int, position: Sequence[Any]) -> Position:
    if not isinstance(position, (tuple, list)) or not position or position[0] not in tuple(_FIELDS):
        raise TypeError(f"positions[{at}]: {position!r} begins with none of 'data', 'task' and 'par'")
    word, *numbers = position
    fields = _FIELDS[word]
    if len(numbers) != len(fields):
        raise ValueError(f"positions[{at}]: {position!r} has not the numbers ({', '.join(fields)}) behind its word")
    return (word, *(whole(f"positions[{at}].{name}", value, U64) for name, value in zip(fields, numbers)))
