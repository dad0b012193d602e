"""What trees, graphs and workflows have in common: the commands that take an order, and the files beside their own."""

from __future__ import annotations

from typing import Any, Callable, Dict, List, Mapping, NoReturn, Optional, Sequence, SupportsIndex, Tuple, TypeVar, Union

from . import _USAGE, Refused
from ._arrays import SIZE, frozen, kept, listed
from ._naming import Naming
from ._numbers import I64, U32, U64, whole
from ._program import run
from ._refusals import TaskRefused, told_by_library, told_by_program, told_of_text, told_of_workers
from ._texts import (
    FencesText,
    Page,
    PathLike,
    fences_text,
    order_text,
    plan_text,
    read_bytes,
    read_fences,
    read_order,
    read_plan,
    write_text,
)
from ._types import Tasks, WholeNumbers
from .results import Blockers, Claims, Evidence, Fences, Need, Plan, Readers, Simulation, States, kept_with

Ordered = Union[Plan, WholeNumbers, Sequence[Any]]
"""An order of tasks, or a plan, of which the order is taken."""

Answer = TypeVar("Answer")

_EVENTS = {b"activate": "activate", b"start": "start", b"finish": "finish"}
_CLAIM_WIDTHS = (U32, U32, I64, SIZE)  # of the columns of claims


class Work:
    """Tasks that hand data to each other. What is refused is a `TaskRefused`, which names the task."""

    naming: Naming
    _option: str
    _plan_version: int

    @property
    def names(self) -> List[Any]:
        """What the tasks are called, in the order of their numbers: their names, or the numbers themselves.

        >>> Tree([0, 0], out=[1, 2], extra=[0, 0], base=1).names
        [1, 2]
        """
        return self.naming.parts()

    def __len__(self) -> int:
        return self.naming.count

    def __repr__(self) -> str:
        return f"<{type(self).__name__} of {len(self)} tasks>"

    # Each kind of work has these of its own.

    def _input(self) -> str:
        """The text that the program is given."""
        raise NotImplementedError

    def _judge(self) -> None:
        """Has the library say what is wrong with the tasks, if anything is, and the library judges such."""

    def _at_line(self, line: int) -> Tuple[int, str, Optional[int]]:
        """The kind, the place and the task of a line of the text that was refused."""
        return 0, f"line {line}", line - 2

    def _shared(self) -> List[Readers]:
        """The items with several readers, in turn."""
        return []

    # Commands

    def replay(self, order: Ordered) -> int:
        """The peak of an order; refused with the first place at which it is none.

        >>> FIVE.replay(["a", "b", "c", "d", "top"])
        15
        """
        numbers = self._numbered(order)
        return self._run("replay", numbers).section(b"peak")

    def simulate(
        self, order: Ordered, bound: SupportsIndex, workers: SupportsIndex, priority: Optional[Ordered] = None
    ) -> Simulation:
        """A run on so many workers in memory of at most the bound, which is no less than the peak of the order. Of the tasks that may start
        the first of ``priority`` does; without it that of the plan, where ``order`` is one that has any, else the order.

        >>> run = FIVE.simulate(["c", "a", "d", "b", "top"], bound=15, workers=2)
        >>> run.makespan, run.used
        (4, 12)
        >>> run.spans()[:2]
        [('c', 0, 1), ('a', 1, 2)]
        """
        numbers = self._numbered(order)
        ranked = order.priority if priority is None and isinstance(order, Plan) else priority
        files: Dict[str, bytes] = {}
        if ranked is not None and len(self._places(ranked)):
            files["--priority"] = order_text(self._numbered(ranked, "priority")).encode()
        page = self._run("simulate", numbers, self._limits(bound, whole("workers", workers, U32)), files)
        makespan, used, booked = (page.section(word) for word in (b"makespan", b"used", b"booked"))
        time, what, task = page.tokens(page.section(b"events"), 3)
        told = self.naming.told(list(map(int, task)))
        run_of = Simulation(makespan, used, booked, frozen(list(map(int, time))), list(map(_EVENTS.__getitem__, what)), told)
        return kept_with(run_of, work=self, bound=whole("bound", bound, U64), workers=whole("workers", workers, U32))

    def fence(self, order: Ordered, bound: SupportsIndex, workers: Optional[SupportsIndex] = None) -> Fences:
        """Dependences to add, after which no run that keeps to them passes the bound, whatever starts the tasks, and however long they
        take: on so many workers at most, or on any number of them.

        >>> fences = FIVE.fence(["c", "a", "d", "b", "top"], bound=15)
        >>> fences.edges()
        [('c', 'a'), ('a', 'd')]
        >>> FIVE.check_fences(fences)
        """
        page = self._run("fence", self._numbered(order), self._limits(bound, workers))
        return self._fences_told(read_fences(page.text))

    def check_fences(self, fences: Fences) -> None:
        """Judges fences by their amounts, whoever made them; refused with the first objection.

        >>> fences = FIVE.fence(["c", "a", "d", "b", "top"], bound=15)
        >>> FIVE.check_fences(fences._replace(bound=14))
        Traceback (most recent call last):
        memplan._refusals.TaskRefused: the amounts certify more than the bound (15)
        """
        self._run("check", files={"--fences": fences_text(self._fences_numbered(fences)).encode()})

    # Files

    def text(self, version: Optional[int] = None) -> str:
        """The file as a text, of the least version of its format that has all, or of the one that is asked for. Names stand in comments.

        >>> print(Tree([0], out=[7], extra=[2]).text(), end="")
        tree 1
        nodes 1
        0 7 2 1
        end
        """
        raise NotImplementedError

    def write(self, path: PathLike, version: Optional[int] = None) -> None:
        """Writes the file, as `text` has it.

        >>> FIVE.write(FOLDER / "five.tree")
        >>> Tree.read(FOLDER / "five.tree").names
        ['a', 'b', 'c', 'd', 'top']
        """
        write_text(path, self.text(version))

    def read_order(self, path: PathLike) -> Tasks:
        """An order file, with its tasks as they are called.

        >>> FIVE.write_order(FOLDER / "my.order", ["c", "a", "d", "b", "top"])
        >>> FIVE.read_order(FOLDER / "my.order")
        ['c', 'a', 'd', 'b', 'top']
        """
        return self._told(read_order(read_bytes(path), str(path)), "order")

    def write_order(self, path: PathLike, order: Ordered) -> None:
        """Writes an order, or that of a plan, as an order file.

        >>> FIVE.write_order(FOLDER / "my.order", FIVE.plan())
        """
        numbers = self._numbered(order).tolist()
        self._all_known("order", numbers, self._places(order))
        write_text(path, order_text(numbers))

    def read_plan(self, path: PathLike) -> Plan:
        """A plan file, with its tasks as they are called. `check` judges it.

        >>> FIVE.write_plan(FOLDER / "my.plan", FIVE.plan(evidence=True))
        >>> FIVE.check(FIVE.read_plan(FOLDER / "my.plan"))
        """
        return self._plan_told(read_plan(read_bytes(path), str(path), max(self._plan_version, 2)))

    def write_plan(self, path: PathLike, plan: Plan) -> None:
        """Writes a plan with its evidence as a plan file.

        >>> FIVE.write_plan(FOLDER / "my.plan", FIVE.plan())
        Traceback (most recent call last):
        ValueError: plan: it has no evidence; plan(evidence=True) makes it with some
        """
        self._all_known("order", self._numbered(plan).tolist(), plan.order)
        write_text(path, self._plan_text(plan))

    def read_fences(self, path: PathLike) -> Fences:
        """A fence file, with its tasks as they are called. `check_fences` judges it.

        >>> FIVE.write_fences(FOLDER / "my.fences", FIVE.fence(["c", "a", "d", "b", "top"], bound=15))
        >>> FIVE.read_fences(FOLDER / "my.fences").edges()
        [('c', 'a'), ('a', 'd')]
        """
        return self._fences_told(read_fences(read_bytes(path), str(path)))

    def write_fences(self, path: PathLike, fences: Fences) -> None:
        """Writes fences as a fence file, for `integrations/fences` and `memplan check --fences`.

        >>> FIVE.write_fences(FOLDER / "my.fences", FIVE.fence(["c", "a", "d", "b", "top"], bound=15))
        """
        write_text(path, fences_text(self._fences_numbered(fences)))

    # How the library and the program are asked

    def _asked(self, call: Callable[..., Answer], *arguments: Any, order: Sequence[int] = ()) -> Answer:
        """A call of the library. What it refuses is told in names."""
        try:
            return call(*arguments)
        except Refused as it:
            raise told_by_library(it.status, it.kind, it.at, it.value, self.naming, order) from None

    def _judged_by(self, replay: Callable[..., int], tasks: Any) -> None:
        """The replay of no order is refused at its first place, where nothing else is."""
        try:
            self._asked(replay, tasks, memoryview(b"").cast("I"))
        except TaskRefused as refusal:
            if refusal.reason != "missing":
                raise

    def _run(
        self,
        command: str,
        order: Optional[memoryview] = None,
        words: Sequence[str] = (),
        files: Optional[Mapping[str, bytes]] = None,
        judged: Optional[memoryview] = None,
    ) -> Page:
        """The report of a command of the program. What it refuses is told in names; ``judged`` is the order of a plan that it judges."""
        texts = {self._option: self._input().encode()}
        if order is not None:
            texts["--order"] = order_text(order).encode()
        told = judged if order is None else order
        return self._report(command, {**texts, **(files or {})}, words, () if told is None else told.tolist())

    def _report(self, command: str, files: Mapping[str, bytes], words: Sequence[str], order: Sequence[int] = ()) -> Page:
        """The same over texts, each told by its option; ``order`` is one that is judged."""
        ended = run(command, files, words)
        if ended.status == _USAGE and "--workers" in words:
            raise told_of_workers()
        if ended.status:
            self._refuse(ended.status, ended.report, order)
        return Page(ended.report, command)

    def _refuse(self, status: int, report: bytes, order: Sequence[int]) -> NoReturn:
        if not report:
            raise RuntimeError(f"the program ended with {status} and said nothing")
        refusal = told_by_program(status, report, self.naming, order)
        if status in (3, 4) and report.split()[2].decode() == self._option[2:]:
            self._judge()
            if status == 3:
                kind, where, task = self._at_line(refusal.at)
                raise told_of_text(refusal, task, self.naming, kind, where)
        raise refusal

    def _judge_plan(self, plan: Plan, workers: SupportsIndex) -> None:
        """What `check` is where the library has no call for it."""
        text, numbers, threads = self._plan_text(plan), self._numbered(plan), whole("workers", workers, U32)
        self._run("check", None, [] if threads == 1 else ["--workers", str(threads)], {"--plan": text.encode()}, numbers)

    def _numbered(self, order: Ordered, what: str = "order") -> memoryview:
        """The numbers of the tasks of an order. 0 stands for what is no task."""
        return self.naming.numbered(what, self._places(order))

    @staticmethod
    def _places(order: Ordered) -> Any:
        return order.order if isinstance(order, Plan) else order

    @staticmethod
    def _limits(bound: SupportsIndex, workers: Optional[SupportsIndex] = None) -> List[str]:
        told = ["--bound", str(whole("bound", bound, U64))]
        return told if workers is None else [*told, "--workers", str(whole("workers", workers, U32))]

    # Between names and numbers

    def _all_known(self, what: str, numbers: Sequence[int], order: Any) -> None:
        """In a file a name that is none could not be told."""
        for at, number in enumerate(numbers):
            if number == 0:
                raise ValueError(f"{what}[{at}]: {order[at]!r} is no task")

    def _told(self, numbers: Sequence[int], what: str) -> Tasks:
        """Where tasks have names, a number of none has no name."""
        if self.naming.names is not None:
            for at, number in enumerate(numbers):
                if not self.naming.has(number):
                    raise ValueError(f"{what}[{at}]: there is no task {number}")
        return self.naming.told(numbers)

    def _plan_told(self, plan: Plan) -> Plan:
        order = self._told(listed(plan.order), "order")
        priority = None if plan.priority is None else self._told(listed(plan.priority), "priority")
        told = plan._replace(order=order, evidence=self._evidence_told(plan.evidence), priority=priority)
        return kept_with(told, work=self)

    def _evidence_told(self, evidence: Optional[Evidence]) -> Optional[Evidence]:
        if isinstance(evidence, Need):
            return Need(self._task_told(evidence.task, "need") if evidence.task else None)
        if isinstance(evidence, Blockers):
            return evidence._replace(blockers=[(self._task_told(task, "blocker"), amounts) for task, amounts in evidence.blockers])
        return evidence

    def _task_told(self, number: int, what: str) -> Any:
        if self.naming.names is not None and not self.naming.has(number):
            raise ValueError(f"{what}: there is no task {number}")
        return self.naming.name(number)

    def _evidence_numbered(self, evidence: Evidence) -> Evidence:
        if isinstance(evidence, Claims):
            return Claims(*(kept(f"claims.{name}", it, width) for name, it, width in zip(Claims._fields, evidence, _CLAIM_WIDTHS)))
        if isinstance(evidence, Need):
            return Need(0 if evidence.task is None else self.naming.known("need.task", evidence.task))
        if isinstance(evidence, States):
            return States(whole("states.many", evidence.many, U32))
        if not isinstance(evidence, Blockers):
            raise TypeError(f"plan: a {type(evidence).__name__} is no evidence")
        told = []
        for at, (task, amounts) in enumerate(evidence.blockers):
            what = f"blockers[{at}]"
            told.append((self.naming.known(what, task), _pairs(what, amounts)))
        return Blockers(bool(evidence.last), _pairs("base", evidence.base), told)

    def _plan_text(self, plan: Plan) -> str:
        """The text of a plan, whose version is that of the kind of work, or 2 where there is a ranking."""
        if not isinstance(plan, Plan):
            raise TypeError(f"plan: a {type(plan).__name__} is no Plan")
        if plan.evidence is None:
            raise ValueError("plan: it has no evidence; plan(evidence=True) makes it with some")
        evidence = self._evidence_numbered(plan.evidence)
        version, priority = self._plan_version, plan.priority
        if version == 3 and priority is not None:
            raise ValueError("plan: the plan of a graph has no priority in its file")
        if version == 1 and not (isinstance(evidence, Claims) and plan.bound == plan.peak):
            raise ValueError("plan: that of a tree or a workflow has claims as its evidence, and its peak as its bound")
        ranked = None if priority is None else frozen(self.naming.numbered("priority", priority))
        order, peak = frozen(self._numbered(plan)), whole("peak", plan.peak, U64)
        told = Plan(order, peak, whole("bound", plan.bound, U64), evidence, ranked)
        return plan_text(told, 2 if priority is not None else version)

    def _fences_told(self, fences: FencesText) -> Fences:
        shared = self._shared()
        if fences.joins != [it.item + 1 for it in shared]:
            raise ValueError("fences: their joins are not those of the items that several tasks read")

        def before(at: int, number: int) -> Any:
            if len(self) < number <= len(self) + len(shared):
                return shared[number - len(self) - 1]
            return self._task_told(number, f"fences[{at}]")

        pairs = [(before(at, start), self._task_told(end, f"fences[{at}]")) for at, (start, end) in enumerate(fences.pairs)]
        return Fences(fences.bound, fences.workers or None, fences.room, shared, pairs, kept("amounts", fences.amounts))

    def _fences_numbered(self, fences: Fences) -> FencesText:
        if not isinstance(fences, Fences):
            raise TypeError(f"fences: a {type(fences).__name__} is no Fences")
        joins = {it.item: len(self) + at for at, it in enumerate(fences.joins, 1)}

        def before(at: int, task: Any) -> int:
            if isinstance(task, Readers):
                if task.item not in joins:
                    raise ValueError(f"pairs[{at}][0]: item {task.item!r} is none of the joins")
                return joins[task.item]
            return self.naming.known(f"pairs[{at}][0]", task)

        pairs = [(before(at, start), self.naming.known(f"pairs[{at}][1]", end)) for at, (start, end) in enumerate(fences.pairs)]
        places = [whole(f"joins[{at}].item", it.item, U32) + 1 for at, it in enumerate(fences.joins)]
        limits = whole("bound", fences.bound, U64), whole("workers", fences.workers or 0, U32), whole("room", fences.room, U64)
        return FencesText(*limits, places, pairs, listed(kept("amounts", fences.amounts)))


def _pairs(what: str, pairs: Any) -> List[Tuple[int, int]]:
    found = []
    for at, (use, amount) in enumerate(pairs):
        found.append((whole(f"{what}[{at}][0]", use, U32), whole(f"{what}[{at}][1]", amount, I64)))
    return found
