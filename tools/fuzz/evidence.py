"""A plain judge of plans with a bound, written from docs/PLANS.md, docs/REPORTS.md and docs/DEFINITIONS.md alone: a second opinion on each verdict over sums
and over states."""
from typing import NamedTuple, Optional

from models import SharedSystem, rows


# So many marks of states are looked at at most, one for each task of each.
MOST_MARKS = 2**27
MOST_VISITS = 2**32

# All states of no more tasks than this are looked at here.
FEW = 16


class Blocker(NamedTuple):
    """A task of a set, and its own lowered sizes, by the places of the uses."""

    task: int
    amounts: list[tuple[int, int]]


class BoundedPlan(NamedTuple):
    """An order, its peak, a bound, and evidence: `need` and a task, `states` and how many, or `first` or `last`, a base and blockers."""

    order: list[int]
    peak: int
    bound: int
    word: str
    # the task, or how many states
    number: int
    base: list[tuple[int, int]]
    blockers: list[Blocker]


def evidence_of(lines: list[list[str]]) -> tuple[str, int, list[tuple[int, int]], list[Blocker]]:
    """What the lines from that of the evidence on say, up to `end`."""
    (word, stated), *rest = lines
    if word not in ("first", "last"):
        return word, int(stated), [], []
    count = int(rest[0][1])
    base, rest = [(int(place), int(amount)) for place, amount in rest[1 : count + 1]], rest[count + 1 :]
    blockers = []
    while rest[0][0] == "blocker":
        count = int(rest[0][2])
        amounts = [(int(place), int(amount)) for place, amount in rest[1 : count + 1]]
        blockers.append(Blocker(int(rest[0][1]), amounts))
        rest = rest[count + 1 :]
    return word, 0, base, blockers


def bounded_plan_of(text: bytes) -> BoundedPlan:
    """That of a file that is accepted, whose evidence is no claims."""
    lines = rows(text)
    count = int(lines[1][1])
    order = [int(task) for (task,) in lines[2 : count + 2]]
    (_, peak), (_, bound) = lines[count + 2 : count + 4]
    return BoundedPlan(order, int(peak), int(bound), *evidence_of(lines[count + 4 :]))


def text_of(plan: BoundedPlan) -> bytes:
    """The file of version 3 that has this plan."""
    lines = ["plan 3", f"order {len(plan.order)}", *map(str, plan.order), f"peak {plan.peak}", f"bound {plan.bound}"]
    if plan.word in ("need", "states"):
        lines.append(f"{plan.word} {plan.number}")
    else:
        lines += [f"{plan.word} {len(plan.blockers)}", f"base {len(plan.base)}", *(f"{place} {amount}" for place, amount in plan.base)]
        for blocker in plan.blockers:
            lines.append(f"blocker {blocker.task} {len(blocker.amounts)}")
            lines += [f"{place} {amount}" for place, amount in blocker.amounts]
    return "".join(f"{line}\n" for line in [*lines, "end"]).encode()


class Judge:
    """What is said of evidence for a bound of a system."""

    def __init__(self, system: SharedSystem) -> None:
        self.system = system
        # of each use its maker, its reader, or None, and the place of its item
        self.uses = [(item.maker, reader, place) for place, item in enumerate(system.items) for reader in item.readers or [None]]
        # the tasks that come after each
        self.after = [self.later(task) for task in range(system.count)]

    def later(self, task: int) -> set[int]:
        found: set[int] = set()
        work = [task]
        while work:
            last = work.pop()
            for reader in (other for other in range(self.system.count) if last in self.system.suppliers[other]):
                if reader not in found:
                    found.add(reader)
                    work.append(reader)
        return found

    def verdicts(self, plan: BoundedPlan) -> list[str]:
        """What `check` may print: one text, but where two things are to be said against states."""
        if fault := self.system.fault(plan.order):
            return [fault]
        peak = self.system.peak(plan.order)
        if peak != plan.peak:
            return [f"no peak {peak} {plan.peak}\n"]
        if objections := self.objections(plan):
            return [f"no {objection}\n" for objection in objections]
        return [f"yes {peak} least\n" if plan.bound == peak else f"yes {peak} above {plan.bound}\n"]

    def objections(self, plan: BoundedPlan) -> list[str]:
        """Those of which one is to be told; none where the evidence shows the bound."""
        if plan.word == "states":
            return self.objections_to_states(plan)
        found = self.objection_to_need(plan) if plan.word == "need" else self.objection_to_set(plan)
        return [found] if found else []

    def objection_to_set(self, plan: BoundedPlan) -> Optional[str]:
        if not plan.blockers:
            return "set empty"
        if not self.are_amounts(plan.base):
            return "set base"
        tasks = [blocker.task for blocker in plan.blockers]
        forms = {
            "task": [1 <= task <= self.system.count for task in tasks],
            "rising": [place == 0 or tasks[place - 1] < task for place, task in enumerate(tasks)],
            "amounts": [self.are_amounts(blocker.amounts) for blocker in plan.blockers],
        }
        for test, passes in forms.items():
            if not all(passes):
                return f"blocker {passes.index(False) + 1} {test}"
        for place, blocker in enumerate(plan.blockers, 1):
            if test := self.failed_test(plan, blocker):
                return f"blocker {place} {test}"
        return None

    def objection_to_need(self, plan: BoundedPlan) -> Optional[str]:
        if plan.number > self.system.count:
            return "need task"
        memory = self.system.own_need(plan.number) if plan.number else self.system.memory(0)
        return "need low" if memory < plan.bound else None

    def objections_to_states(self, plan: BoundedPlan) -> list[str]:
        if not self.have_room(plan.number):
            return ["states room"]
        states = self.states_below(plan.bound, plan.number)
        many = len(states) > plan.number
        is_open = many and self.system.count > FEW
        return ["states order"] * (0 in states or is_open) + ["states many"] * many

    def have_room(self, most: int) -> bool:
        visits = sum(1 + len(item.readers) for item in self.system.items)
        return most * self.system.count <= MOST_MARKS and most * visits <= MOST_VISITS

    def states_below(self, bound: int, most: int) -> set[int]:
        """The states that are looked at, each as a number with a bit for each task that is done; of a large system no more than these."""
        end = 2**self.system.count - 1
        states = {end} if self.system.memory(end) < bound else set()
        work = list(states)
        while work and (self.system.count <= FEW or len(states) <= most):
            for before in self.states_before(work.pop(), bound):
                if before not in states:
                    states.add(before)
                    work.append(before)
        return states

    def states_before(self, state: int, bound: int) -> list[int]:
        """Those before a task that is taken as the last one: the first that may wait, or each that can be last."""
        found = []
        for task in range(self.system.count):
            before = state & ~(1 << task)
            followed = any(state >> later & 1 for later in self.after[task])
            if before == state or followed or self.system.memory(before) + self.system.needs[task] >= bound:
                continue
            if self.system.memory(before) <= self.system.memory(state):
                return [before]
            found.append(before)
        return found

    def are_amounts(self, amounts: list[tuple[int, int]]) -> bool:
        places = [place for place, _ in amounts]
        rise = all(one < two for one, two in zip(places, places[1:]))
        return rise and all(1 <= place <= len(self.uses) and abs(amount) <= 2**60 for place, amount in amounts)

    def failed_test(self, plan: BoundedPlan, blocker: Blocker) -> Optional[str]:
        """Of the lowered sizes at the moment at which a blocker starts as the first of the set, or as the last."""
        told = {**dict(plan.base), **dict(blocker.amounts)}
        sizes = [told.get(place, 0) for place in range(1, len(self.uses) + 1)]
        for number, item in enumerate(self.system.items):
            if sum(max(size, 0) for size, (_, _, place) in zip(sizes, self.uses) if place == number) > item.size:
                return "sizes"
        done, waiting = self.marks(plan.word, [other.task - 1 for other in plan.blockers], blocker.task - 1)
        for task in set(range(self.system.count)) - done - waiting:
            takes = sum(size for size, (_, reader, _) in zip(sizes, self.uses) if reader == task)
            leaves = sum(size for size, (maker, _, _) in zip(sizes, self.uses) if maker == task)
            if takes > leaves:
                return "open"
        held = sum(size for size, (maker, reader, _) in zip(sizes, self.uses) if (maker is None or maker in done) and reader not in done)
        return "level" if held + self.system.needs[blocker.task - 1] < plan.bound else None

    def marks(self, word: str, tasks: list[int], task: int) -> tuple[set[int], set[int]]:
        """What is done for certain then, and what waits for certain."""
        before = lambda later: {other for other in range(self.system.count) if later & (self.after[other])}
        if word == "first":
            return before({task}), set(tasks).union(*(self.after[other] for other in tasks))
        return (set(tasks) - {task}) | before(set(tasks)), {task} | self.after[task]
