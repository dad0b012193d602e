"""A plain judge of fence files, written from docs/PLANS.md, docs/REPORTS.md and docs/DEFINITIONS.md alone: a second opinion on each verdict; which fences forbid a
run; and all moments of parallel runs that keep to fences."""
from collections.abc import Iterator
from functools import reduce
from itertools import islice
from operator import or_
from typing import NamedTuple, Optional

from formats import MOST_POSITIONS, MOST_TASKS
from models import SharedItem, SharedSystem, rows

# What one amount is at most, and what all of a file are together.
MOST_AMOUNT = 2**60
MOST_HANDED_ON = 2**62


class Certificate(NamedTuple):
    """What a fence file says."""

    bound: int
    # 0 is any number
    workers: int
    # set aside for each worker
    room: int
    # the places of the items that have joins, from 1
    joins: list[int]
    fences: list[tuple[int, int]]
    amounts: list[int]


def certificate_of(text: bytes) -> Certificate:
    """That of a file that is accepted."""
    lines = iter(rows(text)[1:])
    bound, workers, room = (int(number) for _, number in islice(lines, 3))
    joins, fences, amounts = ([[int(token) for token in next(lines)] for _ in range(int(next(lines)[1]))] for _ in range(3))
    return Certificate(bound, workers, room, [place for (place,) in joins], [(start, end) for start, end in fences], [amount for (amount,) in amounts])


def text_of(certificate: Certificate) -> bytes:
    """The file that says this."""
    bound, workers, room, joins, fences, amounts = certificate
    lines = ["fences 1", f"bound {bound}", f"workers {workers}", f"room {room}", f"joins {len(joins)}", *map(str, joins), f"fences {len(fences)}"]
    lines += [*(f"{start} {end}" for start, end in fences), f"amounts {len(amounts)}", *map(str, amounts)]
    return "".join(f"{line}\n" for line in [*lines, "end"]).encode()


class Link(NamedTuple):
    """An item with one task at most that takes it up; tasks are counted from 1, and 0 is none."""

    size: int
    start: int
    end: int


def links_of(item: SharedItem, join: int) -> Iterator[Link]:
    """What stands for an item: itself, up to the join if several tasks read it, and then by what these wait for its maker and the join for them."""
    start, ends = 0 if item.maker is None else item.maker + 1, [reader + 1 for reader in item.readers]
    if len(ends) < 2:
        yield Link(item.size, start, ends[0] if ends else 0)
        return
    yield Link(item.size, start, join)
    if start:
        yield from (Link(0, start, end) for end in ends)
    yield from (Link(0, end, join) for end in ends)


class Judge:
    """What is said of certificates for a system."""

    def __init__(self, system: SharedSystem) -> None:
        self.system = system
        # a join for each item that several tasks read: its readers
        self.joins = [item.readers for item in system.items if len(item.readers) > 1]
        self.places = [place for place, item in enumerate(system.items, 1) if len(item.readers) > 1]
        self.count = system.count + len(self.joins)
        self.links: list[Link] = []
        join = system.count
        for item in system.items:
            join += len(item.readers) > 1
            self.links += links_of(item, join)

    def verdict(self, certificate: Certificate) -> str:
        """What `check` prints."""
        objection = next(self.objections(certificate), None)
        return f"no {objection}\n" if objection else f"yes {certificate.bound}\n"

    def objections(self, certificate: Certificate) -> Iterator[str]:
        """The first of them is told; those after it are not to be asked for."""
        bound, workers, room, joins, fences, amounts = certificate
        if self.count > MOST_TASKS or len(self.links) > MOST_POSITIONS:
            yield "joins many"
        if joins != self.places:
            yield "joins items"
        if workers * room > bound:
            yield "workers room"
        for place, (_, end) in enumerate(fences, 1):
            if end > self.system.count:
                yield f"fence {place} join"
        if len(self.links) + len(fences) > MOST_POSITIONS:
            yield "fences many"
        for place, fence in enumerate(fences, 1):
            if not all(1 <= number <= self.count for number in fence):
                yield f"fence {place} tasks"
            if fence[0] == fence[1]:
                yield f"fence {place} apart"
        links = [*self.links, *(Link(0, start, end) for start, end in fences)]
        if left := self.in_circles(links):
            yield f"fences cycle {min(left)}"
        yield from self.objections_to_amounts(links, amounts)
        if (certified := self.certified(links, amounts, room)) > bound - workers * room:
            yield f"bound {certified}"

    def forbidding(self, fences: list[tuple[int, int]]) -> list[tuple[int, int]]:
        """The fences that forbid some run of the system as it stands: of what they let a task wait for, some task need not be done before it."""
        before = done_before(self.system)
        return [(start, end) for start, end in fences if set_behind(self.system, start) & ~before[end - 1]]

    def in_circles(self, links: list[Link]) -> set[int]:
        """The tasks and joins that stand in no list in which each stands after all that it waits for."""
        left = set(range(1, self.count + 1))
        while ready := left - {end for _, start, end in links if start in left}:
            left -= ready
        return left

    def objections_to_amounts(self, links: list[Link], amounts: list[int]) -> Iterator[str]:
        if len(amounts) != len(links):
            yield "amounts count"
        for place, (link, amount) in enumerate(zip(links, amounts), 1):
            if amount < link.size:
                yield f"amount {place} size"
            if amount > MOST_AMOUNT:
                yield f"amount {place} limit"
        if sum(amounts) > MOST_HANDED_ON:
            yield "amounts total"

    def certified(self, links: list[Link], amounts: list[int], room: int) -> int:
        """What is there at the start, and what each task and join draws beside what it is handed."""
        inputs, received, handed_on = ([0] * (self.count + 1) for _ in range(3))
        for link, amount in zip(links, amounts):
            inputs[link.end] += link.size
            received[link.end] += amount
            handed_on[link.start] += amount
        needs = [0, *(max(0, need - room) for need in self.system.needs), *([0] * len(self.joins))]
        drawn = (max(0, max(inputs[task] + needs[task], handed_on[task]) - received[task]) for task in range(1, self.count + 1))
        return handed_on[0] + sum(drawn)


def set_behind(system: SharedSystem, number: int) -> int:
    """The set of tasks that have to be done before a task or a join is over."""
    if number <= system.count:
        return 1 << number - 1
    return sum(1 << reader for reader in system.shared_items()[number - system.count - 1].readers)


def done_before(system: SharedSystem) -> list[int]:
    """Of each task the set of those that are done before it starts in every run: it waits for its suppliers, and so do these."""
    before, last = [0] * system.count, None
    while before != last:
        last = before
        before = [reduce(or_, (1 << maker | last[maker] for maker in makers), 0) for makers in system.suppliers]
    return before


class Moments:
    """All moments that parallel runs reach which keep to fences, with no more tasks at once than there are workers; 0 is any number."""

    def __init__(self, system: SharedSystem, fences: list[tuple[int, int]], workers: int) -> None:
        self.system, self.workers = system, workers or system.count
        # of each task, what fences let it wait for: sets of tasks
        self.waits: list[list[int]] = [[] for _ in range(system.count)]
        for start, end in fences:
            self.waits[end - 1].append(set_behind(system, start))
        self.most_used = self.count = 0
        # which tasks are done where none runs and none may start
        self.stop: Optional[int] = None
        self.look()

    def look(self) -> None:
        """Goes through all of them, each a set of done and one of running tasks."""
        seen, work = {(0, 0)}, [(0, 0)]
        while work:
            done, running = work.pop()
            self.most_used = max(self.most_used, self.used(done, running))
            later = set(self.after(done, running))
            if not later and done != 2**self.system.count - 1:
                self.stop = done
            work += later - seen
            seen |= later
        self.count = len(seen)

    def used(self, done: int, running: int) -> int:
        return self.system.memory(done) + sum(need for task, need in enumerate(self.system.needs) if running >> task & 1)

    def after(self, done: int, running: int) -> Iterator[tuple[int, int]]:
        """The moments after a start or an end."""
        for task in range(self.system.count):
            if running >> task & 1:
                yield done | 1 << task, running & ~(1 << task)
        if running.bit_count() < self.workers:
            for task in self.system.ready(done):
                if not running >> task & 1 and all(done & behind == behind for behind in self.waits[task]):
                    yield done, running | 1 << task
