"""Plain models of what memplan computes: systems, their peaks, simulated runs, spills; and the values of files that were accepted."""
import itertools
import math
import re
from collections.abc import Callable, Iterable, Iterator
from typing import NamedTuple, Optional


class Tasks:
    """Tasks, counted from 0, of which each has to wait for its suppliers."""

    def __init__(self, count: int) -> None:
        self.count = count
        self.suppliers: list[set[int]] = [set() for _ in range(count)]

    def fault(self, order: list[int]) -> Optional[str]:
        """Where and why this order of numbers from 1 is no traversal."""
        done: set[int] = set()
        for place, number in enumerate(order, 1):
            task = number - 1
            if not 0 <= task < self.count:
                return f"no order {place} unknown\n"
            if task in done:
                return f"no order {place} repeated\n"
            if not self.suppliers[task] <= done:
                return f"no order {place} too-early\n"
            done.add(task)
        return f"no order {len(order) + 1} missing\n" if len(done) < self.count else None

    def ready(self, done: int) -> Iterator[int]:
        """The tasks that may come next, where those of this set are done."""
        for task in range(self.count):
            if not done >> task & 1 and all(done >> supplier & 1 for supplier in self.suppliers[task]):
                yield task

    def traversals(self, order: tuple[int, ...] = (), done: int = 0) -> Iterator[tuple[int, ...]]:
        """All traversals that begin with this order, whose tasks are those of the set; as numbers from 1."""
        if len(order) == self.count:
            yield order
        for task in self.ready(done):
            yield from self.traversals((*order, task + 1), done | 1 << task)


class Held(NamedTuple):
    """A size that is held across these steps of an order, counted from 0; they follow one on the other."""

    size: int
    steps: list[int]


class SizedTasks(Tasks):
    """Tasks with their times, with what they need and with what is there between them; what tells of items differs by how many tasks read one."""

    def __init__(self, tasks: list[tuple[int, int, int]], made: list[int]) -> None:
        """Tasks are their extra, share and time; each makes so much."""
        super().__init__(len(tasks))
        self.tasks = tasks
        self.times = [time for _, _, time in tasks]
        self.needs = [extra + out - share for (extra, share, _), out in zip(tasks, made)]

    def memory(self, done: int) -> int:
        """What is there between tasks, where those of this set are done."""
        raise NotImplementedError

    def own_need(self, number: int) -> int:
        """What a task reads, and what it needs beside that."""
        raise NotImplementedError

    def held(self, order: list[int]) -> dict[tuple[int, ...], Held]:
        """What is held along a traversal without being used, each by the numbers that `spill` prints of it, in the order in which it does."""
        raise NotImplementedError


class System(SizedTasks):
    """Tasks, and the items between them."""

    def __init__(self, tasks: list[tuple[int, int, int]], items: list[list]) -> None:
        """Tasks are their extra, share and time; items are their size, the task that makes them and the one that takes them, or None."""
        self.first = sum(size for size, maker, _ in items if maker is None)
        taken, made = [0] * len(tasks), [0] * len(tasks)
        for size, maker, taker in items:
            if maker is not None:
                made[maker] += size
            if taker is not None:
                taken[taker] += size
        super().__init__(tasks, made)
        for _, maker, taker in items:
            if maker is not None and taker is not None:
                self.suppliers[taker].add(maker)
        self.items, self.taken = items, taken
        self.gains = [out - back for out, back in zip(made, taken)]

    def peak(self, order: list[int]) -> int:
        """The greatest memory along a traversal."""
        memory = peak = self.first
        for number in order:
            peak = max(peak, memory + self.needs[number - 1])
            memory += self.gains[number - 1]
            peak = max(peak, memory)
        return peak

    def own_need(self, number: int) -> int:
        return self.taken[number - 1] + self.needs[number - 1]

    def held(self, order: list[int]) -> dict[tuple[int, ...], Held]:
        """The items, counted from 1: each from the step after its maker's to the step before that which takes it up."""
        place = {number - 1: step for step, number in enumerate(order)}
        spans = [(size, -1 if maker is None else place[maker], place.get(taker, len(order))) for size, maker, taker in self.items]
        return {(item,): Held(size, list(range(first + 1, last))) for item, (size, first, last) in enumerate(spans, 1)}

    def least_peak(self) -> int:
        """The least peak of all traversals, by the sets of tasks that are done."""
        best = {0: (self.first, self.first)}
        for _ in range(self.count):
            after: dict[int, tuple[int, int]] = {}
            for done, (peak, memory) in best.items():
                for task in self.ready(done):
                    left = memory + self.gains[task]
                    high = max(peak, memory + self.needs[task], left)
                    key = done | 1 << task
                    if key not in after or high < after[key][0]:
                        after[key] = (high, left)
            best = after
        return min(peak for peak, _ in best.values())

    def memory(self, done: int) -> int:
        return self.first + sum(gain for task, gain in enumerate(self.gains) if done >> task & 1)

    def staircase(self, backwards: bool) -> list[tuple[int, int]]:
        """How low memory can come within each bound, from the first state on or from the last one back: bounds, with their levels."""
        start = (1 << self.count) - 1 if backwards else 0
        best = {start: self.memory(start)}
        reached = dict(best)
        for _ in range(self.count):
            after: dict[int, int] = {}
            for done, high in best.items():
                for task in self.undone(done) if backwards else self.ready(done):
                    left = done ^ 1 << task
                    way = max(high, self.memory(left & done) + self.needs[task], self.memory(left))
                    after[left] = min(way, after.get(left, way))
            reached.update(after)
            best = after
        steps, level = [], self.memory(start)
        for bound, memory in sorted((high, self.memory(done)) for done, high in reached.items()):
            if memory < level:
                steps.append((bound, memory))
                level = memory
        return steps

    def undone(self, done: int) -> Iterator[int]:
        """The tasks of this set that may have come last."""
        for task in range(self.count):
            if done >> task & 1 and not any(done >> taker & 1 and task in self.suppliers[taker] for taker in range(self.count)):
                yield task


class Simulation:
    """The run of a system on several workers within a bound."""

    def __init__(self, system: SizedTasks, order: list[int], priority: list[int], bound: int, workers: int) -> None:
        self.system, self.order, self.bound, self.workers = system, order, bound, workers
        self.rank = {number: place for place, number in enumerate(priority)}
        self.place = {number: place for place, number in enumerate(order)}
        self.waiting: set[int] = set()
        self.due: dict[int, int] = {}
        self.done: set[int] = set()
        self.most_used = self.most_booked = self.there()
        self.events: list[str] = []

    def report(self) -> str:
        """What `simulate` prints of it."""
        time = activated = 0
        while True:
            for number in sorted((task for task, end in self.due.items() if end == time), key=self.place.__getitem__):
                self.finish(time, number)
            while activated < len(self.order) and self.fits(self.order[activated]):
                self.activate(time, self.order[activated])
                activated += 1
            while len(self.due) < self.workers and (startable := self.startable()):
                self.start(time, min(startable, key=self.rank.__getitem__))
            if not self.due:
                break
            time = min(self.due.values())
        head = f"makespan {time}\nused {self.most_used}\nbooked {self.most_booked}\nevents {len(self.events)}\n"
        return head + "".join(self.events) + "end\n"

    def there(self) -> int:
        """The items that are there."""
        return self.system.memory(sum(1 << number - 1 for number in self.done))

    def used(self) -> int:
        """These, and what the running tasks need."""
        return self.there() + sum(self.system.needs[number - 1] for number in self.due)

    def booked(self) -> int:
        """These, and what the tasks need that are activated and not done."""
        return self.there() + sum(self.system.needs[number - 1] for number in [*self.waiting, *self.due])

    def fits(self, number: int) -> bool:
        return self.booked() + self.system.needs[number - 1] <= self.bound

    def startable(self) -> list[int]:
        return [number for number in self.waiting if {task + 1 for task in self.system.suppliers[number - 1]} <= self.done]

    def activate(self, time: int, number: int) -> None:
        self.waiting.add(number)
        self.note(time, "activate", number)

    def start(self, time: int, number: int) -> None:
        self.waiting.remove(number)
        self.due[number] = time + self.system.times[number - 1]
        self.note(time, "start", number)

    def finish(self, time: int, number: int) -> None:
        del self.due[number]
        self.done.add(number)
        self.note(time, "finish", number)

    def note(self, time: int, word: str, number: int) -> None:
        self.most_used = max(self.most_used, self.used())
        self.most_booked = max(self.most_booked, self.booked())
        self.events.append(f"{time} {word} {number}\n")


class Spilling:
    """A traversal of a system within a bound, where part of what is held may be on disk."""

    def __init__(self, system: SizedTasks, order: list[int], bound: int) -> None:
        self.bound, self.held = bound, system.held(order)
        self.needs = [system.own_need(number) for number in order]

    def working_set(self) -> Optional[str]:
        """The first step that needs more for itself than the bound."""
        for step, need in enumerate(self.needs, 1):
            if need > self.bound:
                return f"refused working-set {step} {need} {self.bound}\n"
        return None

    def across(self, step: int) -> list[tuple[int, ...]]:
        """What is held across a step."""
        return [name for name, it in self.held.items() if step in it.steps]

    def over(self, step: int, amounts: dict[tuple[int, ...], int]) -> int:
        """By how much a step passes the bound where so much of what is held is on disk, or below 0 what is left below it."""
        return self.needs[step] + sum(self.held[name].size - amounts.get(name, 0) for name in self.across(step)) - self.bound

    def is_plan(self, amounts: dict[tuple[int, ...], int]) -> bool:
        """Whether these are amounts of what is held, within which each step fits."""
        is_within = all(name in self.held and amount <= self.held[name].size for name, amount in amounts.items())
        return is_within and all(self.over(step, amounts) <= 0 for step in range(len(self.needs)))

    def least_volume(self) -> int:
        """What has to be spilled where no step alone needs too much: from the last step back, of what is held the longest first."""
        return sum(self.spilled(list(range(len(self.needs)))[::-1], lambda it: it.steps[0]).values())

    def chosen(self) -> dict[tuple[int, ...], int]:
        """What `spill` takes to disk: at each step in turn first of what is held the longest from there on, and by number where that is the same."""
        return self.spilled(list(range(len(self.needs))), lambda it: -it.steps[-1])

    def spilled(self, steps: list[int], rank: Callable[[Held], int]) -> dict[tuple[int, ...], int]:
        """The amounts where at each of these steps what passes the bound is spilled, first of what ranks first."""
        amounts = dict.fromkeys(self.held, 0)
        for step in steps:
            over = self.over(step, amounts)
            for name in sorted(self.across(step), key=lambda name: rank(self.held[name])):
                part = max(0, min(self.held[name].size - amounts[name], over))
                amounts[name] += part
                over -= part
        return amounts

    def trials(self) -> int:
        """In how many ways amounts can be given to what is held across some step."""
        return math.prod(it.size + 1 for it in self.held.values() if it.steps)

    def least_by_trial(self) -> int:
        """The least volume of all ways in which amounts can be given, where no step alone needs too much."""
        names = [name for name, it in self.held.items() if it.steps]
        tried = itertools.product(*(range(self.held[name].size + 1) for name in names))
        return min(sum(amounts) for amounts in tried if self.is_plan(dict(zip(names, amounts))))

    def report(self, word: str, amounts: dict[tuple[int, ...], int]) -> str:
        """What `spill` prints of amounts, which are those of items or of gaps."""
        lines = ["".join(f"{number} " for number in name) + f"{amounts[name]}\n" for name in self.held if amounts.get(name)]
        return f"volume {sum(amounts.values())}\n{word} {len(lines)}\n{''.join(lines)}end\n"


# ---- files that were accepted, as values


def rows(text: bytes) -> list[list[str]]:
    """The lines that count, as tokens."""
    split = ([token.decode("latin-1") for token in re.split(rb"[ \t\r]+", line) if token] for line in text.split(b"\n"))
    return [tokens for tokens in split if tokens and tokens[0][0] not in "%#"]


def numbers(text: bytes) -> list[int]:
    """All tokens of a file of numbers."""
    return [int(token) for tokens in rows(text) for token in tokens]


def order_of(text: bytes) -> list[int]:
    """The order that an order file states, or a report."""
    lines = rows(text)
    is_report = lines[:1] and lines[0][0] == "peak"
    return [int(token) for tokens in (lines[2:-1] if is_report else lines) for token in tokens]


def inverse_of(places: list[int]) -> list[int]:
    """The order of 1 to n in which each stands at its place, counted from 0 or from 1."""
    return sorted(range(1, len(places) + 1), key=lambda vertex: places[vertex - 1])


def tree_parents(text: bytes) -> list[int]:
    """The parents of a tree's nodes; 0 is none."""
    return [int(tokens[0]) for tokens in rows(text)[2:-1]]


def children_of(parents: list[int]) -> list[list[int]]:
    """The children of each node, in rising number; at 0 the roots."""
    below: list[list[int]] = [[] for _ in range(len(parents) + 1)]
    for number, parent in enumerate(parents, 1):
        below[parent].append(number)
    return below


def postorder_of(below: list[list[int]]) -> Iterator[int]:
    """The nodes, children before their node."""
    left = [(number, False) for number in reversed(below[0])]
    while left:
        number, are_children_done = left.pop()
        if are_children_done:
            yield number
            continue
        left.append((number, True))
        left.extend((child, False) for child in reversed(below[number]))


def system_of_tree(text: bytes) -> System:
    tasks, items = [], []
    for node, tokens in enumerate(rows(text)[2:-1]):
        parent, out, extra, *share, time = map(int, tokens)
        tasks.append((extra, *(share or [0]), time))
        items.append([out, node, parent - 1 if parent else None])
    return System(tasks, items)


def system_of_workflow(text: bytes) -> System:
    tasks: list[tuple[int, int, int]] = []
    items: list[list] = []
    # a term is the items that are there at its start, and those that are there at its end
    stack: list[tuple[list[int], list[int]]] = []
    for word, *tokens in rows(text)[2:-1]:
        values = [int(token) for token in tokens]
        if word == "data":
            stack.append(([len(items)], [len(items)]))
            items.append([values[0], None, None])
        elif word == "task":
            (first, taken), (made, last) = stack[-2:]
            for item in taken:
                items[item][2] = len(tasks)
            for item in made:
                items[item][1] = len(tasks)
            tasks.append((values[0], values[1] if len(values) == 3 else 0, values[-1]))
            stack[-2:] = [(first, last)]
        else:
            parts = stack[-values[0] :]
            joined = ([item for part in parts for item in part[side]] for side in (0, 1))
            stack[-values[0] :] = [tuple(joined)]
    return System(tasks, items)


# ---- task graphs


class Graph(NamedTuple):
    """The tasks of a graph, each its extra, share and time, and the arcs of the completed graph, each its ends and its size; 0 is none."""

    tasks: list[tuple[int, int, int]]
    arcs: list[tuple[int, int, int]]


def graph_of(text: bytes) -> Graph:
    lines = [[int(token) for token in tokens if token.isdigit()] for tokens in rows(text)]
    count = lines[1][0]
    tasks = [tuple(line) for line in lines[2 : 2 + count]]
    return completed(Graph(tasks, [tuple(line) for line in lines[3 + count : -1]]))


def completed(graph: Graph) -> Graph:
    """With an arc of size 0 into each task that has none, and out of each."""
    numbers_of_tasks = range(1, len(graph.tasks) + 1)
    starts, ends = {arc[0] for arc in graph.arcs}, {arc[1] for arc in graph.arcs}
    into = [(0, number, 0) for number in numbers_of_tasks if number not in ends]
    return Graph(graph.tasks, [*graph.arcs, *into, *((number, 0, 0) for number in numbers_of_tasks if number not in starts)])


def rest_of(graph: Graph) -> list[tuple[int, int]]:
    """The ends of the arcs that are left where no reduction applies, in rising order."""
    left = {arc[:2] for arc in graph.arcs}
    is_less = True
    while is_less:
        is_less = False
        for task in range(1, len(graph.tasks) + 1):
            into, out = [arc for arc in left if arc[1] == task], [arc for arc in left if arc[0] == task]
            if len(into) == len(out) == 1:
                left = left - {into[0], out[0]} | {(into[0][0], out[0][1])}
                is_less = True
    return sorted(left)


# ---- task graphs whose items have several readers


class SharedItem(NamedTuple):
    """An item with its size, the task that makes it, or None, and those that read it; tasks are counted from 0."""

    size: int
    maker: Optional[int]
    readers: list[int]

    def is_held(self, done: int) -> bool:
        """Whether it is there where the tasks of this set are done: from the end of its maker to the end of its last reader."""
        is_made = self.maker is None or done >> self.maker & 1
        is_read = bool(self.readers) and all(done >> reader & 1 for reader in self.readers)
        return bool(is_made) and not is_read

    def waits_across(self, step: int, reader: Optional[int], place: dict[int, int]) -> bool:
        """Whether it is held across a step in the gap up to this reader, or to the end, where tasks stand at these steps: it is made before the step,
        the reader comes after it, and each other reader before it, or not before the reader."""
        is_made = self.maker is None or place[self.maker] < step
        if reader is None:
            return is_made
        others = (place[other] for other in self.readers if other != reader)
        return is_made and step < place[reader] and all(other < step or other >= place[reader] for other in others)


class SharedSystem(SizedTasks):
    """Tasks, and items that any number of them read."""

    def __init__(self, tasks: list[tuple[int, int, int]], items: list[SharedItem]) -> None:
        """Tasks are their extra, share and time."""
        super().__init__(tasks, [sum(item.size for item in items if item.maker == task) for task in range(len(tasks))])
        self.items = items
        for item in items:
            for reader in item.readers if item.maker is not None else []:
                self.suppliers[reader].add(item.maker)
        # by the set of tasks that are done
        self.memories: dict[int, int] = {}

    def memory(self, done: int) -> int:
        if done not in self.memories:
            self.memories[done] = sum(item.size for item in self.items if item.is_held(done))
        return self.memories[done]

    def peak(self, order: Iterable[int]) -> int:
        """The greatest memory along a traversal."""
        done, peak = 0, self.memory(0)
        for number in order:
            running = self.memory(done) + self.needs[number - 1]
            done |= 1 << number - 1
            peak = max(peak, running, self.memory(done))
        return peak

    def own_need(self, number: int) -> int:
        return sum(item.size for item in self.items if number - 1 in item.readers) + self.needs[number - 1]

    def held(self, order: list[int]) -> dict[tuple[int, ...], Held]:
        """The gaps between the uses of each item, by the numbers of the item and of the reader that a gap goes up to; 0 is the end."""
        place = {number - 1: step for step, number in enumerate(order)}
        gaps: dict[tuple[int, ...], Held] = {}
        for number, item in enumerate(self.items, 1):
            for reader in item.readers or [None]:
                steps = [step for step in range(len(order)) if item.waits_across(step, reader, place)]
                gaps[number, 0 if reader is None else reader + 1] = Held(item.size, steps)
        return gaps

    def shared_items(self) -> list[SharedItem]:
        """The items that several tasks read."""
        return [item for item in self.items if len(item.readers) > 1]

    def with_collectors(self, order: Iterable[int]) -> list[int]:
        """A traversal in which each item that several tasks read is taken up after the last of them by a task of its own."""
        whole, seen = [], set()
        for number in order:
            whole.append(number)
            seen.add(number - 1)
            for collector, item in enumerate(self.shared_items(), self.count + 1):
                if number - 1 in item.readers and seen.issuperset(item.readers):
                    whole.append(collector)
        return whole


def planned_peak(text: bytes) -> int:
    """The peak that a plan of any version states."""
    _, (_, count), *lines = rows(text)
    return int(lines[int(count)][1])


def shared_system_of_graph(text: bytes) -> SharedSystem:
    """That of a graph of either version."""
    (_, version), (_, count), *lines = rows(text)
    tasks = [tuple(map(int, line)) for line in lines[: int(count)]]
    items = []
    for line in lines[int(count) + 1 : -1]:
        values = [int(token) for token in line]
        size, maker, *readers = values if version == "2" else [values[2], values[0], *filter(None, [values[1]])]
        items.append(SharedItem(size, maker - 1 if maker else None, [reader - 1 for reader in readers]))
    return SharedSystem(tasks, items)


def shared_of(system: System) -> SharedSystem:
    """The same system, in which each item has one reader or none."""
    return SharedSystem(system.tasks, [SharedItem(size, maker, [] if taker is None else [taker]) for size, maker, taker in system.items])


def collected(system: SharedSystem) -> Graph:
    """The graph of version 1 in which a task of its own, without need, takes up what several tasks read, and waits for all of them."""
    tasks, arcs = list(system.tasks), []
    for size, maker, readers in system.items:
        start, ends = 0 if maker is None else maker + 1, [reader + 1 for reader in readers]
        if len(ends) > 1:
            tasks.append((0, 0, 1))
            arcs += [(start, end, 0) for end in ends if start] + [(end, len(tasks), 0) for end in ends]
            ends = [len(tasks)]
        arcs.append((start, ends[0] if ends else 0, size))
    return Graph(tasks, arcs)


def is_after(system: SharedSystem, later: int, earlier: int) -> bool:
    """Whether a task comes after another in every traversal: it reads, over others or not, what that makes."""
    return any(supplier == earlier or is_after(system, supplier, earlier) for supplier in system.suppliers[later])


def last_reader(system: SharedSystem, item: SharedItem) -> Optional[int]:
    """The reader of an item that comes after all its other readers."""
    return next((last for last in item.readers if all(is_after(system, last, other) for other in item.readers if other != last)), None)


def arcs_of_item(item: SharedItem, last: Optional[int]) -> list[tuple[int, int, int]]:
    """An arc for each reader, to the last one with the item; or one to none where nobody reads it."""
    start = 0 if item.maker is None else item.maker + 1
    return [(start, reader + 1, item.size if reader == last else 0) for reader in item.readers] or [(start, 0, item.size)]


def joins_of(system: SharedSystem) -> list[list[int]]:
    """The tasks of each join: those that have the same readers, two of them or more, or just the readers of an item; in the order of the first."""
    readers: list[set[int]] = [set() for _ in range(system.count)]
    for item in system.items:
        if item.maker is not None:
            readers[item.maker].update(item.readers)
    kinds: dict[frozenset[int], list[int]] = {}
    for task in range(system.count):
        kinds.setdefault(frozenset(readers[task]), []).append(task)
    sets = [set(item.readers) for item in system.items if len(item.readers) > 1]
    return [tasks for kind, tasks in kinds.items() if kind and (len(tasks) > 1 and len(kind) > 1 or set(tasks) in sets)]


def joined(system: SharedSystem) -> SharedSystem:
    """With its joins, which come after the tasks: what a join's tasks make for others goes through it, and what just these tasks read is read by
    it too."""
    joins = joins_of(system)
    join_of = {task: system.count + place for place, tasks in enumerate(joins) for task in tasks}
    through, items = [0] * len(joins), []
    for item in system.items:
        readers = [*item.readers]
        if len(readers) > 1 and readers in joins:
            readers.append(system.count + joins.index(readers))
        join = join_of.get(item.maker) if item.readers else None
        if join is None:
            items.append(SharedItem(item.size, item.maker, readers))
        else:
            through[join - system.count] += item.size
            items += [SharedItem(item.size, item.maker, [join]), SharedItem(item.size, join, readers)]
    return SharedSystem([*system.tasks, *((0, size, 1) for size in through)], items)


def rest_text(word: str, graph: Graph) -> Optional[str]:
    """What `reduce` says of a completed graph that has no term."""
    if (rest := rest_of(graph)) == [(0, 0)]:
        return None
    return "".join([f"refused graph {word} {len(rest)}\n", *(f"{start} {end}\n" for start, end in rest), "end\n"])


def reduction_of(text: bytes) -> tuple[Graph, Optional[str]]:
    """Of a graph of either version the completed graph of which `reduce` prints a term, or what it says where there is none."""
    if rows(text)[0][1] == "1":
        graph = graph_of(text)
        return graph, rest_text("rest", graph)
    system = joined(shared_system_of_graph(text))
    bare = [(0, 0, 1)] * system.count
    uses = completed(Graph(bare, [(start, end, 0) for item in system.items for start, end, _ in arcs_of_item(item, None) if end]))
    if system.shared_items() and (refusal := rest_text("uses", uses)):
        return uses, refusal
    lasts = [last_reader(system, item) for item in system.items]
    for number, (item, last) in enumerate(zip(system.items, lasts), 1):
        if item.readers and last is None:
            return uses, f"refused graph item {number}\n"
    graph = completed(Graph(system.tasks, [arc for item, last in zip(system.items, lasts) for arc in arcs_of_item(item, last)]))
    return graph, rest_text("rest", graph)


def system_of_graph(graph: Graph) -> System:
    return System(graph.tasks, [[size, start - 1 if start else None, end - 1 if end else None] for start, end, size in graph.arcs])


# ---- plans


class Plan(NamedTuple):
    """A plan file."""

    order: list[int]
    priority: list[int]
    peak: int
    claims: list[list]


def plan_of(text: bytes) -> Plan:
    lines = rows(text)
    sections: dict[str, list[list[str]]] = {}
    place = 1
    while place < len(lines) - 1:
        word, number = lines[place]
        count = 0 if word == "peak" else int(number)
        sections[word] = [[number]] + lines[place + 1 : place + 1 + count]
        place += 1 + count
    claims = [[int(claim[0]), claim[1], int(claim[2]), int(claim[3])] for claim in sections["claims"][1:]]
    order, priority = ([int(line[0]) for line in sections.get(word, [[]])[1:]] for word in ("order", "priority"))
    return Plan(order, priority, int(sections["peak"][0][0]), claims)


# ---- terms, and what a checker objects to in a plan


def term_of_workflow(text: bytes) -> list[tuple[str, list[int]]]:
    """The positions of a term, as words with their numbers; a task has its extra and its share."""
    positions = []
    for word, *tokens in rows(text)[2:-1]:
        values = [int(token) for token in tokens]
        if word == "task":
            values = [values[0], values[1] if len(values) == 3 else 0]
        positions.append((word, values))
    return positions


def term_of_tree(text: bytes) -> list[tuple[str, list[int]]]:
    """The same of a tree's term: children before their node, in rising number."""
    nodes = [[int(token) for token in tokens] for tokens in rows(text)[2:-1]]
    below = children_of(tree_parents(text))
    positions: list[tuple[str, list[int]]] = []
    for number in postorder_of(below):
        _, out, extra, *share, _ = nodes[number - 1]
        if not below[number]:
            positions.append(("data", [0]))
        elif len(below[number]) > 1:
            positions.append(("par", [len(below[number])]))
        positions += [("data", [out]), ("task", [extra, *(share or [0])])]
    return positions + ([("par", [len(below[0])])] if len(below[0]) > 1 else [])


def system_of_term(term: list[tuple[str, list[int]]]) -> System:
    """The system of a term, whose tasks take no matter what time."""
    lines = [" ".join([word, *map(str, values), *(["1"] if word == "task" else [])]) for word, values in term]
    return system_of_workflow("\n".join(["workflow 2", "tasks 0", *lines, "end"]).encode())


class Part(NamedTuple):
    """A part of a term: where it ends, its own parts, its hill if it is a series, and its memory at the start, at the end and at least."""

    position: int
    parts: list["Part"]
    word: str
    hill: int
    first: int
    last: int
    least: int


def parts_of(term: list[tuple[str, list[int]]]) -> list[Part]:
    """The part that ends at each position."""
    parts: list[Part] = []
    stack: list[Part] = []
    for position, (word, values) in enumerate(term, 1):
        if word == "data":
            part = Part(position, [], word, 0, values[0], values[0], values[0])
        elif word == "task":
            before, after = stack[-2:]
            hill = before.last + values[0] + after.first - values[1]
            part = Part(position, [before, after], word, hill, before.first, after.last, min(before.least, after.least))
            del stack[-2:]
        else:
            sides = stack[-values[0] :]
            del stack[-values[0] :]
            sums = [sum(numbers) for numbers in zip(*((side.first, side.last, side.least) for side in sides))]
            part = Part(position, sides, word, 0, *sums)
        parts.append(part)
        stack.append(part)
    return parts


def first_position(part: Part) -> int:
    """Where a part begins."""
    while part.parts:
        part = part.parts[0]
    return part.position


def meets_rule(part: Part, claims: dict[int, list], claim: list) -> bool:
    """Whether a claim on a part follows from those on its own parts."""
    _, direction, bound, rest = claim
    if part.word == "data":
        return part.first > bound and rest <= part.first
    if part.word == "par":
        return follows_beside(part, claims, direction, bound, rest)
    before, after = part.parts if direction == "F" else part.parts[::-1]
    lower, upper = (claims.get(side.position) for side in (before, after))
    is_low = rest <= before.least
    return (
        (lower is not None and lower[1] == direction and lower[2] == bound and lower[3] >= rest)
        or (lower is not None and lower[1] != direction and lower[2] == bound and is_low)
        or (part.hill > bound and is_low)
        or (upper is not None and upper[1] == direction and upper[2] == bound and upper[3] >= rest and is_low)
    )


def follows_beside(part: Part, claims: dict[int, list], direction: str, bound: int, rest: int) -> bool:
    """The same where the parts stand side by side."""
    found = [claims.get(side.position) for side in part.parts]
    values = [claim[3] if claim and claim[1] == direction else side.least for side, claim in zip(part.parts, found)]
    whole = sum(values)
    fits = (claim[2] >= bound - (whole - value) for claim, value in zip(found, values) if claim)
    return any(found) and all(fits) and rest <= whole


def objection(system: System, term: list[tuple[str, list[int]]], plan: Plan) -> Optional[str]:
    """The first objection to a plan."""
    if fault := system.fault(plan.order):
        return fault
    if system.peak(plan.order) != plan.peak:
        return f"no peak {system.peak(plan.order)} {plan.peak}\n"
    claims = {claim[0]: claim for claim in plan.claims}
    if len(term) not in claims or claims[len(term)][2] < plan.peak - 1:
        return f"no root {len(term)}\n"
    parts = parts_of(term)
    for claim in plan.claims:
        if claim[0] > len(term):
            return f"no claim {claim[0]} outside\n"
        part = parts[claim[0] - 1]
        if not meets_rule(part, claims, claim):
            return f"no claim {claim[0]} {'series' if part.word == 'task' else part.word}\n"
    return None
