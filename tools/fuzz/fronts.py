"""Plain models of the fronts of a matrix: their rows and their columns."""
from collections import Counter
from typing import NamedTuple, Optional

from models import Simulation, System, Tasks, rows


def later_of(text: bytes, order: Optional[list[int]], is_mindeg: bool) -> dict[int, set[int]]:
    """The vertices of a matrix as they are eliminated, in an order, or by number or degree, each with those of its column after it."""
    size, *entries = [[int(token) for token in tokens[:2]] for tokens in rows(text)]
    joined: dict[int, set[int]] = {vertex: set() for vertex in range(1, size[0] + 1)}
    for one, two in entries:
        joined[one].add(two)
        joined[two].add(one)
    later: dict[int, set[int]] = {}
    for turn in range(size[0]):
        degrees = ((len(near - {vertex}), vertex) for vertex, near in joined.items())
        vertex = order[turn] if order else min(degrees)[1] if is_mindeg else turn + 1
        later[vertex] = joined.pop(vertex) - {vertex}
        for near in later[vertex]:
            joined[near] = (joined[near] | later[vertex]) - {vertex}
    return later


def columns_of(later: dict[int, set[int]]) -> list[list[int]]:
    """The structures of a matrix's columns along the postorder of their elimination tree."""
    numbers_by = {vertex: number for number, vertex in enumerate(postorder_of_columns(later), 1)}
    return [sorted(numbers_by[row] for row in {vertex} | later[vertex]) for vertex in numbers_by]


def postorder_of_columns(later: dict[int, set[int]]) -> list[int]:
    """The vertices along the postorder of their elimination tree, where they stand in the order of their elimination."""
    place = {vertex: turn for turn, vertex in enumerate(later)}
    below: dict[Optional[int], list[int]] = {None: [], **{vertex: [] for vertex in later}}
    for vertex, rest in later.items():
        below[min(rest, key=place.__getitem__, default=None)].append(vertex)
    post: list[int] = []
    left = [*below[None]]
    while left:
        # each vertex before those below it, the last child first
        post.append(left.pop())
        left += below[post[-1]]
    return post[::-1]


def supernodes_of(columns: list[list[int]]) -> list[list[int]]:
    """The runs of columns of which each is the only child of the next and has one row more."""
    parents = [rows_of[1] if len(rows_of) > 1 else 0 for rows_of in columns]
    children = Counter(parents)
    supers: list[list[int]] = []
    for column, rows_of in enumerate(columns, 1):
        before = columns[column - 2]
        if column > 1 and parents[column - 2] == column and children[column] == 1 and len(before) == len(rows_of) + 1:
            supers[-1].append(column)
        else:
            supers.append([column])
    return supers


def fronts_report(columns: list[list[int]], bound: int, workers: int) -> str:
    """What `fronts` prints of a factor with these columns."""
    supers = supernodes_of(columns)
    home = {column: number for number, run in enumerate(supers) for column in run}
    items: list[list] = []
    for number, run in enumerate(supers):
        parent = columns[run[-1] - 1][1:2]
        items.append([len(columns[run[0] - 1]) - len(run), number, home[parent[0]] if parent else None])
    system, order = System([(len(run), 0, 1) for run in supers], items), list(range(1, len(supers) + 1))
    if system.peak(order) > bound:
        return f"refused bound {bound} {system.peak(order)}\n"
    simulation = Simulation(system, order, order, bound, workers)
    simulation.report()
    rounds: dict[str, list[str]] = {}
    for time, word, number in (event.split() for event in simulation.events):
        if word == "start":
            rounds.setdefault(time, []).append(number)
    lists = [*rounds.values(), *([str(row) for row in columns[run[0] - 1]] for run in supers)]
    head = f"fronts {len(supers)}\nrounds {len(rounds)}\nused {simulation.most_used}\n"
    return head + "".join(" ".join(line) + "\n" for line in lists) + "end\n"


class Front(NamedTuple):
    """A front: its columns by rising number, how many further rows it has, and the front that takes these up; 0 is none."""

    columns: list[int]
    rest: int
    parent: int


def fronts_of(columns: list[list[int]], zeros: Optional[int]) -> list[Front]:
    """The fronts of a factor with these columns, where those are merged into their parents that put at most so many zeros into it."""
    supers = supernodes_of(columns)
    home = {column: number for number, run in enumerate(supers, 1) for column in run}
    fronts: dict[int, Front] = {}
    for number, run in enumerate(supers, 1):
        above = columns[run[-1] - 1][1:2]
        fronts[number] = Front(run, len(columns[run[0] - 1]) - len(run), home[above[0]] if above else 0)
    for number in range(1, len(supers) + 1) if zeros is not None else []:
        merge_into_parent(fronts, number, zeros or 0)
    left = {0: 0, **{number: place for place, number in enumerate(fronts, 1)}}
    return [front._replace(parent=left[front.parent]) for front in fronts.values()]


def merge_into_parent(fronts: dict[int, Front], number: int, zeros: int) -> None:
    """Puts the columns of a front, and its children, to those of its parent, where that adds at most so many zeros."""
    child = fronts[number]
    if not child.parent:
        return
    parent = fronts[child.parent]
    if len(child.columns) * (len(parent.columns) + parent.rest - child.rest) > zeros:
        return
    fronts[child.parent] = parent._replace(columns=sorted(child.columns + parent.columns))
    del fronts[number]
    for other, front in fronts.items():
        if front.parent == number:
            fronts[other] = front._replace(parent=child.parent)


def tasks_of_fronts(fronts: list[Front]) -> Tasks:
    """The fronts as tasks, of which each waits for its children."""
    tasks = Tasks(len(fronts))
    for number, front in enumerate(fronts):
        if front.parent:
            tasks.suppliers[front.parent - 1].add(number)
    return tasks


def vertices_of_fronts(later: dict[int, set[int]], zeros: Optional[int], order: Optional[list[int]]) -> tuple[list[list[int]], Optional[str]]:
    """The vertices that each front eliminates, in their turn, the fronts in an order or by number; and the first fault of that order."""
    post, fronts = postorder_of_columns(later), fronts_of(columns_of(later), zeros)
    asked = list(range(1, len(fronts) + 1)) if order is None else order
    if fault := tasks_of_fronts(fronts).fault(asked):
        return [], fault
    return [[post[column - 1] for column in fronts[number - 1].columns] for number in asked], None


def columns_report(vertices: list[list[int]], is_permutation: bool) -> str:
    """What `columns` prints of fronts that eliminate these."""
    if is_permutation:
        return "".join(f"{vertex}\n" for front in vertices for vertex in front)
    return "".join([f"columns {len(vertices)}\n", *(" ".join(map(str, front)) + "\n" for front in vertices), "end\n"])
