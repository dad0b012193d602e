"""Pictures over matplotlib: memory along orders, simulated runs, trees, graphs, staircases, and makespans against bounds.

Each is drawn into the axes that are given, or into those of a new figure, which pyplot makes, and comes back; nothing else of matplotlib is
changed. ``unit`` says what memory is counted in. Of more than a thousand steps those beside each other are put together in a thousand
columns, each as high as the highest of them, so that a peak is seen among a million. What is refused is told as by `replay`.

The results have these as their own: `Plan.plot`, `Simulation.plot`, `Segments.plot`, `Tree.plot`, `Graph.plot`.
"""

from __future__ import annotations

from itertools import cycle
from typing import Any, Dict, Iterable, List, Mapping, Optional, Sequence, Tuple, Union

try:
    import matplotlib  # noqa: F401: told here, for it is asked for in several files
    import numpy
except ImportError as lack:
    raise ImportError("pictures need matplotlib and numpy: pip install 'memplan[plot]' (Debian: python3-matplotlib)") from lack

from . import _plot_boxes as boxes
from . import _plot_run as runs
from . import _plot_stairs as staircases
from ._plot_look import (
    BLUE,
    COLOURS,
    GREEN,
    HEADROOM,
    LETTER,
    MOST_NAMED,
    ORANGE,
    PURPLE,
    RED,
    Steps,
    count_axis,
    draw_levels,
    grouped,
    labelled,
    legend_above,
    new_axes,
    plain,
    titled,
)
from ._plot_memory import By, Panel, draw_courses, times_of, title_of
from ._systems import Course, Drawn, System, course_of, system_of, unit_of
from ._types import Axes
from ._work import Ordered
from .graphs import Graph
from .results import Plan, Segments, Simulation, Stairs
from .trees import Tree

__all__ = ["graph", "makespans", "memory", "orders", "run", "segments", "tree", "used", "workers"]

LINES = (BLUE, RED, GREEN, PURPLE, ORANGE)

MOST_BOXES = 24
"""How many tasks of a tree are drawn where nothing else is said."""

WIDEST, HIGHEST = 14.0, 10.0
"""Of a new figure, in inches."""


def _course(work: Drawn, order: Ordered) -> Course:
    """A `System` and what is asked of it was judged already."""
    if isinstance(work, System):
        return course_of(work, numpy.array(order, "int64"))
    work.replay(order)
    return course_of(system_of(work), numpy.array(work._numbered(order), "int64"))


def _names(work: Drawn, numbers: Iterable[int]) -> List[Any]:
    """What so few tasks are called."""
    return [number if isinstance(work, System) else work.naming.name(number) for number in numbers]


def _named(work: Drawn, course: Course) -> List[Any]:
    return _names(work, course.tasks.tolist()) if len(course.tasks) <= MOST_NAMED else []


def memory(
    work: Drawn,
    order: Ordered,
    ax: Optional[Axes] = None,
    *,
    unit: Optional[str] = None,
    by: By = "tasks",
    label: str = "",
    bound: Optional[int] = None,
) -> Axes:
    """Memory along an order, or that of a plan: between tasks, and while each runs; the peak is dark. A dashed line is at ``bound``, or, of
    a plan whose peak is not known to be least, at its bound. ``by`` says whether tasks are all as wide, or as wide as they take long.

    >>> axes = plot.memory(FIVE, ["a", "b", "c", "d", "top"], unit="entries")
    >>> axes.get_title(loc="left"), axes.get_xlabel(), axes.get_ylabel()
    ('peak 15 entries', 'tasks that are done', 'memory (entries)')
    """
    course, told = _course(work, order), unit_of(work, unit)
    axes = new_axes(1, (8, 3))[0] if ax is None else ax
    panel = Panel(axes, course, times_of(system_of(work), course, by))
    if bound is not None:
        panel.rise_to(max(course.peak, bound))
        panel.line(bound, "bound")
    elif isinstance(order, Plan) and not order.is_least:
        panel.line(order.bound, "no order is below")
    panel.end(title_of(label, course.peak, told), told, by)
    panel.name(_named(work, course))
    return axes


def orders(
    work: Drawn,
    courses: Union[Mapping[str, Ordered], Sequence[Tuple[str, Ordered]]],
    ax: Optional[Sequence[Axes]] = None,
    *,
    unit: Optional[str] = None,
    by: By = "tasks",
) -> List[Axes]:
    """Memory along several orders, by what they are called, or in pairs with that, one below the other, and by how much the peak of each is
    above the least.

    >>> axes = plot.orders(FIVE, {"least peak": FIVE.plan(), "best postorder": FIVE.post()[0]})
    >>> [it.get_title(loc="left") for it in axes]
    ['least peak: peak 11 units', 'best postorder: peak 15 units, 36 % more than the least here']
    """
    if not courses:
        raise ValueError("courses: there is no order")
    pairs = list(courses.items() if isinstance(courses, Mapping) else courses)
    found = [_course(work, order) for _, order in pairs]
    axes = list(new_axes(len(found), (8, 0.8 + 1.9 * len(found)), sharex=True) if ax is None else ax)
    if len(axes) != len(found):
        raise ValueError(f"ax: there are {len(axes)}, and {len(found)} orders")
    system = system_of(work)
    panels = [Panel(it, course, times_of(system, course, by), colour) for it, course, colour in zip(axes, found, cycle(COLOURS))]
    draw_courses(panels, [label for label, _ in pairs], unit_of(work, unit), by)
    for panel in panels:
        panel.name(_named(work, panel.course))
    return axes


# Runs


def _events(work: Drawn, simulation: Simulation) -> runs.Events:
    """Of a run, which is one of these tasks."""
    tasks: Any = simulation.task
    numbers = numpy.array(tasks if isinstance(work, System) else work.naming.numbered("task", tasks), "int64")
    count = _count(work)
    known = {word: at for at, word in enumerate(runs.WORDS)}
    words = numpy.array([known.get(word, 3) for word in simulation.what], "int64")
    events = runs.Events(numpy.array(simulation.time, "int64"), words, numbers)
    is_event = (1 <= numbers) & (numbers <= count) & (words < 3)
    if len(events.times) != len(words) or len(words) != 3 * count or not is_event.all():
        raise ValueError(_NO_RUN)
    firsts = runs.firsts_of(events, count)
    spans = events.times[numpy.minimum(firsts, len(words) - 1)] if len(words) else firsts
    is_span = spans[runs.FINISH] - spans[runs.START] == system_of(work).times
    if (numpy.diff(firsts, axis=0) <= 0).any() or (numpy.diff(events.times) < 0).any() or not is_span.all():
        raise ValueError(_NO_RUN)
    if not isinstance(work, System):
        work.replay(work.naming.told(numbers[words == runs.FINISH]))
    return events


_NO_RUN = "simulation: it is no run of these tasks, each activated, started and finished once, its time later"


def _count(work: Drawn) -> int:
    return work.task_count if isinstance(work, System) else len(work)


def _levels(work: Drawn, simulation: Simulation, events: runs.Events) -> runs.Levels:
    levels = runs.levels_of(system_of(work), events)
    if (int(levels.used.max()), int(levels.booked.max())) != (simulation.used, simulation.booked):
        raise ValueError("simulation: what it has used and booked is not that of such a run")
    return levels


def _title(work: Drawn, simulation: Simulation, count: int) -> str:
    return f"makespan {grouped(simulation.makespan)}: {grouped(_count(work))} tasks, at most {grouped(count)} at once"


def workers(work: Drawn, simulation: Simulation, ax: Optional[Axes] = None) -> Axes:
    """Who works when. A run names no worker: each task takes the free one of least number.

    >>> plot.workers(FIVE, FIVE.simulate(FIVE.plan(), bound=15, workers=2)).get_title(loc="left")
    'makespan 4: 5 tasks, at most 2 at once'
    """
    bars = runs.bars_of(_events(work, simulation), _count(work))
    count = bars.count_of_workers
    axes = new_axes(1, (8, min(0.45 * count, 3) + 1))[0] if ax is None else ax
    runs.draw_workers(axes, bars, simulation.makespan, _few_names(work))
    labelled(axes, "time", "worker")
    count_axis(axes.xaxis, simulation.makespan)
    titled(axes, _title(work, simulation, count))
    return axes


def _few_names(work: Drawn) -> List[Any]:
    return _names(work, range(1, _count(work) + 1)) if _count(work) <= MOST_NAMED else []


def used(
    work: Drawn, simulation: Simulation, ax: Optional[Axes] = None, *, unit: Optional[str] = None, bound: Optional[int] = None
) -> Axes:
    """What a run uses, the most of it dark, what it has booked, and its bound.

    >>> axes = plot.used(FIVE, FIVE.simulate(FIVE.plan(), bound=15, workers=2))
    >>> axes.get_title(loc="left")
    'most used 12 · most booked 12 units'
    """
    axes = new_axes(1, (8, 3))[0] if ax is None else ax
    _draw_used(axes, work, simulation, _events(work, simulation), unit, bound)
    return axes


def _draw_used(
    axes: Axes, work: Drawn, simulation: Simulation, events: runs.Events, unit: Optional[str], bound: Optional[int]
) -> None:
    told = unit_of(work, unit)
    steps = runs.at_moments(_levels(work, simulation, events), events)
    runs.draw_used_and_booked(axes, *steps, simulation.bound if bound is None else bound, told)
    titled(axes, f"most used {grouped(simulation.used)} · most booked {grouped(simulation.booked)} {told}")


def run(
    work: Drawn, simulation: Simulation, ax: Optional[Tuple[Axes, Axes]] = None, *, unit: Optional[str] = None, bound: Optional[int] = None
) -> Tuple[Axes, Axes]:
    """Who works when, as `workers`, above what is used and booked, as `used`: two axes.

    >>> above, below = plot.run(FIVE, FIVE.simulate(FIVE.plan(), bound=15, workers=2))
    >>> above.get_ylabel(), below.get_ylabel()
    ('worker', 'memory (units)')
    """
    events = _events(work, simulation)
    bars = runs.bars_of(events, _count(work))
    if ax is None:
        rows_high = min(0.45 * bars.count_of_workers, 3) + 0.6
        ax = new_axes(2, (8, rows_high + 3), sharex=True, gridspec_kw={"height_ratios": (rows_high, 2.2)})
    above, below = ax
    runs.draw_workers(above, bars, simulation.makespan, _few_names(work))
    titled(above, _title(work, simulation, bars.count_of_workers))
    _draw_used(below, work, simulation, events, unit, bound)
    return above, below


def makespans(simulations: Iterable[Simulation], ax: Optional[Axes] = None, *, unit: str = "units", of: str = "") -> Axes:
    """The time that runs take within their bounds, for each number of workers. What has no bound is left out.

    >>> plan = FIVE.plan()
    >>> axes = plot.makespans([FIVE.simulate(plan, bound, workers=2) for bound in (11, 15, 22)])
    >>> axes.get_xlabel(), axes.get_ylabel()
    ('bound on memory (units)', 'makespan (time)')
    """
    by_workers: Dict[Optional[int], List[Tuple[int, int]]] = {}
    for it in simulations:
        if it.bound is not None:
            by_workers.setdefault(it.workers, []).append((it.bound, it.makespan))
    axes = new_axes(1, (6.5, 3.6))[0] if ax is None else ax
    plain(axes)
    for colour, (count, points) in zip(cycle(LINES), sorted(by_workers.items(), key=lambda it: it[0] or 0)):
        bounds, times = zip(*sorted(points))
        label = "a worker" if count == 1 else f"{count} workers" if count else "a run"
        axes.plot(bounds, times, "o-", color=colour, markersize=4, label=label)
    together = [point for points in by_workers.values() for point in points] or [(1, 1)]
    highest = max(time for _, time in together)
    axes.set_ylim(0, max(1, HEADROOM * highest))
    axes.margins(x=0.05)
    labelled(axes, f"bound on memory ({unit})", "makespan (time)")
    titled(axes, f"makespan against bound{f': {of}' if of else ''}")
    count_axis(axes.xaxis, max(bound for bound, _ in together))
    count_axis(axes.yaxis, highest)
    legend_above(axes)
    return axes


# Parts


def _steps(stairs: Stairs) -> staircases.Steps:
    columns = numpy.array(stairs.steps, "int64").reshape(-1, 2)
    return staircases.Steps(stairs.level, columns[:, 0], columns[:, 1])


def segments(part: Segments, ax: Optional[Axes] = None, *, unit: str = "units", label: str = "") -> Axes:
    """How low memory comes in a part within each bound: from the bound of a dot on, up to the next one, it comes down to its level.

    >>> plot.segments(FIVE.segments()["b"], unit="entries", label="b").get_xlabel()
    'bound on memory (entries)'
    """
    axes = new_axes(1, (6.5, 4))[0] if ax is None else ax
    staircases.draw_both(axes, {"F": _steps(part.forward), "R": _steps(part.backward)}, unit)
    titled(axes, f"how low memory comes within each bound{f': {label}' if label else ''}")
    return axes


# Trees and graphs


def _room_of(ax: Optional[Axes]) -> Tuple[float, float]:
    """How wide and how high a picture can be, in points."""
    if ax is None:
        return 72 * WIDEST, 72 * HIGHEST
    figure, place = ax.get_figure(), ax.get_position()
    return 72 * figure.get_figwidth() * place.width, 72 * figure.get_figheight() * place.height


def _draw_boxes(picture: boxes.Picture, ax: Optional[Axes], title: str, told: boxes.Told, fit: bool = True) -> Axes:
    width, height = picture.width + 2 * boxes.MARGIN, picture.height
    most = _room_of(ax)
    scale = min(1.0, most[0] / width, most[1] / height) if fit or ax is not None else 1.0
    inches = max(scale * width / 72, 5.6, LETTER * 1.35 * len(title) / 72), scale * height / 72 + 0.4
    axes = new_axes(1, inches)[0] if ax is None else ax
    boxes.draw_picture(axes, picture, scale, title, told)
    return axes


def tree(
    of: Tree, ax: Optional[Axes] = None, *, most: int = MOST_BOXES, unit: Optional[str] = None, name: str = "", fit: bool = True
) -> Axes:
    """The tree from the roots down, the tasks of greatest memory first, at most so many, and with ``fit`` no more than can be read. In a
    box: what the task is called, and its memory, its block included; on a line: the block that it leaves to its parent.

    >>> plot.tree(FIVE).get_title(loc="left")
    'tree, from the roots down: 5 of 5 are drawn'
    """
    of._judge()
    nodes = boxes.Nodes(of.parent, of.out, of.extra, of.share)
    width, height = _room_of(ax)
    found = boxes.greatest_down(nodes, most)
    while True:
        shown = boxes.shown_of(nodes, found)
        picture = boxes.picture_of_tree(nodes, shown, of.names if of.naming.names is not None or of.naming.base == 0 else None)
        fits = not fit or min(width / (picture.width + 2 * boxes.MARGIN), height / picture.height) >= boxes.SMALLEST
        if fits or len(found) <= 3:
            break
        del found[len(found) * 3 // 4 :]
    title = boxes.shown_title("tree", name, len(shown.nodes), len(of))
    taken = "− n: so much of it is taken over in place from blocks below" if of.share.any() else ""
    box = f"a box: its number or name, and its memory in {unit_of(of, unit)}; darker where that is greater"
    told = boxes.Told(box, "a line: the block for its parent; wider where that is greater", taken)
    return _draw_boxes(picture, ax, title, told, fit)


def graph(of: Graph, ax: Optional[Axes] = None, *, most: int = 40, unit: Optional[str] = None) -> Axes:
    """The tasks of a graph, each below all that it reads from, with what it needs while it runs, and what is handed on as lines. Of more
    than so many tasks what those make together that stand as deep as each other.

    >>> plot.graph(DIAMOND).get_title(loc="left")
    'graph of 4 tasks'
    """
    system, told = system_of(of), unit_of(of, unit)
    of._judge()
    makers, readers = system.arcs()
    levels = boxes.levels_of(len(of), makers, readers)
    title = f"graph of {grouped(len(of))} tasks"
    if len(of) <= most:
        arcs: Dict[Tuple[int, int], int] = {}
        sizes = numpy.repeat(system.sizes, numpy.diff(system.starts))[numpy.repeat(system.producers, numpy.diff(system.starts)) > 0]
        for maker, reader, size in zip(makers.tolist(), readers.tolist(), sizes.tolist()):
            arcs[maker, reader] = arcs.get((maker, reader), 0) + size
        picture = boxes.picture_of_graph(system.needs, arcs, levels, of.names)
        box = f"a box: what it needs while it runs, in {told}; darker where that is greater"
        words = boxes.Told(box, "a line: what is handed on; wider where that is greater")
        return _draw_boxes(picture, ax, title, words)
    made = boxes.made_by_level(system.sizes, system.producers, levels)
    axes = new_axes(1, (8, 3))[0] if ax is None else ax
    plain(axes)
    draw_levels(axes, Steps(numpy.arange(len(made) + 1), made), color=BLUE, alpha=0.65, label="made by the tasks of a level")
    axes.set_xlim(0, max(1, len(made)))
    axes.set_ylim(0, max(1, HEADROOM * int(made.max(initial=0))))
    labelled(axes, "level: how many tasks stand before, one after the other", f"memory ({told})")
    titled(axes, f"{title} in {grouped(len(made))} levels")
    count_axis(axes.xaxis, len(made))
    count_axis(axes.yaxis, int(made.max(initial=0)))
    legend_above(axes)
    return axes
