"""Simulated runs: who works when, over used and booked memory."""

from __future__ import annotations

import heapq
from typing import Any, List, NamedTuple, Optional, Sequence, Tuple

import numpy
from matplotlib.colors import to_rgb
from matplotlib.patches import Patch
from matplotlib.ticker import FixedLocator, MaxNLocator

from ._plot_look import (
    BLUE,
    COLOURS,
    DASHES,
    HEADROOM,
    LETTER,
    MOST_NAMED,
    MOST_STEPS,
    RED,
    SKY,
    Steps,
    count_axis,
    draw_levels,
    draw_peak,
    grouped,
    in_columns,
    labelled,
    legend_above,
    plain,
    shortened,
    width_of,
)
from ._systems import Course, System, course_of
from ._types import Array, Axes

ACTIVATE, START, FINISH = range(3)
WORDS = ("activate", "start", "finish")

MOST_BARS = 1000
"""How many bars are drawn one by one: of more, a column shows how much of its time a worker is busy."""

EDGED = 1 / 60
"""A bar has an edge where it is at least this part of the run; a narrower one would be all edge."""

MOST_ROWS = 250
"""How many workers have a row each: of more, those beside each other are put together."""

OPACITY = 0.55
"""How dark a bar is, so that a name in it can be read."""


class Events(NamedTuple):
    """Of each event the time, the place of its word in ``WORDS``, and the task's number."""

    times: Array
    words: Array
    tasks: Array


class Bars(NamedTuple):
    """The tasks as they ran: from when to when, and on which worker, from 0; task 1 comes first."""

    starts: Array
    ends: Array
    workers: Array

    @property
    def count_of_workers(self) -> int:
        return int(self.workers.max(initial=0)) + 1


def firsts_of(events: Events, count: int) -> Array:
    """The first event of each task with each word; as many as there are events where it has none."""
    places = numpy.arange(len(events.times))
    firsts = numpy.full((3, count), len(places))
    firsts[events.words[::-1], events.tasks[::-1] - 1] = places[::-1]
    return firsts


def bars_of(events: Events, count: int) -> Bars:
    """Of a run that was judged."""
    firsts = firsts_of(events, count)
    return Bars(events.times[firsts[START]], events.times[firsts[FINISH]], workers_of(events, count))


def workers_of(events: Events, count: int) -> Array:
    """A run names no worker: each task takes the free one of least number."""
    free: List[int] = []
    workers, most = [0] * count, 0
    is_counted = events.words != ACTIVATE
    is_start = (events.words[is_counted] == START).tolist()
    for starts, task in zip(is_start, (events.tasks[is_counted] - 1).tolist()):
        if not starts:
            heapq.heappush(free, workers[task])
        elif free:
            workers[task] = heapq.heappop(free)
        else:
            workers[task] = most
            most += 1
    return numpy.array(workers, "int64")


class Levels(NamedTuple):
    """Memory after each event, and before the first: how much is used, and how much booked."""

    used: Array
    booked: Array


def levels_of(system: System, events: Events) -> Levels:
    """What is there after so many tasks are done, and what those need that run, or that are activated."""
    is_finish = events.words == FINISH
    course: Course = course_of(system, events.tasks[is_finish])
    there = course.between[numpy.append(0, numpy.cumsum(is_finish))]
    needs = system.needs[events.tasks - 1]
    given = numpy.where(is_finish, -needs, 0)
    running, waiting = (given + numpy.where(events.words == word, needs, 0) for word in (START, ACTIVATE))
    return Levels(*(there + numpy.append(0, numpy.cumsum(them)) for them in (running, waiting)))


def at_moments(levels: Levels, events: Events) -> Tuple[Steps, Steps]:
    """Of each moment its last level: finishes come first, and they only free memory."""
    times = numpy.append(0, events.times)
    is_last = numpy.append(times[1:] != times[:-1], True)
    # what is there from the last moment on has no width
    used, booked = (Steps(times[is_last], them[is_last][:-1]) for them in levels)
    return used, booked


def busy_shares(bars: Bars, makespan: int, columns: int) -> Array:
    """For each worker and each of so many columns of one width: how much of it the worker works."""
    edges = numpy.linspace(0, makespan, columns + 1)
    order = numpy.lexsort((bars.starts, bars.workers))
    lasts = numpy.cumsum(numpy.bincount(bars.workers, minlength=bars.count_of_workers))
    shares: Any = numpy.empty((len(lasts), columns))
    for worker, mine in enumerate(numpy.split(order, lasts[:-1])):
        starts, ends = bars.starts[mine], bars.ends[mine]
        done = numpy.append(0, numpy.cumsum(ends - starts))
        # how long it has worked, at each start and each end
        corners = numpy.column_stack((starts, ends)).ravel()
        worked = numpy.column_stack((done[:-1], done[1:])).ravel()
        shares[worker] = numpy.diff(numpy.interp(edges, corners, worked)) / numpy.diff(edges)
    clipped: Array = numpy.clip(shares, 0, 1)
    return clipped


def draw_columns(axes: Axes, bars: Bars, makespan: int) -> None:
    """Each worker as a row of columns, the darker the more it works."""
    shares = busy_shares(bars, makespan, MOST_STEPS)
    count = len(shares)
    shade = 1 - OPACITY * (1 - numpy.array(to_rgb(BLUE)))
    is_apart = count <= MOST_NAMED
    if count > MOST_ROWS:
        cuts = count * numpy.arange(MOST_ROWS + 1) // MOST_ROWS
        shares = numpy.add.reduceat(shares, cuts[:-1]) / numpy.diff(cuts)[:, None]
    pixels = numpy.rint(255 * (1 + shares[:, :, None] * (shade - 1))).astype(numpy.uint8)
    if is_apart:
        for worker, row in enumerate(pixels, 1):
            axes.imshow(row[None], extent=(0, makespan, worker + 0.4, worker - 0.4), aspect="auto")
    else:
        axes.imshow(pixels, extent=(0, makespan, count + 0.5, 0.5), aspect="auto")
    waits = Patch(facecolor="white", edgecolor="0.7", label="waits")
    legend_of_bars(axes, [Patch(facecolor=shade, label="works all the time of a column"), waits])


def legend_of_bars(axes: Axes, handles: List[Any]) -> None:
    axes.legend(handles=handles, loc="upper left", ncol=2, fontsize=8, frameon=False, borderaxespad=0.2, handlelength=1.4)


def draw_bars(axes: Axes, bars: Bars, makespan: int, names: Optional[Sequence[Any]]) -> None:
    """Each task as a bar; where they are few with an edge, and its name where that has room."""
    count = len(bars.starts)
    is_named = count <= MOST_NAMED
    palette = COLOURS if is_named else (BLUE, SKY)
    lengths = bars.ends - bars.starts
    look = {
        "color": [palette[task % len(palette)] for task in range(1, count + 1)],
        "edgecolor": "white",
        "linewidth": numpy.where(is_named & (lengths >= EDGED * makespan), 1.0, 0.0),
        "alpha": OPACITY,
        "height": 0.8,
    }
    axes.barh(bars.workers + 1, lengths, left=bars.starts, **look)
    if not is_named:
        legend_of_bars(axes, [Patch(facecolor=BLUE, alpha=OPACITY, label="tasks, in two shades to tell neighbours apart")])
    if is_named:
        point = width_of(axes) / max(makespan, 1)
        for name, start, length, worker in zip(names or range(1, count + 1), bars.starts, lengths, bars.workers):
            most = int(point * length / LETTER)
            told = shortened(name, most) if most > 1 else str(name) if len(str(name)) <= most else ""
            look = {"ha": "center", "va": "center", "fontsize": 8, "parse_math": False, "clip_on": True}
            axes.text(start + length / 2, worker + 1, told, **look)


def draw_workers(axes: Axes, bars: Bars, makespan: int, names: Optional[Sequence[Any]] = None) -> None:
    plain(axes)
    count = bars.count_of_workers
    axes.set_xlim(0, max(makespan, 1))
    if len(bars.starts) > MOST_BARS:
        draw_columns(axes, bars, makespan)
    else:
        draw_bars(axes, bars, makespan, names)
    # above the workers there is room for the legend, where one is
    axes.set_ylim(count + 0.6, 0.4 - (max(0.9, 0.13 * count) if len(bars.starts) > MOST_NAMED else 0))
    axes.set_xlim(0, max(makespan, 1))
    labelled(axes, "", "worker")
    few = FixedLocator(range(1, count + 1))
    axes.yaxis.set_major_locator(few if count <= 8 else MaxNLocator(nbins=8, integer=True))


def draw_used_and_booked(axes: Axes, used: Steps, booked: Steps, bound: Optional[int], unit: str) -> None:
    plain(axes)
    draw_levels(axes, used, color=BLUE, alpha=0.5, label="used")
    if len(used.levels):
        draw_peak(axes, used, BLUE, "most used")
        times, levels = in_columns(booked)
        axes.stairs(levels, times, baseline=None, color=RED, linewidth=1.4, label="booked")
    if bound is not None:
        axes.axhline(bound, color="black", linewidth=1, linestyle=DASHES, label=f"bound {grouped(bound)}")
    highest = max(booked.levels.max(initial=1), bound or 0)
    axes.set_ylim(0, HEADROOM * highest)
    axes.set_xlim(0, max(booked.times[-1], 1))
    labelled(axes, "time", f"memory ({unit})")
    count_axis(axes.yaxis, highest)
    count_axis(axes.xaxis, booked.times[-1])
    legend_above(axes)
