"""Memory along an order."""

from __future__ import annotations

from typing import Any, List, Literal, Optional, Sequence

import numpy

from ._plot_look import (
    COLOURS,
    DASHES,
    HEADROOM,
    MOST_NAMED,
    Steps,
    count_axis,
    draw_levels,
    draw_names,
    draw_peak,
    grouped,
    labelled,
    legend_above,
    plain,
    titled,
)
from ._systems import Course, System
from ._types import Array, Axes

By = Literal["tasks", "time"]


def times_of(system: System, course: Course, by: By) -> Array:
    """When each task begins, and when the last one ends."""
    lengths = system.times[course.tasks - 1] if by == "time" else numpy.ones(len(course.tasks), "int64")
    times: Array = numpy.append(0, numpy.cumsum(lengths))
    return times


class Panel:
    """Axes with a course: what is there before each task, what there is while it runs, and the peak."""

    def __init__(self, axes: Axes, course: Course, times: Array, colour: str = COLOURS[0]) -> None:
        self.axes, self.course, self.times, self.colour = axes, course, times, colour
        plain(axes)
        during = Steps(times, course.during)
        draw_levels(axes, during, color=colour, alpha=0.3, label="while a task runs")
        draw_levels(axes, Steps(times, course.between[:-1]), color=colour, alpha=0.65, label="between tasks")
        if len(course.tasks):
            draw_peak(axes, during, colour, held=int(course.between[int(numpy.argmax(course.during))]))
        axes.set_xlim(0, max(1, times[-1]))
        self.rise_to(course.peak)

    def rise_to(self, highest: int) -> None:
        self.axes.set_ylim(0, max(1, HEADROOM * highest))
        count_axis(self.axes.yaxis, highest)

    def line(self, level: int, label: str) -> None:
        self.axes.axhline(level, color="black", linewidth=0.9, linestyle=DASHES, label=f"{label} {grouped(level)}")

    def name(self, names: Sequence[Any]) -> None:
        """What the tasks are called, from left to right."""
        if len(self.course.tasks) <= MOST_NAMED and len(self.course.tasks):
            draw_names(self.axes, names, self.times, int(numpy.argmax(self.course.during)))

    def end(self, title: str, unit: str, by: Optional[By]) -> None:
        """``by`` is None where the axis of another panel below says it."""
        titled(self.axes, title)
        told = {"tasks": "tasks that are done", "time": "time"}
        labelled(self.axes, told[by] if by else "", f"memory ({unit})")
        count_axis(self.axes.xaxis, self.times[-1])
        legend_above(self.axes)


def title_of(label: str, peak: int, unit: str, least: Optional[int] = None) -> str:
    """``least`` is the least peak of the orders that are drawn beside."""
    told = f"{label}: " if label else ""
    more = f", {100 * (peak - least) / least:.0f} % more than the least here" if least and peak > least else ""
    return f"{told}peak {grouped(peak)} {unit}{more}"


def draw_courses(panels: List[Panel], labels: Sequence[str], unit: str, by: By) -> None:
    """Several panels of one height, with the least of their peaks in all of them."""
    least, highest = (choose(panel.course.peak for panel in panels) for choose in (min, max))
    for panel, label in zip(panels, labels):
        panel.rise_to(highest)
        if len(panels) > 1:
            panel.line(least, "least peak here")
        panel.end(title_of(label, panel.course.peak, unit, least), unit, by if panel is panels[-1] else None)
