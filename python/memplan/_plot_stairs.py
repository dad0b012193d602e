"""Staircases: how low memory gets within each bound."""

from __future__ import annotations

from typing import Any, Dict, List, NamedTuple

import numpy
from matplotlib.transforms import Bbox

from ._plot_look import BLUE, MOST_NAMED, MOST_STEPS, RED, count_axis, grouped, labelled, legend_above, plain
from ._types import Array, Axes

MOST_TOLD = 8
"""How many steps have their numbers beside them."""

MOST_OF_AXIS = 0.8
"""The most of the axis that one of them takes up."""


class Steps(NamedTuple):
    """How low memory gets: before the first step, and from each step's bound on."""

    start: int
    bounds: Array
    levels: Array

    @property
    def told(self) -> List[str]:
        """What is written beside the steps."""
        if len(self.bounds) > MOST_TOLD:
            return []
        return [f"{grouped(level)} from {grouped(bound)} on" for level, bound in zip(self.levels, self.bounds)]


class Line(NamedTuple):
    """How one of the two staircases is drawn."""

    word: str
    label: str
    colour: str
    dashes: str


LINES = (Line("F", "forwards, from the start", BLUE, "-"), Line("R", "backwards, from the end", RED, "--"))


def fewer(stairs: Steps) -> Steps:
    """Of too many steps those that lie apart in the picture."""
    if len(stairs.bounds) <= MOST_STEPS:
        return stairs
    columns = numpy.linspace(stairs.bounds[0], stairs.bounds[-1], MOST_STEPS + 1)
    shown = numpy.unique(numpy.searchsorted(stairs.bounds, columns))
    return Steps(stairs.start, stairs.bounds[shown], stairs.levels[shown])


def draw_staircase(axes: Axes, line: Line, stairs: Steps, right: float) -> None:
    """One staircase, up to the right margin; where it has few steps they are written beside it."""
    shown = fewer(stairs)
    xs, ys = numpy.append(stairs.start, shown.bounds), numpy.append(stairs.start, shown.levels)
    look: Dict[str, Any] = {"color": line.colour, "linestyle": line.dashes, "linewidth": 2, "label": line.label}
    axes.step(numpy.append(xs, right), numpy.append(ys, ys[-1]), where="post", **look)
    if len(xs) <= MOST_NAMED:
        axes.plot(xs, ys, "o", color=line.colour, markersize=5 if stairs.told else 3)
    for told, place in zip(stairs.told, zip(shown.bounds, shown.levels)):
        look = {"xytext": (4, 6), "textcoords": "offset points", "fontsize": 8, "clip_on": True}
        axes.annotate(told, place, color=line.colour, **look)


def make_room(axes: Axes, last: float) -> None:
    """The axis goes as far past its last step as what is written beside the steps needs; of texts that would lie on each other the first is
    left."""
    axes.get_figure().draw_without_rendering()
    width = axes.get_window_extent().width
    right = 1.15 * last
    for told in axes.texts:
        # with something over, for a viewer's letters may be wider
        share = 1.1 * (told.get_window_extent().width + 10) / width
        right = max(right, told.xy[0] / (1 - min(share, MOST_OF_AXIS)))
    axes.set_xlim(0, right)
    kept: List[Bbox] = []
    for told in list(axes.texts):
        box = told.get_window_extent()
        if any(box.overlaps(other) for other in kept):
            told.remove()
        else:
            kept.append(box)


def draw_both(axes: Axes, both: Dict[str, Steps], unit: str) -> None:
    """The staircases by the words of `LINES`."""
    plain(axes)
    last = max(1, *(int(max(it.start, it.bounds.max(initial=0))) for it in both.values()))
    highest = max(int(stairs.start) for stairs in both.values())
    for line in LINES:
        draw_staircase(axes, line, both[line.word], last / (1 - MOST_OF_AXIS))
    axes.set_xlim(0, 1.15 * last)
    axes.set_ylim(-0.04 * highest - 0.15, 1.3 * highest + 0.4)
    labelled(axes, f"bound on memory ({unit})", f"lowest memory that is reached ({unit})")
    legend_above(axes, 2)
    count_axis(axes.xaxis, last)
    count_axis(axes.yaxis, highest)
    make_room(axes, last)
