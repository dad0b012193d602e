"""What pictures have in common: colours, axes, columns in place of too many steps."""

from __future__ import annotations

from typing import Any, NamedTuple, Optional, Sequence, Tuple

import matplotlib
import numpy
from matplotlib.colors import to_rgb
from matplotlib.patches import Rectangle
from matplotlib.ticker import FuncFormatter, MaxNLocator

from ._types import Array, Axes

# Colours that are told apart by everyone (Okabe and Ito 2008).
BLUE, ORANGE, GREEN, RED, PURPLE, SKY = "#0072B2", "#E69F00", "#009E73", "#D55E00", "#CC79A7", "#56B4E9"
COLOURS = (RED, BLUE, GREEN, PURPLE, ORANGE, SKY)
GREY = "#555555"
DASHES = (0, (4, 3))

MOST_STEPS = 1000
"""How many steps are drawn one by one: of more, those beside each other are put together, in so many columns, about one for each pixel."""

MOST_NAMED = 40
"""How many tasks of an order or of a run have their name in the picture."""

MOST_LETTERS = 14
"""Of a longer name the end is left out."""

LETTER = 5.2
"""How wide a letter of size 8 is, in points, or a little less."""

MARK = 7.0
"""How wide the mark of a peak is, in points."""

HELD, NEEDED = 0.55, 0.8
"""How dark a peak is, of 1, where what is there before is drawn, and what the task needs beside that."""

HEADROOM = 1.3
"""How far an axis of memory goes past what it shows: there the legend stands."""


def new_axes(rows: int, size: Tuple[float, float], **words: Any) -> Any:
    """Axes of a figure of their own, in a column."""
    from matplotlib import pyplot  # which has a figure shown in a notebook

    figure, axes = pyplot.subplots(rows, 1, figsize=size, squeeze=False, constrained_layout=True, **words)
    figure.set_facecolor("white")
    return axes[:, 0]


def grouped(value: float, _place: Optional[int] = None) -> str:
    return f"{value:,.0f}"


def count_axis(axis: Any, greatest: float) -> None:
    """Whole numbers, with groups of three digits; fewer where they are long."""
    axis.set_major_locator(MaxNLocator(nbins=6 if greatest < 10**8 else 3, integer=True))
    axis.set_major_formatter(FuncFormatter(grouped))


def printable(words: Any) -> str:
    """Words as they can stand in a picture."""
    return "".join(it if it.isprintable() else "?" for it in str(words))


def shortened(name: Any, most: int = MOST_LETTERS) -> str:
    told = printable(name)
    return told if len(told) <= most else told[: most - 1] + "…"


def plain(axes: Axes) -> None:
    """The look of all axes: nothing above and at the right, and what is told at the left."""
    for side in ("top", "right"):
        axes.spines[side].set_visible(False)


def titled(axes: Axes, title: str) -> None:
    # a dollar sign begins no formula
    axes.set_title(printable(title), loc="left", fontsize=10, parse_math=False)


def labelled(axes: Axes, x: str, y: str) -> None:
    axes.set_xlabel(printable(x), parse_math=False)
    axes.set_ylabel(printable(y), parse_math=False)


def legend_above(axes: Axes, columns: int = 5) -> None:
    """In the room above what the axes show."""
    handles, labels = axes.get_legend_handles_labels()
    if handles:
        look = {"fontsize": 8, "frameon": False, "borderaxespad": 0.2, "columnspacing": 1.2, "handlelength": 1.4}
        legend = axes.legend(handles, labels, loc="upper left", ncol=columns, **look)
        for told in legend.get_texts():
            told.set_parse_math(False)


class Steps(NamedTuple):
    """Levels, each from its time to the next; there is one time more than levels."""

    times: Array
    levels: Array


def in_columns(steps: Steps) -> Steps:
    """The same in columns of one width where there are too many: of each the greatest level."""
    times, levels = steps
    if len(levels) <= MOST_STEPS:
        return steps
    edges = numpy.linspace(times[0], times[-1], MOST_STEPS + 1)
    firsts = numpy.searchsorted(times, edges[:-1], "right") - 1
    pasts = numpy.searchsorted(times, edges[1:], "left")
    # the greatest from each first up to its past; what is from there to the next first is left out
    bounds = numpy.column_stack((firsts, pasts)).ravel()
    return Steps(edges, numpy.maximum.reduceat(numpy.append(levels, 0), bounds)[::2])


def draw_levels(axes: Axes, steps: Steps, **look: Any) -> None:
    """A filled staircase; nothing where there is no step."""
    times, levels = in_columns(steps)
    if len(levels):
        axes.stairs(levels, times, fill=True, linewidth=0, **look)


def darker(colour: str, by: float = 0.55) -> Tuple[float, ...]:
    return tuple(by * part for part in to_rgb(colour))


def draw_peak(axes: Axes, steps: Steps, colour: str, label: str = "peak", held: Optional[int] = None) -> None:
    """The first step of the greatest level, dark, with an edge, so that it is seen however narrow it is; and a mark above it. ``held`` is
    how much of it there is before the step, which is darker than what it needs."""
    at = int(numpy.argmax(steps.levels))
    start, end = map(float, steps.times[at : at + 2])
    peak = float(steps.levels[at])
    low = peak if held is None else float(held)
    for foot, top, dark in ((0.0, low, HELD), (low, peak, NEEDED)):
        if top > foot:
            axes.add_patch(Rectangle((start, foot), end - start, top - foot, facecolor=darker(colour, dark), linewidth=0))
    axes.add_patch(Rectangle((start, 0), end - start, peak, fill=False, edgecolor=darker(colour), linewidth=1.2))
    # the mark stands upon the peak, inside the room that is left for the legend, and not half beyond an end of the axes
    aside = MARK * float(steps.times[-1] - steps.times[0]) / width_of(axes)
    place = min(max((start + end) / 2, float(steps.times[0]) + aside), float(steps.times[-1]) - aside)
    look = {"linestyle": "", "color": darker(colour), "markersize": MARK, "markeredgewidth": 0, "label": f"{label} {grouped(peak)}"}
    axes.plot([place], [peak], marker=matplotlib.markers.CARETDOWN, **look)


def draw_names(axes: Axes, names: Sequence[Any], times: Array, dark: int) -> None:
    """The names of steps at their feet, where they have room; upright where they would run into each other. One step is dark."""
    told = [shortened(name) for name in names]
    share = width_of(axes) / max(float(times[-1] - times[0]), 1e-9)
    widths = [share * float(end - start) for start, end in zip(times, times[1:])]
    is_upright = any(LETTER * len(name) > width for name, width in zip(told, widths))
    look = {"textcoords": "offset points", "ha": "center", "va": "bottom", "fontsize": 8, "parse_math": False, "clip_on": True}
    for at, (name, width) in enumerate(zip(told, widths)):
        if width >= (1.5 * LETTER if is_upright else LETTER * len(name)):
            place = (float(times[at] + times[at + 1]) / 2, 0)
            axes.annotate(name, place, (0, 4), rotation=90 if is_upright else 0, color="white" if at == dark else "black", **look)


def width_of(axes: Axes) -> float:
    """In points."""
    figure = axes.get_figure()
    return float(axes.get_position().width * figure.get_figwidth() * 72)
