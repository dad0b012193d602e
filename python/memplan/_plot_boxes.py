"""Trees and graphs as boxes with lines between them: laid out in points, and made smaller where the axes have less room."""

from __future__ import annotations

import heapq
from typing import Any, Dict, List, NamedTuple, Optional, Sequence, Tuple

import numpy
from matplotlib.lines import Line2D
from matplotlib.patches import FancyBboxPatch, Patch
from matplotlib.textpath import TextPath

from ._plot_look import BLUE, GREY, SKY, grouped, printable, shortened, titled
from ._systems import sums
from ._types import Array, Axes

LETTERS = 8.0
"""The size of letters, in points, where the axes have room."""

SMALLEST = 0.6
"""Of this size and the one above, in a picture that fits as many boxes as can be read."""

GAP, ROW, MARGIN, HEAD = 10.0, 66.0, 8.0, 34.0
"""Between boxes side by side, from a row to the next, around them, and above them for the legend."""

BLANK = {"boxstyle": "square,pad=0.1", "facecolor": "white", "edgecolor": "none", "alpha": 0.9}
"""Behind what stands on a line."""

LIGHT, DARK = (247, 251, 255), (107, 174, 214)
"""From a light blue to a dark one, on which black letters are still read."""


NARROWEST = 250.0
"""What the legend needs."""


class Box(NamedTuple):
    """What is told in a box, how dark it is, from 0 to 1, and what stands below it in grey."""

    lines: List[str]
    share: float
    below: str = ""


class Line(NamedTuple):
    """From the box above to the one below, by their places: what is told on it, and how much it is of the greatest. ``through`` has where
    it passes the rows between them; it is None where the line goes down and aside at right angles."""

    above: int
    below: int
    label: str
    share: float
    through: Optional[Sequence[float]] = None


class Picture(NamedTuple):
    """Boxes with the middle of each and its row, and how wide all are, in points."""

    boxes: List[Box]
    lines: List[Line]
    middles: List[float]
    rows: List[int]
    width: float

    @property
    def height(self) -> float:
        return 2 * MARGIN + HEAD + ROW * (max(self.rows, default=0) + 1)


def width_of_text(text: str) -> float:
    if not text:
        return 0.0
    corners = TextPath((0, 0), text.replace("$", "S"), size=LETTERS).vertices  # a little more than the letters, and found much faster
    return float(corners[:, 0].max() - corners[:, 0].min()) if len(corners) else LETTERS * len(text)


def width_of_box(box: Box, label: str) -> float:
    return max([width_of_text(it) + 12 for it in box.lines] + [width_of_text(box.below), width_of_text(label) + 8])


def high(box: Box) -> float:
    return 5 + 1.25 * LETTERS * len(box.lines)


def shade(share: float) -> Tuple[float, ...]:
    return tuple((one + (other - one) * share) / 255 for one, other in zip(LIGHT, DARK))


class Told(NamedTuple):
    """What darkness and widths are, and anything else that a reader has to know."""

    darkness: str
    widths: str
    more: str = ""


def draw_picture(axes: Axes, picture: Picture, scale: float, title: str, told: Told) -> None:
    axes.set_xlim(0, picture.width + 2 * MARGIN)
    axes.set_ylim(picture.height, 0)
    axes.set_axis_off()
    tops = [MARGIN + HEAD + ROW * row + 4 for row in picture.rows]
    look = {"fontsize": LETTERS * scale, "ha": "center", "va": "center", "parse_math": False, "clip_on": True}
    for line in picture.lines:
        draw_line(axes, picture, tops, line, scale, look)
    for box, middle, top in zip(picture.boxes, picture.middles, tops):
        width = max(width_of_text(it) for it in box.lines) + 8
        place = MARGIN + middle - width / 2, top
        shape = {"boxstyle": "round,pad=0,rounding_size=3", "facecolor": shade(box.share), "edgecolor": GREY, "linewidth": 0.8 * scale}
        axes.add_patch(FancyBboxPatch(place, width, high(box), zorder=3, **shape))
        for at, words in enumerate(box.lines):
            y = top + 2.5 + 1.25 * LETTERS * (at + 0.5)
            axes.text(MARGIN + middle, y, words, **look, zorder=4, fontweight="normal" if at else "bold")
        if box.below:
            smaller = {**look, "fontsize": 0.85 * LETTERS * scale, "color": GREY, "bbox": BLANK, "zorder": 2}
            axes.text(MARGIN + middle, top + high(box) + 0.8 * LETTERS, box.below, **smaller)
    titled(axes, title)
    handles: List[Any] = [Patch(facecolor=shade(1), edgecolor=GREY, label=told.darkness)]
    handles.append(Line2D([], [], color=SKY, linewidth=3, label=told.widths))
    if told.more:
        handles.append(Line2D([], [], linestyle="", label=told.more))
    axes.legend(handles=handles, loc="upper left", fontsize=LETTERS * scale, frameon=False, borderaxespad=0, labelspacing=0.2)


def draw_line(axes: Axes, picture: Picture, tops: Sequence[float], line: Line, scale: float, look: Dict[str, Any]) -> None:
    start = MARGIN + picture.middles[line.above], tops[line.above] + high(picture.boxes[line.above])
    end = MARGIN + picture.middles[line.below], tops[line.below]
    label_at = end[1] - 9
    turn = tops[line.below] - 20
    between = [(start[0], turn), (end[0], turn)]
    if line.through is not None:
        top, foot = tops[line.above], start[1]
        between = [(MARGIN + x, y + ROW * row) for row, x in enumerate(line.through, 1) for y in (top, foot)]
    xs, ys = zip(start, *between, end)
    axes.plot(xs, ys, color=SKY, linewidth=(0.8 + 4 * line.share) * scale, solid_joinstyle="miter", zorder=1)
    if line.label:
        axes.text(end[0], label_at, line.label, **look, color=BLUE, bbox=BLANK, zorder=2)


# Trees


class Shown(NamedTuple):
    """The nodes that are drawn, in rising number, and how many below each are not, up to the next that is."""

    nodes: List[int]
    hidden: List[int]


class Nodes(NamedTuple):
    """The columns of a tree."""

    parents: Array
    outs: Array
    extras: Array
    shares: Array


def greatest_down(tree: Nodes, most: int) -> List[int]:
    """From the roots down, so many nodes of greatest memory, each behind its parent."""
    sizes = tree.extras + tree.outs
    order = numpy.argsort(tree.parents, kind="stable")
    bounds = numpy.searchsorted(tree.parents[order], numpy.arange(len(sizes) + 2))
    left: List[Tuple[int, int]] = []

    def put_children(node: int) -> None:
        for child in (order[bounds[node] : bounds[node + 1]] + 1).tolist():
            heapq.heappush(left, (-int(sizes[child - 1]), child))

    found: List[int] = []
    put_children(0)
    while left and len(found) < most:
        _, node = heapq.heappop(left)
        found.append(node)
        put_children(node)
    return found


def shown_of(tree: Nodes, nodes: List[int]) -> Shown:
    """Of the first of such nodes."""
    return Shown(sorted(nodes), hidden_below(tree.parents, sorted(nodes)))


def hidden_below(parents: Array, shown: List[int]) -> List[int]:
    """For each node that is shown, how many below it are not, up to the next that is shown."""
    count = len(parents)
    above = numpy.append(0, parents)
    above[shown] = shown
    # from each node up to the next that is shown, twice as far at each turn
    for _ in range(count.bit_length()):
        above = above[above]
    below = numpy.bincount(above, minlength=count + 1)
    return [int(below[node]) - 1 for node in shown]


def picture_of_tree(tree: Nodes, shown: Shown, names: Optional[Sequence[Any]]) -> Picture:
    """The roots at the top, and each node above the middle of its children."""
    place = {node: at for at, node in enumerate(shown.nodes)}
    sizes = [int(tree.extras[node - 1] + tree.outs[node - 1]) for node in shown.nodes]
    outs = [int(tree.outs[node - 1]) for node in shown.nodes]
    least, greatest, widest = min(sizes, default=0), max(sizes, default=0), max([1, *outs])
    boxes, lines = [], []
    for at, (node, hidden) in enumerate(zip(*shown)):
        told = [shortened(names[node - 1] if names is not None else node), grouped(sizes[at])]
        if share := int(tree.shares[node - 1]):
            told.append(f"− {grouped(share)}")
        boxes.append(Box(told, (sizes[at] - least) / max(1, greatest - least), f"+ {grouped(hidden)} below" if hidden else ""))
        if parent := int(tree.parents[node - 1]):
            lines.append(Line(place[parent], at, grouped(outs[at]), outs[at] / widest))
    above = {line.below: line.above for line in lines}
    labels = {line.below: line.label for line in lines}
    return laid_out(boxes, lines, above, labels)


def laid_out(boxes: List[Box], lines: List[Line], above: Dict[int, int], labels: Dict[int, str]) -> Picture:
    children: Dict[int, List[int]] = {}
    for at in range(len(boxes)):
        children.setdefault(above.get(at, -1), []).append(at)
    down = list(children.get(-1, []))
    rows = [0] * len(boxes)
    for at in down:  # grows behind, each before those below it
        for child in children.get(at, []):
            rows[child] = rows[at] + 1
            down.append(child)
    widths = [0.0] * len(boxes)
    for at in reversed(down):
        below = sum(widths[child] + GAP for child in children.get(at, [])) - GAP
        widths[at] = max(width_of_box(boxes[at], labels.get(at, "")), below)
    lefts, middles = [0.0] * len(boxes), [0.0] * len(boxes)
    whole = sum(widths[at] + GAP for at in children.get(-1, [])) - GAP
    right = max(0.0, (NARROWEST - whole) / 2)
    for at in children.get(-1, []):
        lefts[at] = right
        right += widths[at] + GAP
    for at in down:
        middles[at] = lefts[at] + widths[at] / 2
        under = children.get(at, [])
        left = middles[at] - (sum(widths[child] + GAP for child in under) - GAP) / 2
        for child in under:
            lefts[child] = left
            left += widths[child] + GAP
    return Picture(boxes, lines, middles, rows, max(right - GAP, NARROWEST))


# Graphs


def levels_of(count: int, makers: Array, readers: Array) -> List[int]:
    """For each task, from task 1, how many others stand one after the other before it, at most."""
    order = numpy.argsort(makers, kind="stable")
    followers = readers[order].tolist()
    starts = numpy.searchsorted(makers[order], numpy.arange(count + 2)).tolist()
    waits = numpy.bincount(readers, minlength=count + 1).tolist()
    levels = [0] * (count + 1)
    free = [task for task in range(1, count + 1) if waits[task] == 0]
    for task in free:  # grows behind
        for reader in followers[starts[task] : starts[task + 1]]:
            levels[reader] = max(levels[reader], levels[task] + 1)
            waits[reader] -= 1
            if waits[reader] == 0:
                free.append(reader)
    return levels[1:]


def picture_of_graph(
    needs: Array, arcs: Dict[Tuple[int, int], int], levels: Sequence[int], names: Sequence[Any]
) -> Picture:
    """Each task below all that it reads from; ``arcs`` has the size that is handed on from a task to another."""
    least, greatest = (int(choose(needs, default=0)) for choose in (min, max))
    widest = max([1, *arcs.values()])
    boxes = [Box([shortened(name), grouped(need)], (int(need) - least) / max(1, greatest - least)) for name, need in zip(names, needs)]
    rows: List[List[int]] = [[] for _ in range(max(levels, default=-1) + 1)]
    for task, level in enumerate(levels):
        rows[level].append(task)
    # a line that passes rows has a place of its own in each of them, as a task has
    ways: List[List[int]] = []
    count = len(boxes)
    for maker, reader in arcs:
        passed = range(levels[maker - 1] + 1, levels[reader - 1])
        ways.append([maker - 1, *range(count, count + len(passed)), reader - 1])
        for place, level in enumerate(passed, count):
            rows[level].append(place)
        count += len(passed)
    order_rows(rows, ways)
    widths = [width_of_box(box, "") for box in boxes] + [GAP] * (count - len(boxes))
    wide = [sum(widths[task] + 2 * GAP for task in row) - 2 * GAP for row in rows]
    whole = max([NARROWEST, *wide])
    middles = [0.0] * count
    for row, width in zip(rows, wide):
        left = (whole - width) / 2
        for task in row:
            middles[task] = left + widths[task] / 2
            left += widths[task] + 2 * GAP
    lines = [
        Line(maker - 1, reader - 1, "", size / widest, [middles[place] for place in way[1:-1]])
        for ((maker, reader), size), way in zip(arcs.items(), ways)
    ]
    return Picture(boxes, lines, middles[: len(boxes)], list(levels), whole)


def order_rows(rows: List[List[int]], ways: Sequence[Sequence[int]]) -> None:
    """Each place of a row near the middle of those above that lines lead from to it, and then of those below: a few sweeps."""
    near: Tuple[Dict[int, List[int]], Dict[int, List[int]]] = ({}, {})
    for way in ways:
        for above, below in zip(way, way[1:]):
            near[0].setdefault(below, []).append(above)
            near[1].setdefault(above, []).append(below)
    place = {task: at / max(1, len(row)) for row in rows for at, task in enumerate(row)}
    for sweep in range(8):
        beside = near[sweep % 2]
        for row in rows if sweep % 2 == 0 else reversed(rows):
            row.sort(key=lambda task: sum(place[it] for it in beside[task]) / len(beside[task]) if task in beside else place[task])
            for at, task in enumerate(row):
                place[task] = (at + 0.5) / len(row)


def made_by_level(sizes: Array, producers: Array, levels: Sequence[int]) -> Array:
    """What the tasks of each level make together."""
    is_made = producers > 0
    at = numpy.asarray(levels, "int64")[producers[is_made] - 1]
    return sums(max(levels, default=0) + 1, at, sizes[is_made])


def shown_title(what: str, name: str, drawn: int, count: int) -> str:
    of = f" of {printable(name)}" if name else ""
    return f"{what}{of}, from the roots down: {grouped(drawn)} of {grouped(count)} are drawn"
