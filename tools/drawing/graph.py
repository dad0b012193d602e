"""Task graphs, read from files and judged by the library, as what memplan.plot draws."""
import re

import numpy as np
from memplan import Graph, Refused
from memplan._systems import system_of

from .system import Read, read_as, tasks_of, version_of
from .text import Refusal, Text, text_of

GRAPH = "a graph file, whose first line is 'graph 1' or 'graph 2'"
TASK = "a task, 'extra share time', in whole numbers"
ARC = "an arc, 'from to size', in whole numbers"
ITEM = "an item, 'size from reader reader ..', in whole numbers"


def arcs_of(text: Text, first: int) -> tuple[list, int]:
    """The items of version 1, whose section begins at a row, and the row behind them."""
    count = text.expect_word(first, "arcs", "'arcs' and a number")
    makers, takers, sizes = text.expect_numbers(first + 1, count, 3, ARC)
    ends = ([taker] if taker else [] for taker in takers.tolist())
    return list(zip(sizes.tolist(), makers.tolist(), ends)), first + 1 + count


def items_of(text: Text, first: int) -> tuple[list, int]:
    """The items of version 2, each with any number of readers, and the row behind them."""
    count = text.expect_word(first, "items", "'items' and a number")
    last = first + 1 + count
    if last >= text.count:
        text.refuse(text.count, ITEM)
    starts = text.firsts[first + 1 : last + 1]
    values = text.values(np.arange(starts[0], starts[-1]))
    is_right = np.minimum.reduceat(values, starts[:-1] - starts[0]) >= 0 if count else np.ones(0, bool)
    text.expect_all(first + 1, is_right & (np.diff(starts) >= 2), ITEM)
    rows = (row.tolist() for row in np.split(values, (starts - starts[0])[1:-1]))
    return [(size, maker, readers) for size, maker, *readers in rows] if count else [], last


def system_of_graph(name: str) -> Read:
    text = text_of(name, GRAPH)
    version = version_of(text, "graph", GRAPH)
    count = tasks_of(text, "tasks")
    extras, shares, times = text.expect_numbers(2, count, 3, TASK)
    items, last = (arcs_of if version == 1 else items_of)(text, 2 + count)
    text.expect_end(last)
    try:
        graph = Graph(extras, items, shares, times)
        graph._judge()
        return read_as(text.name, system_of(graph))
    except (ValueError, Refused) as refused:
        # the library counts items from 0
        told = re.sub(r"items\[(\d+)\]", lambda found: f"item {int(found[1]) + 1}", str(refused))
        raise Refusal(text.name, f"expected a graph that memplan takes; {told}") from refused
