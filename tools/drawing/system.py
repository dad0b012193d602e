"""Trees and workflows, read from files and judged, as what memplan.plot draws."""
from typing import NamedTuple

import numpy as np
from memplan._systems import System, ends_of_items, of_ends, of_tree, sums

from .text import Text, text_of

SIZE_LIMIT, TOTAL_LIMIT, TIME_LIMIT = 2**40, 2**60, 2**40
TASK_LIMIT = 1_000_000

TREE = "a tree file, whose first line is 'tree 1' or 'tree 2'"
WORKFLOW = "a workflow file, whose first line is 'workflow 1' or 'workflow 2'"


class Read(NamedTuple):
    """What a file has, and who makes something and who takes it up, numbers of tasks from 1."""

    name: str
    system: System
    makers: np.ndarray
    takers: np.ndarray

    @property
    def count(self) -> int:
        return self.system.task_count


def read_as(name: str, system: System) -> Read:
    return Read(name, system, *system.arcs())


class Tree(NamedTuple):
    """A tree; the arrays begin with node 1, and the parent of a root is 0."""

    name: str
    parents: np.ndarray
    outs: np.ndarray
    extras: np.ndarray
    shares: np.ndarray
    times: np.ndarray


def tasks_of(text: Text, word: str) -> int:
    """How many nodes or tasks the second line states."""
    count = text.expect_word(1, word, f"'{word}' and a number")
    if count > TASK_LIMIT:
        text.refuse(1, f"at most {TASK_LIMIT} {word}")
    return count


def version_of(text: Text, word: str, expected: str) -> int:
    head = text.row(0)
    if head not in ([word.encode(), b"1"], [word.encode(), b"2"]):
        text.refuse(0, expected)
    return int(head[1])


def expect_total(text: Text, rows: np.ndarray, sizes: np.ndarray) -> None:
    """All sizes together are within the limit; each is in it, so the first that passes is seen."""
    over = np.flatnonzero(np.cumsum(sizes) > TOTAL_LIMIT)
    if over.size:
        text.refuse(int(rows[over[0]]), f"at most {TOTAL_LIMIT} of all sizes together")


def tree_of(name: str) -> Tree:
    text = text_of(name, TREE)
    version = version_of(text, "tree", TREE)
    count = tasks_of(text, "nodes")
    if count == 0:
        text.refuse(1, "a node or more")
    if version == 1:
        told = "a node, 'parent out extra time', in whole numbers"
        parents, outs, extras, times = text.expect_numbers(2, count, 4, told)
        shares = np.zeros(count, np.int64)
    else:
        told = "a node, 'parent out extra share time', in whole numbers"
        parents, outs, extras, shares, times = text.expect_numbers(2, count, 5, told)
    text.expect_all(2, parents <= count, f"a parent of at most {count}, the number of nodes")
    text.expect_all(2, np.maximum(outs, extras) <= SIZE_LIMIT, f"sizes of at most {SIZE_LIMIT}")
    text.expect_all(2, (1 <= times) & (times <= TIME_LIMIT), f"a time from 1 to {TIME_LIMIT}")
    expect_total(text, np.arange(2, count + 2), outs + extras)
    text.expect_end(count + 2)
    text.expect_all(2, lead_to_root(parents), "a node from which parents lead to a root")
    taken = sums(count + 1, parents, outs)[1:]
    told = "a share of at most what the children leave, and of at most extra and out"
    text.expect_all(2, shares <= np.minimum(taken, extras + outs), told)
    return Tree(text.name, parents, outs, extras, shares, times)


def lead_to_root(parents: np.ndarray) -> np.ndarray:
    """Of which nodes the parents, one after the other, come to 0."""
    above = np.append(0, parents)
    for _ in range(len(parents).bit_length()):
        above = above[above]
    return above[1:] == 0


def system_of_tree(name: str) -> Read:
    tree = tree_of(name)
    system = of_tree(tree.parents, tree.outs, tree.extras, tree.shares, tree.times)
    return read_as(tree.name, system)


class Positions(NamedTuple):
    """The positions of a workflow: what each is, and its numbers; 0 where it has no such one."""

    is_data: np.ndarray
    is_task: np.ndarray
    # the size of a datum, the extra of a task, how many terms are put side by side
    amounts: np.ndarray
    shares: np.ndarray
    times: np.ndarray


def positions_of(text: Text, version: int, last: int) -> Positions:
    """The rows of a workflow from the third to the last, which is left out."""
    rows = np.arange(2, last)
    tokens, widths = text.firsts[2:last], np.diff(text.firsts[2 : last + 1])
    is_data, is_task, is_par = (text.are(tokens, word) for word in ("data", "task", "par"))
    text.expect_all(2, is_data | is_task | is_par, "'data', 'task', 'par' or 'end'")
    task_told = f"'task', its extra,{' its share,' if version == 2 else ''} its time"
    columns = np.zeros((3, len(rows)), np.int64)
    for which, width, told in (
        (is_data, 1, "'data' and its size"),
        (is_task, version + 1, task_told),
        (is_par, 1, "'par' and a number"),
    ):
        is_wrong = which & (widths != width + 1)
        text.expect_all(2, ~is_wrong, told)
        for place in range(width):
            columns[place, which] = text.values(tokens[which] + 1 + place)
        text.expect_all(2, ~which | (columns >= 0).all(axis=0), f"{told}, in whole numbers")
    amounts, shares, times = columns
    if version == 1:
        shares, times = times, shares
    text.expect_all(2, is_par | (amounts <= SIZE_LIMIT), f"a size of at most {SIZE_LIMIT}")
    is_time = (1 <= times) & (times <= TIME_LIMIT)
    text.expect_all(2, ~is_task | is_time, f"a time from 1 to {TIME_LIMIT}")
    text.expect_all(2, ~is_par | (amounts >= 2), "'par' of 2 terms or more")
    expect_total(text, rows, np.where(is_par, 0, amounts))
    return Positions(is_data, is_task, amounts, shares, times)


def expect_one_term(text: Text, it: Positions) -> None:
    """Each position finds its terms on the stack, and at the end one is left."""
    # a number of terms past every stack is as good as a greater one, and sums stay small
    parts = np.minimum(it.amounts, len(it.amounts) + 1)
    changes = np.where(it.is_data, 1, np.where(it.is_task, -1, 1 - parts))
    heights = np.cumsum(changes)
    text.expect_all(2, heights >= 1, "as many terms before it as it takes")
    if len(heights) == 0 or heights[-1] != 1:
        text.refuse(2 + len(heights), "one term at the end, not none or several")


def system_of_workflow(name: str) -> Read:
    text = text_of(name, WORKFLOW)
    version = version_of(text, "workflow", WORKFLOW)
    count = tasks_of(text, "tasks")
    # the first `end` is the last row that counts, whether something follows it or not
    is_end = text.are(text.firsts[2:-1], "end")
    last = 2 + int(np.argmax(is_end)) if is_end.any() else text.count
    it = positions_of(text, version, last)
    text.expect_end(last)
    expect_one_term(text, it)
    if (found := int(it.is_task.sum())) != count:
        text.refuse(last, f"{count} tasks before the end, as line 2 of the file says, not {found}")
    words = np.where(it.is_data, "data", np.where(it.is_task, "task", "par"))
    ends = ends_of_items(list(zip(words.tolist(), it.amounts.tolist())), count)
    makers, takers = (np.array(them, np.int64) for them in ends)
    sizes = it.amounts[it.is_data]
    made, taken = (sums(count + 1, them, sizes)[1:] for them in (makers, takers))
    extras, shares = it.amounts[it.is_task], it.shares[it.is_task]
    is_share = shares <= np.minimum(taken, extras + made)
    told = "a share of at most what the task takes up, and of at most its extra and what it makes"
    if not is_share.all():
        text.refuse(2 + int(np.flatnonzero(it.is_task)[np.argmin(is_share)]), told)
    system = of_ends(sizes, makers, takers, extras, shares, it.times[it.is_task])
    return read_as(text.name, system)
