"""Orders: of plans, of reports of `post`, of order files; and whether one fits a read."""
import json
from typing import NamedTuple, Optional

import numpy as np

from .system import TASK_LIMIT, Read
from .text import TOO_LARGE, Refusal, Text, text_of

ORDER = "an order: a plan, what `post` prints, or the numbers of tasks"


class Order(NamedTuple):
    """An order of tasks; of a file of lines, also the line of each."""

    name: str
    numbers: np.ndarray
    lines: Optional[np.ndarray]


def order_of(name: str) -> Order:
    """The order of a plan file, of a plan as JSON, of a report of `post`, or of an order file."""
    text = text_of(name, ORDER)
    if text.content.lstrip().startswith(b"{"):
        return order_of_json(text)
    if text.count == 0 or not text.row(0)[0].isdigit():
        return order_of_report(text)
    tokens = np.arange(len(text.starts))
    numbers = text.values(tokens)
    if (numbers < 0).any():
        row = int(np.searchsorted(text.firsts, np.argmax(numbers < 0), "right")) - 1
        text.refuse(row, "the number of a task")
    if len(numbers) > TASK_LIMIT:
        raise Refusal(text.name, f"expected at most {TASK_LIMIT} tasks; found {len(numbers)}")
    return Order(text.name, numbers, text.lines)


def order_of_report(text: Text) -> Order:
    """The order of a plan or of a report of `post`, which begin with a line of their own."""
    head = text.row(0)
    is_plan = head in ([b"plan", b"1"], [b"plan", b"2"])
    is_of_graph = head == [b"plan", b"3"]
    is_post = len(head) == 2 and head[0] == b"peak" and head[1].isdigit()
    if not is_plan and not is_of_graph and not is_post:
        text.refuse(0, ORDER)
    count = text.expect_word(1, "order", "'order' and the number of tasks")
    if count > TASK_LIMIT:
        text.refuse(1, f"an order of at most {TASK_LIMIT} tasks")
    (numbers,) = text.expect_numbers(2, count, 1, "the number of a task")
    row = 2 + count
    if is_plan:
        if head[1] == b"2":
            row += 1 + text.expect_word(row, "priority", "'priority' and a number")
        text.expect_word(row, "peak", "'peak' and a number")
        row += 2 + text.expect_word(row + 1, "claims", "'claims' and a number")
    if is_of_graph:
        text.expect_word(row, "peak", "'peak' and a number")
        text.expect_word(row + 1, "bound", "'bound' and a number")
        row = text.count - 1  # what stands between is evidence, and `check` judges it
    text.expect_end(min(row, text.count))
    return Order(text.name, numbers, text.lines[text.firsts[2 : 2 + count]])


def order_of_json(text: Text) -> Order:
    try:
        order = json.loads(text.content)["order"]
        is_right = all(type(number) is int for number in order)
    except (ValueError, KeyError, TypeError, RecursionError) as fault:
        told = "expected a plan as JSON, an object with the member 'order'"
        if isinstance(fault, UnicodeDecodeError):
            told += "; found bytes that are no UTF-8 text"
        raise Refusal(text.name, told, getattr(fault, "lineno", 1)) from fault
    if not is_right:
        raise Refusal(text.name, "expected an array of whole numbers as 'order'", 1)
    capped = [min(max(number, -1), TOO_LARGE) for number in order]
    return Order(text.name, np.array(capped, np.int64), None)


def order_by_number(read: Read) -> Order:
    return Order("1..n", np.arange(1, read.count + 1), None)


def expect_traversal(read: Read, order: Order) -> None:
    """Refuses an order that is no traversal, at its first fault."""
    numbers, count = order.numbers, read.count
    length = len(numbers)
    places = np.arange(length)
    is_known = (1 <= numbers) & (numbers <= count)
    known = np.where(is_known, numbers, 0)
    # the first place of each task; past the last one where it has none
    firsts = np.full(count + 1, length)
    firsts[known[::-1]] = places[::-1]
    is_repeated = is_known & (firsts[known] != places)
    is_early = np.zeros(length + 1, bool)
    is_early[firsts[read.takers[firsts[read.makers] > firsts[read.takers]]]] = True
    faults = np.flatnonzero(~is_known | is_repeated | is_early[:-1])
    if not faults.size:
        if length < count:
            lacking = int(np.flatnonzero(firsts[1:] == length)[0]) + 1
            told = f"expected the {count} tasks of {read.name}; found {length}"
            raise Refusal(order.name, f"{told}, and {lacking} is not among them")
        return
    at = int(faults[0])
    task = int(numbers[at])
    if not is_known[at]:
        stated = "a number far too great" if task == TOO_LARGE else str(task)
        told = f"expected a task of {read.name}, from 1 to {count}; found {stated}"
    elif is_repeated[at]:
        told = f"expected each task once; found {task} a second time"
    else:
        makers = read.makers[read.takers == task]
        maker = int(makers[firsts[makers] > at][0])
        told = f"expected task {maker} of {read.name} before {task}, which takes up what it makes"
    if order.lines is None:
        raise Refusal(order.name, f"{told}, at place {at + 1} of the order")
    raise Refusal(order.name, told, int(order.lines[at]))
