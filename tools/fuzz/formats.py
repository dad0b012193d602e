"""Plain readers of each kind of file, and of words, written from docs/FORMATS.md and docs/PLANS.md alone: a second opinion on each refusal."""
import json
import math
import re
from collections.abc import Callable
from typing import Any, NamedTuple, Optional

# The limits, which tools/check_facts.py compares with those of the program.
MOST_SIZE = MOST_TIME = MOST_ZEROS = 2**40
MOST_TOTAL = 2**60
MOST_TASKS = MOST_ORDER = 1_000_000
MOST_ENTRIES = 10_000_000
MOST_POSITIONS = 4_000_001
MOST_ARCS = 2_000_001
MOST_USES = 10_000_000
MOST_MINDEG = 50_000
MOST_WORKERS = 4_096


class Refused(Exception):
    """Why a file is refused."""


class Page:
    """A file's lines that count, one after the other."""

    def __init__(self, file: str, text: bytes, early: str) -> None:
        """`early` is the kind of a file that ends early."""
        self.file, self.early = file, early
        lines = text.split(b"\n")
        if not lines[-1]:
            lines.pop()
        self.past = len(lines) + 1
        comments = (b"%",) if file == "matrix" else (b"%", b"#")
        split = [(number, re.findall(rb"[^ \t\r]+", line)) for number, line in enumerate(lines, 1)]
        if file == "matrix":
            split = split[:1] + [line for line in split[1:] if is_counted(line[1], comments)]
        else:
            split = [line for line in split if is_counted(line[1], comments)]
        self.rest = iter(split)
        self.number, self.tokens = 0, []

    def go_on(self) -> list[bytes]:
        """The tokens of the next line."""
        self.number, self.tokens = next(self.rest, (self.past, []))
        if self.number == self.past:
            self.refuse(self.early)
        return self.tokens

    def refuse(self, kind: str) -> None:
        raise Refused(f"format {self.file} {kind} {self.number}")

    def test(self, holds: bool, kind: str) -> None:
        if not holds:
            self.refuse(kind)

    def limit(self, holds: bool, name: str) -> None:
        if not holds:
            raise Refused(f"limit {self.file} {name}")

    def number_at(self, place: int, kind: str = "number") -> int:
        value = number(self.tokens[place])
        self.test(value is not None, kind)
        return value or 0

    def header(self, word: bytes) -> int:
        """The version, of the first line."""
        self.go_on()
        self.test(self.tokens in ([word, b"1"], [word, b"2"]), "header")
        return int(self.tokens[1])

    def section(self, word: bytes, kind: str) -> int:
        """The number of a line of a word and a number."""
        self.go_on()
        self.test(len(self.tokens) == 2 and self.tokens[0] == word, kind)
        return self.number_at(1)

    def end(self, kind: str) -> None:
        """No further line."""
        for self.number, self.tokens in self.rest:
            self.refuse(kind)


def is_counted(tokens: list[bytes], comments: tuple[bytes, ...]) -> bool:
    return bool(tokens) and not tokens[0].startswith(comments)


def number(token: bytes) -> Optional[int]:
    return int(token) if re.fullmatch(rb"[0-9]+", token) and int(token) < 2**64 else None


def values_of(tokens: list[bytes]) -> Optional[list[int]]:
    """The numbers of a line, where all are some."""
    values = [number(token) for token in tokens]
    return None if None in values else [value for value in values if value is not None]


# ---- trees


class Node(NamedTuple):
    line: int
    parent: int
    out: int
    extra: int
    share: int


def read_tree(text: bytes) -> int:
    """The number of nodes."""
    page = Page("tree", text, "no-end")
    version = page.header(b"tree")
    count = page.section(b"nodes", "header")
    page.test(count != 0, "count")
    page.limit(count <= MOST_TASKS, "tasks")
    nodes: list[Node] = []
    total = 0
    while len(nodes) < count:
        nodes.append(read_node(page, version, count))
        total += nodes[-1].out + nodes[-1].extra
        page.limit(total <= MOST_TOTAL, "total")
    page.test(page.go_on() == [b"end"], "count")
    page.end("count")
    judge_nodes(page, nodes)
    return count


def read_node(page: Page, version: int, count: int) -> Node:
    page.test(page.go_on() != [b"end"], "count")
    values = values_of(page.tokens)
    page.test(values is not None and len(values) == 3 + version and values[-1] != 0, "number")
    parent, out, extra, *share, time = values or []
    page.test(parent <= count, "parent")
    page.limit(out <= MOST_SIZE and extra <= MOST_SIZE, "size")
    page.limit(time <= MOST_TIME, "time")
    return Node(page.number, parent, out, extra, *(share or [0]))


def judge_nodes(page: Page, nodes: list[Node]) -> None:
    """All parents lead to a root, and the shares fit."""
    below = [0] * len(nodes)
    leads = {0}
    for place, node in enumerate(nodes, 1):
        path = set()
        while place not in leads and place not in path:
            path.add(place)
            place = nodes[place - 1].parent
        page.number = node.line
        page.test(place in leads, "cycle")
        leads |= path
        if node.parent:
            below[node.parent - 1] += node.out
    for node, outs in zip(nodes, below):
        page.number = node.line
        page.test(node.share <= min(outs, node.extra + node.out), "share")


# ---- workflows


class Stack:
    """The terms so far, by what is there at the start and at the end of each, and what was counted."""

    def __init__(self) -> None:
        self.terms: list[tuple[int, int]] = []
        self.positions = self.tasks = self.total = 0

    def count(self, page: Page, size: int = 0) -> None:
        self.positions += 1
        page.limit(self.positions <= MOST_POSITIONS, "positions")
        page.limit(size <= MOST_SIZE, "size")

    def add(self, page: Page, size: int) -> None:
        self.total += size
        page.limit(self.total <= MOST_TOTAL, "total")


def read_workflow(text: bytes) -> int:
    """The number of tasks."""
    page = Page("workflow", text, "no-end")
    version = page.header(b"workflow")
    tasks = page.section(b"tasks", "header")
    page.limit(tasks <= MOST_TASKS, "tasks")
    stack = Stack()
    while page.go_on() and page.tokens[0] != b"end":
        word = page.tokens[0]
        page.test(word in (b"data", b"task", b"par"), "word")
        values = values_of(page.tokens[1:]) or []
        if word == b"data":
            read_data(page, values, stack)
        elif word == b"task":
            read_task(page, values, stack, version, tasks)
        else:
            read_par(page, values, stack)
    page.test(len(page.tokens) == 1, "number")
    page.test(len(stack.terms) == 1, "not-one-term")
    page.test(stack.tasks == tasks, "task-count")
    page.end("word")
    return tasks


def read_data(page: Page, values: list[int], stack: Stack) -> None:
    page.test(len(values) == 1, "number")
    stack.count(page, values[0])
    stack.add(page, values[0])
    stack.terms.append((values[0], values[0]))


def read_task(page: Page, values: list[int], stack: Stack, version: int, tasks: int) -> None:
    page.test(len(values) == 1 + version and values[-1] != 0, "number")
    page.test(len(stack.terms) >= 2, "stack-short")
    stack.tasks += 1
    page.test(stack.tasks <= tasks, "task-count")
    extra, *share, time = values
    stack.count(page, extra)
    page.limit(time <= MOST_TIME, "time")
    stack.add(page, extra)
    (first, left), (needed, last) = stack.terms[-2:]
    page.test(not share or share[0] <= min(left, extra + needed), "share")
    stack.terms[-2:] = [(first, last)]


def read_par(page: Page, values: list[int], stack: Stack) -> None:
    page.test(len(values) == 1 and values[0] >= 2, "number")
    page.test(len(stack.terms) >= values[0], "stack-short")
    stack.count(page)
    parts = stack.terms[-values[0] :]
    stack.terms[-values[0] :] = [(sum(first for first, _ in parts), sum(last for _, last in parts))]


# ---- matrices and lists of numbers

VALUES = {b"pattern": 0, b"real": 1, b"double": 1, b"integer": 1, b"unsigned-integer": 1, b"complex": 2}

SYMMETRIES = (b"general", b"symmetric", b"hermitian", b"skew-symmetric")


def read_matrix(text: bytes) -> int:
    """The number of rows."""
    page = Page("matrix", text, "size-line")
    values = read_banner(page)
    page.go_on()
    sizes = values_of(page.tokens) or []
    page.test(len(sizes) == 3 and 0 not in sizes[:2], "size-line")
    page.test(sizes[0] == sizes[1], "not-square")
    page.limit(sizes[0] <= MOST_ORDER, "order")
    page.limit(sizes[2] <= MOST_ENTRIES, "entries")
    seen = 0
    for page.number, page.tokens in page.rest:
        seen += 1
        page.test(seen <= sizes[2], "too-many")
        pair = values_of(page.tokens[:2]) or []
        page.test(len(page.tokens) == 2 + values and len(pair) == 2, "entry")
        page.test(1 <= min(pair) and max(pair) <= sizes[0], "index")
    page.number = page.past
    page.test(seen == sizes[2], "too-few")
    return sizes[0]


def read_banner(page: Page) -> int:
    """How many values an entry has."""
    page.number, page.tokens = next(page.rest, (1, []))
    words = [token.lower() for token in page.tokens]
    page.test(len(words) >= 5 and words[0] == b"%%matrixmarket", "banner")
    page.test(words[1] == b"matrix", "not-matrix")
    page.test(words[2] != b"array", "array-format")
    page.test(words[2] == b"coordinate", "banner")
    page.test(words[3] in VALUES, "field")
    page.test(words[4] in SYMMETRIES, "symmetry")
    return VALUES[words[3]]


def tokens_of(text: bytes) -> list[bytes]:
    return [token for _, tokens in Page("iperm", text, "").rest for token in tokens]


def base_of(text: bytes) -> int:
    """What places alone count from: 0 where some token states 0, else 1."""
    return 0 if any(number(token) == 0 for token in tokens_of(text)) else 1


def read_permutation(file: str, text: bytes, count: int, base: int = 1) -> int:
    """So many numbers, from the base on."""
    page = Page(file, text, "count")
    seen: set[int] = set()
    for page.number, page.tokens in page.rest:
        for place in range(len(page.tokens)):
            take_vertex(page, place, count, base, seen)
    page.number = page.past
    page.test(len(seen) == count, "count")
    return count


def take_vertex(page: Page, place: int, count: int, base: int, seen: set[int]) -> None:
    value = page.number_at(place) + 1 - base
    page.test(len(seen) < count, "count")
    page.test(1 <= value <= count, "range")
    page.test(value not in seen, "repeated")
    seen.add(value)


def read_inverse(text: bytes, count: int) -> int:
    """Places alone; or of so many tokens what Scotch writes."""
    return read_listing(text, count) if len(tokens_of(text)) == 2 * count + 1 else read_permutation("iperm", text, count, base_of(text))


def read_listing(text: bytes, count: int) -> int:
    """How many vertices there are, then each and its place, both from 0 where the second token states 0."""
    page = Page("iperm", text, "count")
    base = 0 if number(tokens_of(text)[1]) == 0 else 1
    seen: set[int] = set()
    taken = 0
    for page.number, page.tokens in page.rest:
        for place, token in enumerate(page.tokens):
            if taken == 0:
                page.test(number(token) == count, "count")
            elif taken % 2 == 1:
                page.test(page.number_at(place) == base + len(seen), "range")
            else:
                take_vertex(page, place, count, base, seen)
            taken += 1
    return count


def places_of(text: bytes, count: int) -> list[int]:
    """The places of a file that is read."""
    stated = [number(token) or 0 for token in tokens_of(text)]
    return stated[2::2] if len(stated) == 2 * count + 1 else stated


def states_order(text: bytes) -> bool:
    """Whether a file of an order is a report that states one."""
    _, tokens = next(Page("order", text, "").rest, (0, []))
    return tokens[:1] == [b"peak"]


def read_order(text: bytes) -> int:
    """How many numbers there are."""
    page = Page("order", text, "no-end")
    if states_order(text):
        return read_reported_order(page)
    seen = 0
    for page.number, page.tokens in page.rest:
        for place in range(len(page.tokens)):
            page.test(page.number_at(place) < 2**32, "number")
            seen += 1
            page.limit(seen <= MOST_TASKS, "tasks")
    return seen


def read_reported_order(page: Page) -> int:
    """The same of a report as `post` prints it."""
    read_stated(page, b"peak")
    count = read_stated(page, b"order")
    page.limit(count <= MOST_TASKS, "tasks")
    seen = 0
    while page.go_on() != [b"end"]:
        for place in range(len(page.tokens)):
            page.test(seen < count, "count")
            page.test(page.number_at(place) < 2**32, "number")
            seen += 1
    page.test(seen == count, "count")
    page.end("count")
    return count


def read_stated(page: Page, word: bytes) -> int:
    """The number of a line of this word and a number; where it is another line, the header is refused."""
    page.go_on()
    page.test(len(page.tokens) == 2 and page.tokens[0] == word, "header")
    return page.number_at(1, "header")


# ---- plans


def read_plan(text: bytes) -> int:
    """The length of the order."""
    page = Page("plan", text, "no-end")
    version = page.header(b"plan")
    count = page.section(b"order", "section")
    page.limit(count <= MOST_TASKS, "tasks")
    for _ in range(count):
        page.test(len(page.go_on()) == 1, "order")
        page.test(page.number_at(0) < 2**32, "number")
    if version == 2:
        read_priority(page, count)
    page.test(page.section(b"peak", "section") <= MOST_TOTAL, "number")
    claims = page.section(b"claims", "section")
    page.limit(claims <= MOST_POSITIONS, "positions")
    before = 0
    for _ in range(claims):
        before = read_claim(page, before)
    page.test(page.go_on() == [b"end"], "no-end")
    page.end("no-end")
    return count


def read_priority(page: Page, count: int) -> None:
    ranked = page.section(b"priority", "section")
    page.test(ranked in (0, count), "priority")
    seen: set[int] = set()
    for _ in range(ranked):
        page.test(len(page.go_on()) == 1, "priority")
        value = page.number_at(0)
        page.test(1 <= value <= count and value not in seen, "priority")
        seen.add(value)


def read_claim(page: Page, before: int) -> int:
    """The position of a claim."""
    page.go_on()
    page.test(len(page.tokens) == 4 and page.tokens[1] in (b"F", b"R"), "claim")
    position, rest = page.number_at(0), page.number_at(3)
    page.test(re.fullmatch(rb"-?[0-9]+", page.tokens[2]) is not None and abs(int(page.tokens[2])) <= MOST_TOTAL, "number")
    page.test(position < 2**32 and rest <= MOST_TOTAL, "number")
    page.test(position > before, "claim")
    return position


def read_bounded_plan(text: bytes) -> int:
    """The length of the order of a plan with a bound."""
    page = Page("plan", text, "no-end")
    page.test(page.go_on() == [b"plan", b"3"], "header")
    count = page.section(b"order", "section")
    page.limit(count <= MOST_TASKS, "tasks")
    for _ in range(count):
        page.test(len(page.go_on()) == 1, "order")
        page.test(page.number_at(0) < 2**32, "number")
    page.test(page.section(b"peak", "section") <= MOST_TOTAL, "number")
    page.test(page.section(b"bound", "section") <= MOST_TOTAL, "number")
    read_evidence(page)
    page.test(page.go_on() == [b"end"], "no-end")
    page.end("no-end")
    return count


def read_evidence(page: Page) -> None:
    page.go_on()
    page.test(len(page.tokens) == 2 and page.tokens[0] in (b"need", b"states", b"first", b"last", b"claims"), "section")
    word, stated = page.tokens[0], page.number_at(1)
    if word in (b"need", b"states"):
        page.test(stated < 2**32, "number")
        return
    page.limit(stated <= (MOST_POSITIONS if word == b"claims" else MOST_TASKS), "positions" if word == b"claims" else "tasks")
    if word == b"claims":
        before = 0
        for _ in range(stated):
            before = read_claim(page, before)
        return
    amounts = page.section(b"base", "section")
    page.limit(amounts <= MOST_POSITIONS, "positions")
    read_amounts(page, amounts)
    for _ in range(stated):
        page.go_on()
        page.test(len(page.tokens) == 3 and page.tokens[0] == b"blocker", "section")
        task, own = page.number_at(1), page.number_at(2)
        page.test(task < 2**32, "number")
        amounts += own
        page.limit(amounts <= MOST_POSITIONS, "positions")
        read_amounts(page, own)


def read_amounts(page: Page, count: int) -> None:
    before = 0
    for _ in range(count):
        page.test(len(page.go_on()) == 2, "amount")
        place = page.number_at(0)
        page.test(place < 2**32, "number")
        page.test(re.fullmatch(rb"-?[0-9]+", page.tokens[1]) is not None and abs(int(page.tokens[1])) <= MOST_TOTAL, "number")
        page.test(place > before, "amount")
        before = place


# ---- the order of a plan of any form


def is_json(text: bytes) -> bool:
    return text.lstrip(b" \t\r\n").startswith(b"{")


def is_third(text: bytes) -> bool:
    page = Page("plan", text, "no-end")
    return next(page.rest, (0, []))[1] == [b"plan", b"3"]


def read_planned_order(text: bytes) -> int:
    """The length of the order of a plan, a file of any version or JSON."""
    if not is_json(text):
        return read_bounded_plan(text) if is_third(text) else read_plan(text)
    try:
        order = json_value(text)["order"]
    except (ValueError, KeyError, RecursionError):
        order = None
    if not isinstance(order, list):
        raise Refused("format plan json 1")
    if len(order) > MOST_TASKS:
        raise Refused("limit plan tasks")
    if not all(type(task) is int and task < 2**32 for task in order):
        raise Refused("format plan number 1")
    return len(order)


def json_value(text: bytes) -> Any:
    """The value of a text, in which a number of digits alone below 2^64 is whole and any other one is a float, or a ValueError."""
    value = json.loads(text.decode(), parse_int=json_number, parse_float=json_number, parse_constant=json_number)
    json.dumps(value, ensure_ascii=False).encode()  # half a surrogate is no text
    level, depth = [value], 0
    while level:
        # nested at most 127 deep
        inner = [list(it.values()) if isinstance(it, dict) else it for it in level if isinstance(it, (dict, list))]
        depth += bool(inner)
        level = [it for items in inner for it in items]
    if depth > 127:
        raise ValueError
    return value


def json_number(token: str) -> Any:
    if re.fullmatch("[0-9]+", token) and int(token) < 2**64:
        return int(token)
    if not math.isfinite(float(token)):
        raise ValueError
    return float(token)


# ---- fences


def read_fences(text: bytes) -> int:
    """The number of fences."""
    page = Page("fences", text, "no-end")
    page.test(page.go_on() == [b"fences", b"1"], "header")
    page.section(b"bound", "section")
    workers = page.section(b"workers", "section")
    page.test(workers <= MOST_WORKERS, "workers")
    page.test(page.section(b"room", "section") == 0 or workers != 0, "workers")
    read_rows(page, b"joins", "tasks", MOST_TASKS, "join", 1, range(1, 2**32))
    fences = read_rows(page, b"fences", "positions", MOST_POSITIONS, "fence", 2, range(2**32))
    read_rows(page, b"amounts", "positions", MOST_POSITIONS, "amount", 1, range(2**64))
    page.test(page.go_on() == [b"end"], "no-end")
    page.end("no-end")
    return fences


def read_rows(page: Page, word: bytes, limit: str, most: int, kind: str, width: int, values: range) -> int:
    """How many lines of so many numbers there are."""
    count = page.section(word, "section")
    page.limit(count <= most, limit)
    for _ in range(count):
        row = values_of(page.go_on())
        page.test(row is not None and len(row) == width, kind)
        page.test(all(it in values for it in row or []), "number")
    return count


def refusal_of(read: Callable[[], int]) -> tuple[int, Optional[str]]:
    """What a reader counts, and the rest of the line after `refused` where it refuses."""
    try:
        return read(), None
    except Refused as refused:
        return 0, str(refused)


# ---- task graphs


class Arc(NamedTuple):
    start: int
    end: int
    size: int


class Item(NamedTuple):
    """What task `start` makes and these tasks read."""

    start: int
    readers: list[int]
    size: int


class GraphTask(NamedTuple):
    line: int
    extra: int
    share: int


def read_graph(text: bytes) -> int:
    """The number of tasks of a graph of version 1."""
    page = Page("graph", text, "no-end")
    page.test(page.go_on() == [b"graph", b"1"], "header")
    return read_graph_with_arcs(page)


def read_graph_of_either_version(text: bytes) -> int:
    """The number of tasks."""
    page = Page("graph", text, "no-end")
    return read_graph_with_arcs(page) if page.header(b"graph") == 1 else read_graph_with_items(page)


def read_graph_with_arcs(page: Page) -> int:
    """The number of tasks of a graph of version 1, after its first line."""
    tasks = read_graph_tasks(page)
    total = sum(task.extra for task in tasks)
    most = page.section(b"arcs", "section")
    page.limit(most <= MOST_ARCS, "arcs")
    arcs: list[Arc] = []
    while len(arcs) < most:
        arcs.append(read_arc(page, len(tasks)))
        total += arcs[-1].size
        page.limit(total <= MOST_TOTAL, "total")
    end_graph(page)
    starts, ends = {arc.start for arc in arcs}, {arc.end for arc in arcs}
    added = sum((number not in starts) + (number not in ends) for number in range(1, len(tasks) + 1))
    page.limit(len(arcs) + added <= MOST_ARCS, "arcs")
    judge_graph(page, tasks, [Item(start, [end] if end else [], size) for start, end, size in arcs])
    return len(tasks)


def read_graph_with_items(page: Page) -> int:
    """The same of version 2."""
    tasks = read_graph_tasks(page)
    total = sum(task.extra for task in tasks)
    most = page.section(b"items", "section")
    page.limit(most <= MOST_POSITIONS, "positions")
    items: list[Item] = []
    uses = 0
    while len(items) < most:
        items.append(read_item(page, len(tasks)))
        total += items[-1].size
        page.limit(total <= MOST_TOTAL, "total")
        uses += len(items[-1].readers)
        page.limit(uses <= MOST_USES, "uses")
    end_graph(page)
    judge_graph(page, tasks, items)
    return len(tasks)


def read_graph_tasks(page: Page) -> list[GraphTask]:
    count = page.section(b"tasks", "section")
    page.limit(count <= MOST_TASKS, "tasks")
    total = 0
    tasks: list[GraphTask] = []
    while len(tasks) < count:
        tasks.append(read_graph_task(page))
        total += tasks[-1].extra
        page.limit(total <= MOST_TOTAL, "total")
    return tasks


def read_graph_task(page: Page) -> GraphTask:
    page.go_on()
    values = values_of(page.tokens)
    page.test(values is not None and len(values) == 3 and values[2] != 0, "number")
    extra, share, time = values or []
    page.limit(extra <= MOST_SIZE, "size")
    page.limit(time <= MOST_TIME, "time")
    return GraphTask(page.number, extra, share)


def read_arc(page: Page, count: int) -> Arc:
    page.go_on()
    values = values_of(page.tokens)
    page.test(values is not None and len(values) == 3, "number")
    arc = Arc(*(values or []))
    page.test(max(arc.start, arc.end) <= count and (arc.start != arc.end or arc.start == 0), "arc")
    page.limit(arc.size <= MOST_SIZE, "size")
    return arc


def read_item(page: Page, count: int) -> Item:
    page.go_on()
    values = values_of(page.tokens)
    page.test(values is not None and len(values) >= 2, "number")
    size, start, *readers = values or []
    page.test(max([start, *readers]) <= count and 0 not in readers and start not in readers and readers == sorted(set(readers)), "item")
    page.limit(size <= MOST_SIZE, "size")
    return Item(start, readers, size)


def end_graph(page: Page) -> None:
    page.test(page.go_on() == [b"end"], "section")
    page.end("section")


def judge_graph(page: Page, tasks: list[GraphTask], items: list[Item]) -> None:
    """All tasks can be ordered, and the shares fit what each task alone reads, and what it makes."""
    waits: list[set[int]] = [set() for _ in range(len(tasks) + 1)]
    taken, made = ([0] * (len(tasks) + 1) for _ in range(2))
    for item in items:
        made[item.start] += item.size
        if len(item.readers) == 1:
            taken[item.readers[0]] += item.size
        for reader in item.readers if item.start else []:
            waits[reader].add(item.start)
    left, is_less = set(range(1, len(tasks) + 1)), True
    while is_less:
        ready = {number for number in left if not waits[number] & left}
        left, is_less = left - ready, bool(ready)
    if left:
        page.number = tasks[min(left) - 1].line
        page.refuse("cycle")
    for task, own, out in zip(tasks, taken[1:], made[1:]):
        page.number = task.line
        page.test(task.share <= min(own, task.extra + out), "share")


# ---- words

MATRIX_OPTIONS = {"perm", "iperm", "ordering", "shape", "amalgamate", "inplace"}

# Commands whose matrix takes no more options than they list.
WITHOUT_FRONT_OPTIONS = {"fronts"}

# Of each of these at most one.
AT_MOST_ONE = ({"perm", "iperm", "ordering"}, {"order", "plan"})

# The inputs of each command, the options that it must have, one of each group, and those that it may have.
COMMANDS: dict[str, tuple[set[str], list[set[str]], set[str]]] = {
    "replay": ({"tree", "workflow", "matrix", "graph"}, [{"order", "plan"}], set()),
    "plan": ({"tree", "workflow", "matrix", "graph"}, [], {"print", "order", "effort"}),
    "check": ({"tree", "workflow", "matrix", "graph"}, [{"plan", "fences"}], {"workers"}),
    "simulate": ({"tree", "workflow", "matrix", "graph"}, [{"order", "plan"}, {"bound"}, {"workers"}], {"priority"}),
    "spill": ({"tree", "workflow", "matrix", "graph"}, [{"order", "plan"}, {"bound"}], set()),
    "fence": ({"tree", "workflow", "matrix", "graph"}, [], {"order", "plan", "bound", "workers", "fewest"}),
    "fronts": ({"matrix"}, [{"bound"}, {"workers"}], {"perm", "iperm", "ordering"}),
    "segments": ({"tree", "workflow", "matrix"}, [], set()),
    "reduce": ({"graph"}, [], {"order", "plan"}),
    "bound": ({"graph"}, [], {"order", "effort"}),
    "tree": ({"matrix"}, [], set()),
    "columns": ({"matrix"}, [], {"order", "plan", "print"}),
    "post": ({"tree", "matrix"}, [], set()),
    "demo": (set(), [], {"kind", "seed", "tasks", "rows", "cols"}),
    "upgrade": ({"tree", "workflow", "graph", "plan"}, [], {"priority"}),
}

# What options take; of two words where that is so of this command alone.
CHOICES = {
    "ordering": {"natural", "mindeg"},
    "shape": {"triangle", "square"},
    "inplace": {"no", "yes"},
    "print": {"text", "json"},
    "columns print": {"text", "perm"},
    "fewest": {"no", "yes"},
    "kind": {"tree", "workflow", "grid"},
}

RANGES = {
    "amalgamate": (0, MOST_ZEROS),
    "bound": (0, 2**64 - 1),
    "workers": (1, MOST_WORKERS),
    "seed": (0, 2**64 - 1),
    "effort": (0, 2**64 - 1),
    "tasks": (1, MOST_TASKS),
    "rows": (1, MOST_MINDEG),
    "cols": (1, MOST_MINDEG),
}


def request_of(words: list[str]) -> Optional[dict[str, str]]:
    """The options of words that ask for something."""
    options = split_options(words[1:])
    if not words or words[0] not in COMMANDS or options is None:
        return None
    inputs, needed, further = COMMANDS[words[0]]
    names = set(options)
    of_matrix = MATRIX_OPTIONS if "matrix" in names and words[0] not in WITHOUT_FRONT_OPTIONS else set()
    allowed = inputs.union(*needed, further, of_matrix)
    groups = ([inputs] if inputs else []) + needed
    if names - allowed or any(len(names & group) != 1 for group in groups):
        return None
    if any(len(names & group) > 1 for group in AT_MOST_ONE):
        return None
    if words[0] == "demo" and not is_demo(options):
        return None
    if words[0] == "upgrade" and "priority" in names and "plan" not in names:
        return None
    if words[0] == "check" and {"fences", "workers"} <= names:
        return None
    if words[0] == "fence" and names & {"order", "plan", "fewest"} and "bound" not in names:
        return None
    if words[0] == "plan" and names & {"order", "effort"} and "graph" not in names:
        return None
    return options if all(is_value(words[0], name, value) for name, value in options.items()) else None


def split_options(words: list[str]) -> Optional[dict[str, str]]:
    """Options as two words or one, each once, with values."""
    options: dict[str, str] = {}
    rest = iter(words)
    for word in rest:
        name, sign, value = word.partition("=")
        if not sign:
            value = next(rest, "")
        if not name.startswith("--") or name[2:] in options or not value or value.startswith("-"):
            return None
        options[name[2:]] = value
    return options


def is_value(command: str, name: str, value: str) -> bool:
    if choice := CHOICES.get(f"{command} {name}", CHOICES.get(name)):
        return value in choice
    if name in RANGES:
        read = number(value.encode())
        least, most = RANGES[name]
        return read is not None and least <= read <= most
    return True


def is_demo(options: dict[str, str]) -> bool:
    wanted = {"rows", "cols"} if options.get("kind") == "grid" else {"seed", "tasks"}
    if set(options) - {"kind"} != wanted or not all(is_value("demo", name, value) for name, value in options.items()):
        return False
    return "rows" not in wanted or int(options["rows"]) * int(options["cols"]) <= MOST_MINDEG
