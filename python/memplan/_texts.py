"""The project's files as texts: read and written in plain Python, a million lines in a second or two.

Tasks are numbered from 1 here, as in the files. What a reader refuses is no text of the format; whether the numbers fit each other is for
the library and the program to say.
"""

from __future__ import annotations

import os
from pathlib import Path
from typing import Any, Dict, Iterable, Iterator, List, NamedTuple, NoReturn, Optional, Sequence, Tuple, Union

from ._arrays import frozen, kept, listed, sums
from ._numbers import I64, U32, U64
from .results import Blockers, Claims, Evidence, Need, Plan, States

Row = List[bytes]
PathLike = Union[str, "os.PathLike[str]"]

_NO_BLANKS = bytes.maketrans(b"\v\f", b"!!")  # which Python would split at, and the formats do not

_WORDS = {
    "header": "this line does not begin such a file",
    "section": "another line should stand here",
    "number": "whole numbers should stand here, as many as the format says",
    "count": "there are more or fewer lines than were told",
    "no-end": "the file ends here, or has lines behind its end",
    "word": "this line begins with none of the words of the format",
    "claim": "a claim should stand here: a greater position, F or R, and two numbers",
    "amount": "an amount should stand here: a greater place, and a number",
    "order": "the number of a task should stand here",
    "priority": "the number of a task should stand here, or 0 or as many as tasks",
    "join": "the place of an item should stand here",
    "fence": "the two numbers of a fence should stand here",
    "workers": "this is no number of workers",
    "arc": "the two ends of an arc and its size should stand here",
    "names": "a name that another task has should not stand here",
}


class FormatError(ValueError):
    """A text is none of its format: the ``file``, the ``line``, from 1, and the ``kind``, a word of FORMATS.

    >>> from memplan import Tree
    >>> Tree.of_text("tree 1\\nnodes 1\\n0 7 2\\nend\\n")
    Traceback (most recent call last):
    memplan._texts.FormatError: text, line 3: whole numbers should stand here, as many as the format says (number)
    """

    def __init__(self, file: str, line: int, kind: str) -> None:
        super().__init__(f"{file}, line {line}: {_WORDS[kind]} ({kind})")
        self.file = file
        self.line = line
        self.kind = kind

    def __reduce__(self) -> Tuple[Any, ...]:
        """So that it can be told from one process to another."""
        return FormatError, (self.file, self.line, self.kind)


def read_bytes(path: PathLike) -> bytes:
    return Path(path).read_bytes()


def write_text(path: PathLike, text: str) -> None:
    Path(path).write_bytes(text.encode("utf-8", "surrogateescape"))


class Form(NamedTuple):
    """What a line of a table is refused as: of another ``width``, with a ``token`` that is no number, or that is an ``end`` too early; and
    which numbers may stand there, else it is refused as ``number``."""

    width: str = "number"
    token: str = "number"
    end: Optional[str] = None
    least: int = 0
    most: int = U64.most


class Page:
    """The lines of a text that count, one after the other."""

    def __init__(self, text: Union[str, bytes], file: str) -> None:
        self.file = file
        self.text = text.encode("utf-8", "surrogateescape") if isinstance(text, str) else text
        plain = self.text.translate(_NO_BLANKS) if b"\v" in self.text or b"\f" in self.text else self.text
        self.lines = list(filter(bytes.strip, plain.split(b"\n")))
        if b"#" in plain or b"%" in plain:
            self.lines = [line for line in self.lines if line.lstrip()[:1] not in (b"#", b"%")]
        self.at = 0

    def refuse(self, kind: str, at: Optional[int] = None) -> NoReturn:
        """Of a line that counts, if nothing else is said of that before the next one."""
        wanted, seen = self.at - 1 if at is None else at, -1
        lines = self.text.translate(_NO_BLANKS).split(b"\n")
        for number, line in enumerate(lines, 1):
            row = line.split()
            seen += bool(row) and row[0][:1] not in (b"#", b"%")
            if seen == wanted:
                raise FormatError(self.file, number, kind)
        raise FormatError(self.file, len(lines) + bool(lines[-1]), kind)

    def row(self) -> Row:
        """The next line."""
        self.at += 1
        if self.at > len(self.lines):
            self.refuse("no-end")
        return self.lines[self.at - 1].split()

    def rows(self, count: int) -> List[Row]:
        """So many lines that come next, or fewer where the text ends, which stay the next."""
        return list(map(bytes.split, self.lines[self.at : self.at + count]))

    def tokens(self, count: int, width: int) -> List[List[bytes]]:
        """The columns of so many lines that come next, of so many tokens each, as a report has them."""
        together = b" ".join(self.lines[self.at : self.at + count]).split()
        self.at += count
        return [together[place::width] for place in range(width)]

    def version(self, word: bytes, *known: bytes) -> int:
        row = self.row()
        if len(row) != 2 or row[0] != word or row[1] not in known:
            self.refuse("header")
        return int(row[1])

    def section(self, word: bytes, kind: str = "section") -> int:
        row = self.row()
        if len(row) != 2 or row[0] != word:
            self.refuse(kind)
        return self.number(row[1])

    def number(self, token: bytes, kind: str = "number", most: int = U64.most) -> int:
        values = self.numbers_of([token], most)
        if values is None:
            self.refuse(kind)
        return values[0]

    def table(self, count: int, width: int, form: Form = Form()) -> List[List[int]]:
        """The columns of so many lines of so many numbers."""
        widths, values = self._numbers_of_lines(count)
        if len(widths) == count and widths.count(width) == count and values is not None:
            if form.least <= min(values, default=form.least) and max(values, default=0) <= form.most:
                self.at += count
                return [values[place::width] for place in range(width)]
        for at, row in enumerate(self.rows(count), self.at):
            if row == [b"end"] and form.end is not None:
                self.refuse(form.end, at)
            if len(row) != width:
                self.refuse(form.width, at)
            numbers = self.numbers_of(row)
            if numbers is None:
                self.refuse(form.token, at)
            if not form.least <= min(numbers) <= max(numbers) <= form.most:
                self.refuse("number", at)
        self.refuse("no-end", self.at + len(widths))

    def lists(self, count: int, least: int) -> Tuple[List[int], List[int]]:
        """So many lines of at least so many numbers: where each line starts among the numbers of all, and these."""
        widths, values = self._numbers_of_lines(count)
        if len(widths) == count and min(widths, default=least) >= least and values is not None:
            self.at += count
            return sums(widths), values
        for at, row in enumerate(self.rows(count), self.at):
            if len(row) < least or self.numbers_of(row) is None:
                self.refuse("number", at)
        self.refuse("no-end", self.at + len(widths))

    def _numbers_of_lines(self, count: int) -> Tuple[List[int], Optional[List[int]]]:
        """How many tokens each of the next lines has, and all as numbers, if they are. No line is kept in pieces: they would be many."""
        lines = self.lines[self.at : self.at + count]
        return list(map(len, map(bytes.split, lines))), self.numbers_of(b" ".join(lines).split())

    @staticmethod
    def numbers_of(tokens: Sequence[bytes], most: int = U64.most) -> Optional[List[int]]:
        """The tokens as numbers, looked at all together."""
        if tokens and not b"".join(tokens).isdigit():
            return None
        try:
            values = list(map(int, tokens))
        except ValueError:
            return None  # of more digits than Python reads
        return values if max(values, default=0) <= most else None

    def end(self, kind: str) -> None:
        """The single token `end`, and nothing after it."""
        if self.row() != [b"end"]:
            self.refuse(kind)
        self.nothing_more(kind)

    def nothing_more(self, kind: str) -> None:
        if self.at < len(self.lines):
            self.refuse(kind, self.at)

    def names(self, count: int) -> Optional[List[Any]]:
        """The names of the tasks in comments `# K NAME`; the number of one that has none; None where none has."""
        if b"#" not in self.text:
            return None
        named: Dict[int, str] = {}
        for line in self.text.split(b"\n"):
            parts = line.split(None, 2)
            if len(parts) == 3 and parts[0] == b"#" and parts[1].isdigit() and 1 <= int(parts[1]) <= count:
                named[int(parts[1])] = parts[2].rstrip().decode("utf-8", "surrogateescape")
        return [named.get(number, number) for number in range(1, count + 1)] if named else None


def lines_of_names(names: Optional[Sequence[Any]]) -> Iterator[str]:
    """The comments that name tasks, but one that is called by its own number."""
    for number, name in enumerate(names or (), 1):
        text = str(name)
        if type(name) is int and name == number:
            continue
        if not text or text != text.strip() or "\n" in text:
            raise ValueError(f"names[{number - 1}]: {name!r} cannot stand in a file")
        yield f"# {number} {text}\n"


def joined(*parts: Iterable[str]) -> str:
    return "".join(line for part in parts for line in part)


def lines(columns: Sequence[Sequence[Any]], form: str) -> Iterator[str]:
    """A line for each row of the columns."""
    return map(form.__mod__, zip(*columns))


# Trees


class TreeText(NamedTuple):
    parent: List[int]
    out: List[int]
    extra: List[int]
    share: Optional[List[int]]
    time: List[int]
    names: Optional[List[Any]] = None


def read_tree(text: Union[str, bytes], file: str = "text") -> TreeText:
    page = Page(text, file)
    version = page.version(b"tree", b"1", b"2")
    count = page.section(b"nodes", "header")
    if count == 0:
        page.refuse("count")
    parent, out, extra, *share, time = page.table(count, 3 + version, Form(end="count"))
    page.end("count")
    return TreeText(parent, out, extra, share[0] if share else None, time, page.names(count))


def tree_text(columns: TreeText, version: int) -> str:
    """Without names where these are None."""
    share = [columns.share or []] if version == 2 else []
    rows = [columns.parent, columns.out, columns.extra, *share, columns.time]
    head = f"tree {version}\nnodes {len(columns.parent)}\n"
    return joined([head], lines(rows, "%d %d %d %d %d\n" if share else "%d %d %d %d\n"), ["end\n"], lines_of_names(columns.names))


# Task graphs


class GraphText(NamedTuple):
    """The readers of all items stand in one list, those of item k from ``starts[k]`` to ``starts[k + 1]``."""

    extra: List[int]
    share: List[int]
    time: List[int]
    size: List[int]
    producer: List[int]
    starts: List[int]
    readers: List[int]
    names: Optional[List[Any]] = None


def read_graph(text: Union[str, bytes], file: str = "text") -> Tuple[GraphText, int]:
    """The graph, and the version of its text."""
    page = Page(text, file)
    version = page.version(b"graph", b"1", b"2")
    count = page.section(b"tasks")
    extra, share, time = page.table(count, 3)
    if version == 1:
        producer, reader, size = page.table(page.section(b"arcs"), 3)
        starts, readers = sums(map(bool, reader)), list(filter(None, reader))
    else:
        at, values = page.lists(page.section(b"items"), 2)
        size, producer = [values[start] for start in at[:-1]], [values[start + 1] for start in at[:-1]]
        spans = list(zip(at, at[1:]))
        starts, readers = sums(end - start - 2 for start, end in spans), [it for start, end in spans for it in values[start + 2 : end]]
    page.end("section")
    return GraphText(extra, share, time, size, producer, starts, readers, page.names(count)), version


def graph_text(graph: GraphText, version: int) -> str:
    head = [f"graph {version}\ntasks {len(graph.extra)}\n"]
    tasks = lines([graph.extra, graph.share, graph.time], "%d %d %d\n")
    spans = zip(graph.starts, graph.starts[1:])
    if version == 1:
        readers = [graph.readers[start] if start < end else 0 for start, end in spans]
        items: Iterable[str] = lines([graph.producer, readers, graph.size], "%d %d %d\n")
    else:
        told = list(map(str, graph.readers))
        rows = zip(graph.size, graph.producer, spans)
        items = (" ".join([f"{size} {producer}", *told[start:end]]) + "\n" for size, producer, (start, end) in rows)
    section = f"{'arcs' if version == 1 else 'items'} {len(graph.size)}\n"
    return joined(head, tasks, [section], items, ["end\n"], lines_of_names(graph.names))


# Workflows


class WorkflowText(NamedTuple):
    """Positions, each a word with its numbers: ("data", size), ("task", extra, share, time) or ("par", count)."""

    positions: List[Tuple[Any, ...]]
    tasks: int
    names: Optional[List[Any]]


_NUMBERS = {b"data": 1, b"par": 1, b"end": 0}


def read_workflow(text: Union[str, bytes], file: str = "text") -> Tuple[WorkflowText, int]:
    """The workflow, and the version of its text."""
    page = Page(text, file)
    version = page.version(b"workflow", b"1", b"2")
    told = page.section(b"tasks", "header")
    numbers = {**_NUMBERS, b"task": 1 + version}
    positions: List[Tuple[Any, ...]] = []
    tasks = 0
    while True:
        word, *tokens = page.row()
        if word not in numbers:
            page.refuse("word")
        if len(tokens) != numbers[word]:
            page.refuse("number")
        if word == b"end":
            break
        values = [page.number(token) for token in tokens]
        if word == b"task":
            tasks += 1
            values = [values[0], values[1] if version == 2 else 0, values[-1]]
        positions.append((word.decode(), *values))
    if tasks != told:
        page.refuse("count")
    page.nothing_more("word")
    return WorkflowText(positions, tasks, page.names(tasks)), version


def workflow_text(workflow: WorkflowText, version: int) -> str:
    def line(position: Tuple[Any, ...]) -> str:
        numbers = position[1:] if version == 2 or position[0] != "task" else (position[1], position[3])
        return " ".join(map(str, (position[0], *numbers))) + "\n"

    head = f"workflow {version}\ntasks {workflow.tasks}\n"
    return joined([head], map(line, workflow.positions), ["end\n"], lines_of_names(workflow.names))


# Matrices


def matrix_text(starts: List[int], rows: List[int]) -> str:
    """The pattern of columns that are told by where their entries start, and by the rows of these, which count from 0."""
    count = len(starts) - 1
    head = f"%%MatrixMarket matrix coordinate pattern general\n{count} {count} {len(rows)}\n"
    columns = (column for column, (start, end) in enumerate(zip(starts, starts[1:]), 1) for _ in range(start, end))
    return joined([head], map("%d %d\n".__mod__, zip((row + 1 for row in rows), columns)))


# Orders


def read_order(text: Union[str, bytes], file: str = "text") -> List[int]:
    page = Page(text, file)
    numbers = page.numbers_of(b" ".join(page.lines).split(), U32.most)
    if numbers is None:
        page.refuse("number", next(at for at, line in enumerate(page.lines) if page.numbers_of(line.split(), U32.most) is None))
    return numbers


def order_text(numbers: Iterable[int]) -> str:
    return joined(map("%d\n".__mod__, numbers))


# Plans


def read_plan(text: Union[str, bytes], file: str = "text", newest: int = 3) -> Plan:
    """A plan of tasks that are numbers, of a version up to the newest. One of version 2 without a ranking has an empty one."""
    page = Page(text, file)
    version = page.version(b"plan", *(b"1", b"2", b"3")[:newest])
    (order,) = page.table(page.section(b"order"), 1, Form("order", most=U32.most))
    priority = None
    if version == 2:
        ranked = page.section(b"priority")
        if ranked not in (0, len(order)):
            page.refuse("priority")
        priority = frozen(page.table(ranked, 1, Form("priority", most=U32.most))[0])
    peak = page.section(b"peak")
    bound, evidence = (peak, read_claims(page)) if version < 3 else read_bound(page)
    return Plan(frozen(order), peak, bound, evidence, priority)


def read_bound(page: Page) -> Tuple[int, Evidence]:
    """What stands from `bound L` to the end."""
    bound = page.section(b"bound")
    word = page.row()
    page.at -= 1
    kind = word[0] if len(word) == 2 else b""
    if kind == b"claims":
        return bound, read_claims(page)
    if kind in (b"first", b"last"):
        return bound, read_blockers(page, kind)
    if kind not in (b"need", b"states"):
        page.at += 1
        page.refuse("section")
    number = page.section(kind)
    page.end("no-end")
    return bound, Need(number) if kind == b"need" else States(number)


def read_claims(page: Page) -> Claims:
    count = page.section(b"claims")
    rows = page.rows(count)
    for at, row in enumerate(rows, page.at):
        if len(row) != 4 or row[1] not in (b"F", b"R"):
            page.refuse("claim", at)
    if len(rows) < count:
        page.refuse("no-end", page.at + len(rows))
    position = _signed(page, rows, 0, U32.most)
    backward = [int(row[1] == b"R") for row in rows]
    bound, rest = _signed(page, rows, 2, U64.most), _signed(page, rows, 3, U64.most)
    for at, (before, after) in enumerate(zip([0, *position], position), page.at):
        if before >= after:
            page.refuse("claim", at)
    page.at += count
    page.end("no-end")
    return Claims(frozen(position), frozen(backward), kept("claims.bound", bound, I64), kept("claims.rest", rest))


def _signed(page: Page, rows: List[Row], place: int, most: int) -> List[int]:
    """The numbers at a place of all rows; those at the third may be below 0."""
    tokens = [row[place] for row in rows]
    below = [at for at, token in enumerate(tokens) if token[:1] == b"-"] if place == 2 else []
    for at in below:
        tokens[at] = tokens[at][1:]
    values = page.numbers_of(tokens, most)
    if values is None:
        page.refuse("number", page.at + next(at for at, token in enumerate(tokens) if page.numbers_of([token], most) is None))
    for at in below:
        values[at] = -values[at]
    return values


def read_blockers(page: Page, kind: bytes) -> Blockers:
    count = page.section(kind)
    base = _amounts(page, page.section(b"base"))
    blockers = []
    for _ in range(count):
        row = page.row()
        if len(row) != 3 or row[0] != b"blocker":
            page.refuse("section")
        task, told = page.number(row[1], most=U32.most), page.number(row[2])
        blockers.append((task, _amounts(page, told)))
    page.end("no-end")
    return Blockers(kind == b"last", base, blockers)


def _amounts(page: Page, count: int) -> List[Tuple[int, int]]:
    found: List[Tuple[int, int]] = []
    for _ in range(count):
        row = page.row()
        if len(row) != 2:
            page.refuse("amount")
        below = row[1][:1] == b"-"
        place, size = page.number(row[0], most=U32.most), page.number(row[1][1:] if below else row[1])
        if place <= (found[-1][0] if found else 0):
            page.refuse("amount")
        found.append((place, -size if below else size))
    return found


def plan_text(plan: Plan, version: int) -> str:
    """Of a plan of tasks that are numbers, with evidence."""
    order = listed(plan.order)
    head = f"plan {version}\norder {len(order)}\n"
    priority = [] if plan.priority is None else listed(plan.priority)
    ranked = [f"priority {len(priority)}\n", order_text(priority)] if version == 2 else []
    bound = [f"bound {plan.bound}\n"] if version == 3 else []
    return joined([head, order_text(order)], ranked, [f"peak {plan.peak}\n"], bound, evidence_lines(plan.evidence), ["end\n"])


def evidence_lines(evidence: Optional[Evidence]) -> Iterator[str]:
    if isinstance(evidence, Claims):
        position, backward, bound, rest = map(listed, evidence)
        yield f"claims {len(position)}\n"
        yield from lines([position, ["R" if it else "F" for it in backward], bound, rest], "%d %s %d %d\n")
    elif isinstance(evidence, Need):
        yield f"need {evidence.task}\n"
    elif isinstance(evidence, States):
        yield f"states {evidence.many}\n"
    elif isinstance(evidence, Blockers):
        yield f"{'last' if evidence.last else 'first'} {len(evidence.blockers)}\nbase {len(evidence.base)}\n"
        yield from map("%d %d\n".__mod__, evidence.base)
        for task, amounts in evidence.blockers:
            yield f"blocker {task} {len(amounts)}\n"
            yield from map("%d %d\n".__mod__, amounts)


# Fences


class FencesText(NamedTuple):
    bound: int
    workers: int
    room: int
    joins: List[int]
    pairs: List[Tuple[int, int]]
    amounts: List[int]


def read_fences(text: Union[str, bytes], file: str = "text") -> FencesText:
    page = Page(text, file)
    page.version(b"fences", b"1")
    bound, workers, room = page.section(b"bound"), page.section(b"workers"), page.section(b"room")
    if room and not workers:
        page.refuse("workers")
    (joins,) = page.table(page.section(b"joins"), 1, Form("join", "join", least=1, most=U32.most))
    before, after = page.table(page.section(b"fences"), 2, Form("fence", "fence", most=U32.most))
    (amounts,) = page.table(page.section(b"amounts"), 1, Form("amount", "amount"))
    page.end("no-end")
    return FencesText(bound, workers, room, joins, list(zip(before, after)), amounts)


def fences_text(fences: FencesText) -> str:
    head = f"fences 1\nbound {fences.bound}\nworkers {fences.workers}\nroom {fences.room}\njoins {len(fences.joins)}\n"
    pairs = [f"fences {len(fences.pairs)}\n", *map("%d %d\n".__mod__, fences.pairs)]
    return joined([head, order_text(fences.joins)], pairs, [f"amounts {len(fences.amounts)}\n", order_text(fences.amounts), "end\n"])
