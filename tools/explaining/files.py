"""The files that refusals speak of: their lines, what they should hold, and what else they may be."""

import json
import re
from itertools import dropwhile, islice, takewhile
from typing import Dict, Iterator, List, NamedTuple, Optional, Set, Tuple

from commands import COMMANDS

WIDTH = 100  # of a line that is shown
Row = Tuple[int, List[str]]  # the number of a line, and its tokens
KINDS = ("tree", "workflow", "graph", "matrix", "perm", "iperm", "order", "plan", "fences", "priority")
FORMS = {
    "tree": "a tree file has the lines `tree 1`, `nodes N`, N lines `parent out extra time` (`tree 2`: `parent out extra share time`), and `end`",
    "workflow": "a workflow file has the lines `workflow 1`, `tasks N`, lines `data D`, `task EXTRA TIME` and `par K`, and `end`",
    "graph": "a graph file has the lines `graph 1`, `tasks N`, N lines `extra share time`, `arcs M`, M lines `from to size`, and `end` (`graph 2`: `items M`, M lines `size from reader reader ..`)",
    "matrix": "a matrix file begins with `%%MatrixMarket matrix coordinate FIELD SYMMETRY`, then `ROWS COLUMNS ENTRIES`",
    "perm": "a permutation file has each row from 1 on once, the first one to go first",
    "iperm": "a file of an inverse has the place of each row, row 1 first, each place once: from 0 on where a 0 stands in it, else from 1 on; or it is what Scotch's gord writes",
    "order": "an order file has the numbers of the tasks, in order, and nothing else; or it is what `post` prints: `peak P`, `order N`, N tasks, and `end`",
    "plan": "a plan file has the lines `plan 1`, `order N`, N tasks, `peak P`, `claims C`, C claims, and `end` (`plan 3`, of a task graph: behind the peak `bound L`, its evidence, and `end`)",
    "fences": "a fence file has the lines `fences 1`, `bound B`, `workers W`, `room L`, `joins J`, J places, `fences K`, K lines `FROM TO`, `amounts N`, N amounts, and `end`",
    "priority": "a priority file has each task from 1 on once, the first one to be preferred",
}
# What else a file may be, by its first word: a file that another option takes, or what no option takes.
OTHER_FILES = {"tree": "tree", "workflow": "workflow", "graph": "graph", "plan": "plan", "fences": "fences", "%%matrixmarket": "matrix"}
OTHER_TEXTS = {
    "peak": "is the report of `post` or `replay`.",
    "columns": "is the report of `columns`: with `--print perm` that prints a permutation file.",
    "refused": "is a refusal, which an earlier run wrote; did `> FILE` write over the input?",
    "no": "is a refusal, which an earlier run wrote; did `> FILE` write over the input?",
}
MAGIC = {
    b"\x1f\x8b": "is compressed by gzip: `gunzip` it first.",
    b"BZh": "is compressed by bzip2: `bunzip2` it first.",
    b"\xfd7zXZ": "is compressed by xz: `unxz` it first.",
    b"\x28\xb5\x2f\xfd": "is compressed by zstd: `unzstd` it first.",
    b"PK\x03\x04": "is a zip archive: `unzip` it first.",
    b"\xff\xfe": "is written in UTF-16, two bytes a letter: `iconv -f UTF-16 -t UTF-8` makes plain text of it.",
    b"\xfe\xff": "is written in UTF-16, two bytes a letter: `iconv -f UTF-16 -t UTF-8` makes plain text of it.",
    b"\xef\xbb\xbf": "begins with a byte order mark, three bytes that no editor shows: `tail -c +4` gives the file without it.",
    b"<": "is a web page, or XML: was the right link downloaded?",
    b"{": "is JSON, which no command reads: `plan` without `--print json` prints a plan file.",
}


class File:
    """A file of a kind, by its lines, numbered from 1; it may be a great one, and is read anew for each question."""

    def __init__(self, kind: str, name: str) -> None:
        self.kind, self.name = kind, name
        with open(name, "rb") as file:
            self.head = file.read(65536)

    def lines(self) -> Iterator[bytes]:
        with open(self.name, "rb") as file:
            yield from file

    def text(self, number: int) -> str:
        return next(islice(self.lines(), number - 1, None), b"").decode("utf-8", "replace").rstrip("\r\n")

    def tokens(self, number: int) -> List[str]:
        return self.text(number).split()

    def rows(self) -> Iterator[Tuple[int, List[str]]]:
        """The lines that count, with their numbers."""
        comments = ("%",) if self.kind == "matrix" else ("%", "#")
        for number, line in enumerate(self.lines(), 1):
            tokens = line.decode("utf-8", "replace").split()
            if tokens and (not tokens[0].startswith(comments) or (number, self.kind) == (1, "matrix")):
                yield number, tokens

    def numbered(self) -> Iterator[Tuple[int, str]]:
        """The tokens of all lines, each with the number of its line; of a plan, and of what `post` prints, those of its order."""
        if self.is_json():
            with open(self.name, "rb") as file:
                return ((1, str(task)) for task in json.load(file)["order"])
        rows = self.rows()
        if self.kind == "plan":
            rows = islice(rows, 2, 2 + self.stated("order"))
        elif self.is_report():
            rows = takewhile(lambda row: row[1] != ["end"], islice(rows, 2, None))
        return ((number, token) for number, tokens in rows for token in tokens)

    def is_json(self) -> bool:
        """Whether it is a plan as JSON."""
        return self.kind == "plan" and self.head.lstrip(b" \t\r\n").startswith(b"{")

    def is_report(self) -> bool:
        """Whether it is an order as `post` prints it."""
        return self.kind == "order" and [tokens[0] for _, tokens in islice(self.rows(), 2)] == ["peak", "order"]

    def is_of_scotch(self) -> bool:
        """Whether it has a head and two columns, as Scotch's gord writes an order."""
        rows = list(self.rows())
        return len(rows) > 1 and rows[0][1] == [str(len(rows) - 1)] and all(len(tokens) == 2 for _, tokens in rows[1:])

    def row_behind(self, word: str, place: int = 0) -> Optional[Row]:
        """The row below the first one that begins with a word, or so many rows behind it; None where there is none."""
        below = islice(self.rows(), 1, None)
        return next(islice(dropwhile(lambda row: row[1][0] != word, below), place, None), None)

    def stated(self, word: str) -> int:
        """The number behind a word, as in `nodes 5`."""
        return next(int(tokens[1]) for _, tokens in self.rows() if tokens[0] == word and len(tokens) == 2)

    def nodes(self) -> List[Tuple[int, List[int]]]:
        """The lines of a tree's nodes, or a graph's tasks, and arcs or items."""
        return [(number, [int(it) for it in tokens]) for number, tokens in islice(self.rows(), 2, None) if len(tokens) > 2 and all(map(is_number, tokens))]

    def section(self) -> str:
        """The word before the second part of a graph file: `arcs`, or in version 2 `items`."""
        return "items" if next(self.rows())[1][1:] == ["2"] else "arcs"

    def arcs(self) -> List[Tuple[int, int]]:
        """Of a graph file for each reader of an item the task that makes it, and the reader; 0 stands for none."""
        ends = [row for _, row in self.nodes()[self.stated("tasks") :]]
        return [(row[0], row[1]) for row in ends] if self.section() == "arcs" else [(row[1], reader) for row in ends for reader in row[2:]]

    def line_of_item(self, item: int) -> int:
        """The number of the line of an item of a graph file of version 2; 0 without it."""
        row = self.row_behind("items", item)
        return row[0] if row else 0

    def uses(self) -> int:
        """How many uses the items of a graph file have: an item has one of each of its readers, and one where nobody reads it."""
        ends = [tokens for _, tokens in dropwhile(lambda row: row[1][0] != self.section(), self.rows()) if is_number(tokens[0])]
        return len(ends) if self.section() == "arcs" else sum(max(1, len(tokens) - 2) for tokens in ends)

    def place(self, number: int) -> str:
        count = sum(1 for _ in self.lines())
        if number > count:
            return f"{self.name} ends after line {count}"
        shown = "".join(it if it.isprintable() else "?" for it in self.text(number).expandtabs(1))
        return f"{self.name}, line {number}: {shown if len(shown) <= WIDTH else shown[:WIDTH] + ' ..'}"


class Case(NamedTuple):
    """A refusal of a file: where, all files that are there, and the command that refused it, if that is known."""

    file: File
    line: int
    files: Dict[str, File]
    command: str = ""

    @property
    def tokens(self) -> List[str]:
        return self.file.tokens(self.line)


def options_of(command: str) -> Set[str]:
    """The options that a command takes; none where no command is known."""
    return {option.name for it in COMMANDS if it.name == command for option in it.options}


def is_number(token: str) -> bool:
    return re.fullmatch(r"[0-9]+", token) is not None


def many(count: int, what: str) -> str:
    return f"{count} {what}{'' if count == 1 else 's'}"


def form_of(kind: str) -> str:
    """What a file of this kind holds, as a sentence."""
    return f"{FORMS[kind][0].upper()}{FORMS[kind][1:]}."


def wrong_token(token: str) -> str:
    """Why a token is no number; nothing where it is one."""
    if is_number(token):
        return f"`{token}` is 2^64 or more" if int(token) >= 2**64 else ""
    if "," in token or ";" in token:
        return f"`{token}` has a comma or a semicolon: blanks stand between numbers"
    if re.fullmatch(r"[+-]?[0-9.]+[eEdD][+-]?[0-9]+", token):
        return f"`{token}` has an exponent: numbers are written out, in digits alone"
    if re.fullmatch(r"[+-]?[0-9]*\.[0-9]*", token):
        return f"`{token}` has a point: sizes are whole numbers, of entries or bytes"
    if token.startswith(("-", "+")):
        return f"`{token}` has a sign: numbers are digits alone, from 0 on"
    return f"`{token}` is no number"


def where_given(kind: str, command: str, given: str) -> str:
    """What to do with a file of this kind, which was given to a command as another one."""
    takes = options_of(command)
    if kind in takes or not takes:
        return f"which is given by `--{kind}`."
    if (kind, given) == ("plan", "order"):
        return f"and `{command}` takes an order alone: the numbers between its lines `order N` and `peak P`."
    return f"which `{command}` does not take."


def foreign(file: File, line: int, command: str = "") -> str:
    """What a file is, where it is none of its kind; nothing where it seems to be one."""
    if not file.head.strip():
        return f"{file.name} is empty."
    for first, says in MAGIC.items():
        if file.head.startswith(first):
            return f"{file.name} {says}"
    if b"\0" in file.head:
        return f"{file.name} is no text, or is written in UTF-16."
    if b"\r" in file.head and b"\n" not in file.head:
        return f"{file.name} has lines that end with a carriage return alone: `tr '\\r' '\\n'` makes lines of them."
    for number in (1, line):
        word = (file.tokens(number) or [""])[0].lower()
        if (word, file.kind) == ("peak", "order"):
            continue
        option = OTHER_FILES.get(word, file.kind)
        if option != file.kind:
            return f"{file.name} is a {option} file, {where_given(option, command, file.kind)}"
        if word in OTHER_TEXTS:
            return f"{file.name} {OTHER_TEXTS[word]}"
    return ""
