"""Files as memplan cuts them, into lines, tokens and numbers; and how one is refused."""
import sys
from pathlib import Path
from typing import NoReturn, Optional

import numpy as np

# Greater than every number that a file may state.
TOO_LARGE = 2**62
# A token of at most so many digits is no greater than 64 bits hold.
SHORT = 18

IS_GAP = np.zeros(256, bool)
IS_GAP[list(b" \t\r\n")] = True

# What a file is taken for, by its first word.
KINDS = {
    b"tree": "a tree file",
    b"workflow": "a workflow file",
    b"graph": "a task graph",
    b"plan": "a plan",
    b"makespan": "what `simulate` prints",
    b"segments": "what `segments` prints",
    b"peak": "what `post` or `replay` prints",
    b"volume": "what `spill` prints",
    b"fronts": "what `fronts` prints",
    b"yes": "what `check` prints",
    b"refused": "a refusal of memplan",
    b"no": "a refusal of memplan",
    b"memplan:": "a complaint of memplan",
}


class Refusal(Exception):
    """A file that cannot be drawn: which, where, and what was expected, in one line."""

    def __init__(self, name: str, told: str, line: Optional[int] = None) -> None:
        told = f"{name}, line {line}: {told}" if line else f"{name}: {told}"
        super().__init__("".join(it if it.isprintable() else ascii(it)[1:-1] for it in told))


def told_name(name: str) -> str:
    return "standard input" if name == "-" else name


def bytes_of(name: str) -> bytes:
    try:
        return sys.stdin.buffer.read() if name == "-" else Path(name).read_bytes()
    except OSError as fault:
        reason = (fault.strerror or "read fault").lower()
        raise Refusal(told_name(name), f"expected a file that can be read: {reason}") from fault


def quoted(letters: bytes) -> str:
    """What stands in a file, short and in one line."""
    try:
        told = letters.decode()
    except UnicodeDecodeError:
        return "bytes that are no UTF-8 text"
    return f"'{told}'" if len(told) <= 60 else f"'{told[:57]}...'"


class Text:
    """The rows of a file, which are its lines without blank ones and comments, and their tokens."""

    def __init__(self, name: str, content: bytes) -> None:
        self.name = told_name(name)
        self.content = content
        # with blanks past the end, so that whoever looks at a token need not look where it ends
        self.letters = np.frombuffer(content + b" " * SHORT, np.uint8)
        is_gap = np.append(True, IS_GAP[self.letters])
        edges = np.flatnonzero(is_gap[1:] != is_gap[:-1])
        self.starts, self.ends = edges[::2], edges[1::2]
        line_feeds = np.flatnonzero(self.letters == ord("\n"))
        per_line = np.diff(np.searchsorted(self.starts, line_feeds), prepend=0)
        per_line = np.append(per_line, len(self.starts) - per_line.sum())
        self.lines = np.repeat(np.arange(1, len(per_line) + 1), per_line)
        self.past_last = len(line_feeds) + 1 + (not content.endswith(b"\n") and content != b"")
        self._leave_out_comments()
        is_first = np.diff(self.lines, prepend=0) != 0
        # the first token of each row, and past the last one the number of tokens
        self.firsts = np.append(np.flatnonzero(is_first), len(self.starts))
        self.count = len(self.firsts) - 1

    def _leave_out_comments(self) -> None:
        is_first = np.diff(self.lines, prepend=0) != 0
        is_comment = is_first & np.isin(self.letters[self.starts], list(b"%#"))
        if is_comment.any():
            kept = ~np.isin(self.lines, self.lines[is_comment])
            self.starts, self.ends = self.starts[kept], self.ends[kept]
            self.lines = self.lines[kept]

    def line(self, row: int) -> int:
        """The number of a row's line; past the last row, that of the line past the last."""
        return int(self.lines[self.firsts[row]]) if row < self.count else self.past_last

    def row(self, row: int) -> list[bytes]:
        """The tokens of a row; past the last row, none."""
        places = range(*self.firsts[row : row + 2]) if row < self.count else ()
        return [self.content[self.starts[at] : self.ends[at]] for at in places]

    def refuse(self, row: int, expected: str) -> NoReturn:
        """Refuses the file at a row."""
        if not self.content:
            raise Refusal(self.name, f"expected {expected}, but the file is empty")
        found = quoted(b" ".join(self.row(row)))
        if row >= self.count:
            found = "the file ends here"
        elif row == 0 and (kind := KINDS.get(self.row(0)[0].lower())):
            found = f"{kind}: {found}"
        raise Refusal(self.name, f"expected {expected}; found {found}", self.line(row))

    def expect_word(self, row: int, word: str, expected: str) -> int:
        """The number of a row that is a word and a number."""
        tokens = self.row(row)
        if len(tokens) != 2 or tokens[0] != word.encode() or not tokens[1].isdigit():
            self.refuse(row, expected)
        return int(self.values(self.firsts[row : row + 1] + 1)[0])

    def expect_end(self, row: int) -> None:
        """Nothing but `end` stands in a row, and nothing behind it."""
        if self.row(row) != [b"end"]:
            self.refuse(row, "'end'")
        if row + 1 < self.count:
            self.refuse(row + 1, "nothing after 'end'")

    def expect_widths(self, first: int, count: int, width: int, expected: str) -> np.ndarray:
        """The first tokens of so many rows, each of so many tokens."""
        last = min(first + count, self.count)
        widths = np.diff(self.firsts[first : last + 1])
        if (wrong := np.flatnonzero(widths != width)).size:
            self.refuse(first + int(wrong[0]), expected)
        if last < first + count:
            self.refuse(last, expected)
        return self.firsts[first:last]

    def expect_numbers(self, first: int, count: int, width: int, expected: str) -> np.ndarray:
        """The numbers of so many rows, a column for each row's first, second, .. one."""
        tokens = self.expect_widths(first, count, width, expected)
        columns = np.stack([self.values(tokens + place) for place in range(width)])
        self.expect_all(first, (columns >= 0).all(axis=0), expected)
        return columns

    def expect_all(self, first: int, is_right: np.ndarray, expected: str) -> None:
        """Refuses the first row, from one on, that is not right."""
        if not is_right.all():
            self.refuse(first + int(np.argmin(is_right)), expected)

    def are(self, tokens: np.ndarray, word: str) -> np.ndarray:
        """Which tokens are this word."""
        starts = self.starts[tokens]
        left = np.flatnonzero(self.ends[tokens] - starts == len(word))
        for place, letter in enumerate(word.encode()):
            left = left[self.letters[starts[left] + place] == letter]
        found = np.zeros(len(starts), bool)
        found[left] = True
        return found

    def values(self, tokens: np.ndarray) -> np.ndarray:
        """The numbers that tokens are; -1 for what is none, TOO_LARGE for all above it."""
        starts, lengths = self.starts[tokens], self.ends[tokens] - self.starts[tokens]
        values = np.zeros(len(starts), np.int64)
        is_none = np.zeros(len(starts), bool)
        for place in range(min(SHORT, int(lengths.max(initial=0)))):
            # a letter below 0 wraps round to a great number
            digits = self.letters[starts + place] - np.uint8(ord("0"))
            is_in = lengths > place
            is_none |= is_in & (digits > 9)
            values = np.where(is_in, values * 10 + digits, values)
        values[is_none] = -1
        for at in np.flatnonzero(lengths > SHORT):
            digits = self.content[starts[at] : starts[at] + lengths[at]]
            values[at] = self._long_value(digits)
        return values

    @staticmethod
    def _long_value(letters: bytes) -> int:
        digits = letters.lstrip(b"0") or b"0"
        if not digits.isdigit():
            return -1
        return TOO_LARGE if len(digits) > SHORT + 1 else min(int(digits), TOO_LARGE)


def text_of(name: str, expected: str) -> Text:
    content = bytes_of(name)
    if content[:14].lower() == b"%%matrixmarket":
        # elsewhere this line is a comment
        first = content.split(b"\n", 1)[0].rstrip(b"\r")
        raise Refusal(told_name(name), f"expected {expected}; found a matrix: {quoted(first)}", 1)
    return Text(name, content)
