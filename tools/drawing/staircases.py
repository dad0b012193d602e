"""The staircases of a subtree, from what `segments` prints."""
import re

import numpy as np
from memplan import Segments, Stairs

from .text import Refusal, Text, bytes_of, quoted

REPORT = "what `segments` prints, whose first line is 'segments' and a number"


def stairs_of(name: str, number: int) -> Segments:
    """The staircases of a node or a position, from a report of `segments`, which may be long."""
    content = bytes_of(name)
    head = Text(name, content[: content.find(b"\n") + 1] or content)
    last = head.expect_word(0, "segments", REPORT)
    if content.split()[-1] != b"end":
        line = content.count(b"\n") + 1
        raise Refusal(head.name, "expected 'end' as the last line; the file is cut off", line)
    if not 1 <= number <= last:
        raise Refusal(head.name, f"expected staircases of {number}; found those of 1 to {last}", 1)
    found = {}
    for match in re.finditer(rb"^%d ([FR]) ([^\n]*)" % number, content, re.MULTILINE):
        line = Text(name, match[2])
        start, *rest = line.values(np.arange(len(line.starts))) if line.count else [-1]
        bounds, levels = np.array(rest[::2], np.int64), np.array(rest[1::2], np.int64)
        if not is_staircase(start, bounds, levels):
            place = content.count(b"\n", 0, match.start()) + 1
            told = "expected memory, then rising bounds with falling levels"
            raise Refusal(head.name, f"{told}; found {quoted(match[0])}", place)
        steps = list(zip(bounds.tolist(), levels.tolist()))
        found[match[1].decode()] = Stairs(int(start), steps)
    for word in "FR":
        if word not in found:
            raise Refusal(head.name, f"expected a line '{number} {word} ..'; found none")
    return Segments(found["F"], found["R"])


def is_staircase(start: int, bounds: np.ndarray, levels: np.ndarray) -> bool:
    return (
        len(bounds) == len(levels)
        and start >= 0
        and bool((np.diff(bounds, prepend=start - 1) > 0).all())
        and bool((np.diff(levels, prepend=start) < 0).all())
        and bool((levels >= 0).all())
    )
