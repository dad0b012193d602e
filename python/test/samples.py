"""A tree and a diamond that were worked by hand, and what the tests share."""

from __future__ import annotations

import unittest
from typing import Any, Callable, Dict, List, Optional, Sequence, Tuple, Type

import memplan

try:
    import numpy
except ImportError:
    numpy = None  # type: ignore[assignment]

# Two chains, of a leaf that needs 10 and one that leaves 1 to a node that leaves 5. One after the other they need 5 + 10, but where both
# leaves come first 10 and 1 + 10.
PARENT, OUT, EXTRA = [2, 5, 4, 5, 0], [1, 5, 1, 5, 0], [9, 0, 9, 0, 0]
IN_TURN, ACROSS = [1, 2, 3, 4, 5], [1, 3, 2, 4, 5]

# A task that splits 6 into 3 and 4, one for each, and one that takes what both leave.
TASKS, ITEMS = [0, 0, 2, 0], [(6, 0, 1), (3, 1, 2), (4, 1, 3), (2, 2, 4), (5, 3, 4), (1, 4, 0)]

# Three tasks that read one input of 10, and one that takes the 3, 4 and 5 that they leave: one after the other they need 22, and the other
# way 28.
FORK, FORKED = [6, 1, 0, 0], [(10, 0, [1, 2, 3]), (3, 1, [4]), (4, 2, [4]), (5, 3, [4]), (2, 4, [])]

# Column 0 is joined to all others: eliminated third, it leaves two fronts of one column, and one of two.
ARROW = ([0, 3, 3, 3, 3], [1, 2, 3])


NAMES = ["a", "b", "c", "d", "top"]  # of the tree

# A diamond by names: what each step reads, and what each leaves.
STEPS: Dict[str, List[str]] = {"load": [], "count": ["load"], "sort": ["load"], "merge": ["count", "sort"]}
SIZES = {"load": 10, "count": 1, "sort": 10, "merge": 2}


def put(values: Sequence[Any], at: int, value: Any) -> List[Any]:
    """The values with another one at a place."""
    return [*values[:at], value, *values[at + 1 :]]


class Case(unittest.TestCase):
    def says(self, kind: Type[BaseException], words: str, call: Callable[..., Any], *arguments: Any, **named: Any) -> None:
        """The call ends with an error of just this kind and in these words."""
        try:
            answer = call(*arguments, **named)
        except Exception as error:
            self.assertEqual(f"{type(error).__name__}: {error}", f"{kind.__name__}: {words}")
        else:
            self.fail(f"{kind.__name__}: {words} was to be said, and the answer is {answer!r}")

    def refused(self, call: Callable[..., Any], *arguments: Any, **named: Any) -> Optional[Tuple[int, int, int, int]]:
        """Status, kind, place and value of the refusal with which the call ends."""
        with self.assertRaises(memplan.Refused) as caught:
            call(*arguments, **named)
        refusal = caught.exception
        return refusal.status, refusal.kind, refusal.at, refusal.value
