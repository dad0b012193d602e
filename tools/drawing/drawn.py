"""What draws by the words of draw.py, and what it ends with. It wants matplotlib and the library."""
import argparse
import sys

import matplotlib

matplotlib.use("Agg")

from matplotlib import pyplot

from .graph import system_of_graph
from .look import STYLE, printable
from .pictures import draw_fronts, draw_memory, draw_run, draw_stairs
from .system import system_of_tree, system_of_workflow
from .text import Refusal

# The status where a file is refused.
REFUSED = 3

DRAWS = {"memory": draw_memory, "run": draw_run, "stairs": draw_stairs, "fronts": draw_fronts}


def draw(words: argparse.Namespace) -> None:
    by_words = DRAWS[words.kind]
    words.unit = printable(words.unit or ("units" if words.workflow or words.graph else "entries"))
    if words.tree:
        by_words(words, system_of_tree(words.tree))
    elif words.workflow:
        by_words(words, system_of_workflow(words.workflow))
    elif words.graph:
        by_words(words, system_of_graph(words.graph))
    else:
        by_words(words)


def drawn(words: argparse.Namespace) -> int:
    """Draws what the words say; the status that says how that went."""
    try:
        with pyplot.rc_context(STYLE):
            draw(words)
    except Refusal as refusal:
        print(f"draw.py: {refusal}", file=sys.stderr)
        return REFUSED
    except OSError as fault:
        told = (fault.strerror or "write fault").lower()
        print(f"draw.py: {words.picture} cannot be written: {told}", file=sys.stderr)
        return 1
    finally:
        pyplot.close("all")
    return 0
