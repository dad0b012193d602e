#!/usr/bin/python3
"""Draws what memplan prints: memory over time, simulated runs, staircases, trees of fronts.

It is a command over memplan.plot, of the package in python/, which draws; what stands here reads
the files and judges them. It wants Debian's package python3-matplotlib, so it begins with
/usr/bin/python3, which finds it, and the library, which `make -C c` makes. A picture is SVG or PNG,
by the name of its file.

  draw.py memory five.svg --tree five.tree "best postorder=five.post" "least peak=five.plan"
  draw.py run five.svg --tree five.tree --bound 22 five.run
  draw.py stairs five.svg --number 2 five.segments
  draw.py fronts five.svg five.tree

where memplan printed the files: five.tree by `tree` (or it is a tree file of your own), five.post
by `post`, five.plan by `plan`, five.run by `simulate`, five.segments by `segments`. `-` stands for
standard input. `draw.py memory --help` says more of memory, and so on.

The status is 0 where the picture is drawn; 2 where the words are wrong; 3 where a file is not what
it should be or cannot be read, and a line on standard error says which, where and what was
expected; 1 where a package is missing or the picture cannot be written.
"""
import argparse
import sys
from pathlib import Path
from typing import Optional

# The package of this repository, without a file written beside it.
sys.dont_write_bytecode = True
sys.path.insert(0, str(Path(__file__).resolve().parent.parent / "python"))


# Words


def picture_name(word: str) -> str:
    if not word.endswith((".svg", ".png")):
        raise argparse.ArgumentTypeError(f"{word} ends neither in .svg nor in .png")
    return word


def whole_number(word: str) -> int:
    if not (word.isascii() and word.isdigit()) or len(word) > 19:
        raise argparse.ArgumentTypeError(f"{word} is no whole number, or too great a one")
    return int(word)


def add_picture(kinds, name: str, told: str) -> argparse.ArgumentParser:
    """The words of a kind of picture, which begin with the file to make."""
    parser = kinds.add_parser(name, help=told, description=f"Draws {told}.")
    parser.add_argument("picture", type=picture_name, help="the file to make: .svg or .png")
    unit = "what memory is counted in: entries, or of a workflow or a graph units"
    parser.add_argument("--unit", metavar="WORD", help=unit)
    parser.add_argument("--title", metavar="WORDS", help="what stands above the picture")
    parser.set_defaults(kind=name, tree=None, workflow=None, graph=None)
    return parser


def add_input(parser: argparse.ArgumentParser) -> None:
    one = parser.add_mutually_exclusive_group(required=True)
    one.add_argument("--tree", metavar="FILE", help="a tree file, as `tree` prints it for a matrix")
    one.add_argument("--workflow", metavar="FILE", help="a workflow file")
    one.add_argument("--graph", metavar="FILE", help="a graph file, of version 1 or 2")


def add_memory(kinds) -> None:
    parser = add_picture(kinds, "memory", "memory over time of one or more orders")
    add_input(parser)
    by = "what runs from left to right: tasks, each as wide (the default), or their durations"
    parser.add_argument("--by", choices=("tasks", "time"), default="tasks", help=by)
    order = (
        "an order: what `plan` or `post` printed, or an order file; 1..n in place of FILE is the "
        "order of the numbers, a natural postorder of what `tree` printed"
    )
    parser.add_argument("orders", nargs="+", metavar="LABEL=FILE", help=order)


def add_run(kinds) -> None:
    told = "a simulated run, as a Gantt chart over used and booked memory"
    parser = add_picture(kinds, "run", told)
    add_input(parser)
    bound = "the bound of the run, which is drawn as a line"
    parser.add_argument("--bound", type=whole_number, help=bound)
    parser.add_argument("report", metavar="REPORT", help="what `simulate` printed")


def add_stairs(kinds) -> None:
    told = "the staircases of a subtree: the lowest memory that is reached within each bound"
    parser = add_picture(kinds, "stairs", told)
    number = "the node of a tree, or the position of a workflow"
    parser.add_argument("--number", type=whole_number, required=True, help=number)
    parser.add_argument("report", metavar="REPORT", help="what `segments` printed")


def add_fronts(kinds) -> None:
    told = "the tree of fronts: each with its memory, and on its edge that of the block it leaves"
    parser = add_picture(kinds, "fronts", told)
    most = (
        "how many nodes are drawn, from the roots down the greatest first (40); of the others the "
        "number is told"
    )
    parser.add_argument("--most", type=whole_number, default=40, help=most)
    tree = "a tree file, as `tree` prints it for a matrix"
    parser.add_argument("file", metavar="TREE", help=tree)


def parser_of_words() -> argparse.ArgumentParser:
    raw = argparse.RawDescriptionHelpFormatter
    parser = argparse.ArgumentParser(description=__doc__, formatter_class=raw)
    kinds = parser.add_subparsers(required=True, metavar="KIND")
    for add in (add_memory, add_run, add_stairs, add_fronts):
        add(kinds)
    return parser


def main(words: Optional[list[str]] = None) -> int:
    """Draws what the words say, those of the command line if none are given."""
    parsed = parser_of_words().parse_args(words)
    # Once the words are read: so help needs neither package nor library.
    try:
        import matplotlib
    except ImportError:
        sys.exit(
            "draw.py: matplotlib is missing: apt-get install python3-matplotlib,"
            " and use /usr/bin/python3"
        )
    try:
        from drawing.drawn import drawn
    except ImportError as lack:
        sys.exit(f"draw.py: {str(lack).splitlines()[0]} (`make -C c` makes the library)")
    return drawn(parsed)


if __name__ == "__main__":
    sys.exit(main())
