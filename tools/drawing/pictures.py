"""What the words of draw.py draw, by memplan.plot: files are judged here, and pictures written."""
import argparse

from memplan import Tree, plot
from memplan._plot_look import titled

from .look import printable, save, short_name
from .order import Order, expect_traversal, order_by_number, order_of
from .run import simulation_of
from .staircases import stairs_of
from .system import Read, tree_of
from .text import told_name


def order_along(words: str, read: Read) -> tuple[str, Order]:
    """The label and the order of the words LABEL=FILE."""
    label, _, name = words.partition("=")
    name = name or label
    return label, order_by_number(read) if name == "1..n" else order_of(name)


def draw_memory(words: argparse.Namespace, read: Read) -> None:
    courses = []
    for told in words.orders:
        label, order = order_along(told, read)
        expect_traversal(read, order)
        courses.append((label, order.numbers))
    axes = plot.orders(read.system, courses, unit=words.unit, by=words.by)
    name, tasks = short_name(read.name), f"{read.count:,} tasks"
    title(axes[0].figure, words.title or f"memory over time: {name}, {tasks}")
    save(axes[0].figure, words.picture)


def draw_run(words: argparse.Namespace, read: Read) -> None:
    simulation = simulation_of(words.report, read)
    above, _ = plot.run(read.system, simulation, unit=words.unit, bound=words.bound)
    title(above.figure, words.title or f"run of {short_name(read.name)}")
    save(above.figure, words.picture)


def draw_stairs(words: argparse.Namespace) -> None:
    part = stairs_of(words.report, words.number)
    label = f"number {words.number} of {short_name(told_name(words.report))}"
    axes = plot.segments(part, unit=words.unit, label=label)
    if words.title:
        titled(axes, words.title)
    save(axes.figure, words.picture)


def draw_fronts(words: argparse.Namespace) -> None:
    read = tree_of(words.file)
    tree = Tree(read.parents, read.outs, read.extras, read.shares, read.times)
    name = short_name(read.name)
    axes = plot.tree(tree, most=words.most, unit=words.unit, name=name, fit=False)
    if words.title:
        titled(axes, words.title)
    save(axes.figure, words.picture)


def title(figure, words: str) -> None:
    figure.suptitle(printable(words), x=0.01, ha="left", fontsize=11)
