#!/usr/bin/env python3
"""Makes task graphs of 24 shapes that workflows have, as graph files of version 2.

usage: families.py FAMILY TASKS [SEED] > FILE
       families.py --list

A graph has about TASKS tasks, which is 10 at least. SEED is 1 if nothing else is said: the same call makes the same graph. --list
prints the names of all families. The shapes are those that are published; the sizes are typical ones in MB, most of them within 30
percent of the numbers that stand here, and not those of a run. The graphs are the ones of an earlier program in C++, so the order in
which numbers are drawn counts: the extra of a task comes before the size of what it makes.
"""
from __future__ import annotations

import math
import sys
from collections.abc import Callable, Iterable, Sequence
from functools import partial
from typing import NamedTuple

from twister import MersenneTwister

FEWEST_TASKS = 10


class Draws:
    """Numbers that look random and are the same on each run."""

    def __init__(self, seed: int) -> None:
        self.twister = MersenneTwister(seed)

    def below(self, count: int) -> int:
        return self.twister.word() % count

    def between(self, least: int, most: int) -> int:
        return least + self.below(most - least + 1)

    def about(self, size: int) -> int:
        """A size within 30 percent of another, and 1 at least."""
        return max(1, size * self.between(70, 130) // 100)

    def one_of(self, items: Sequence[int]) -> int:
        return items[self.below(len(items))]

    def failures(self, chance: float) -> int:
        """How often something fails before it succeeds by this chance, as std::geometric_distribution of GNU's C++ library has it."""
        share = min(self.twister.word() / 2.0**64, 1 - 2.0**-53)
        return math.floor(math.log(1 - share) / math.log(1 - chance))


class Item(NamedTuple):
    """Its size, the task that makes it, or 0, and those that read it, in any order; one may stand there twice."""

    size: int
    maker: int
    readers: list[int]


class Builder:
    """A task graph that grows. Tasks and items are numbered from 1, and 0 is no task."""

    def __init__(self) -> None:
        self.extras: list[int] = []
        self.items: list[Item] = []

    @property
    def count(self) -> int:
        """How many tasks there are."""
        return len(self.extras)

    def task(self, extra: int, reads: Iterable[int] = ()) -> int:
        """A further task, which reads these items."""
        self.extras.append(extra)
        for item in reads:
            self.read(item, self.count)
        return self.count

    def item(self, size: int, maker: int, readers: Iterable[int] = ()) -> int:
        """A further item that a task makes."""
        self.items.append(Item(size, maker, list(readers)))
        return len(self.items)

    def read(self, item: int, task: int) -> None:
        """Has a task read an item."""
        self.items[item - 1].readers.append(task)

    def made(self, extra: int, size: int, reads: Iterable[int] = ()) -> int:
        """The item that a further task makes, which reads these."""
        return self.item(size, self.task(extra, reads))

    def is_traversal(self, order: Iterable[int]) -> bool:
        """Whether an order of all tasks has the maker of each item before its readers."""
        place = {0: 0, **{task: step for step, task in enumerate(order, 1)}}
        return all(place[item.maker] < place[reader] for item in self.items for reader in item.readers)

    def breadth_first(self) -> list[int]:
        """The order in which each task joins a queue once all have run that make what it reads, by number where several may at once."""
        followers: list[set[int]] = [set() for _ in range(self.count + 1)]
        for item in self.items:
            followers[item.maker].update(item.readers)
        waits_for = [0] * (self.count + 1)
        for tasks in followers[1:]:
            for task in tasks:
                waits_for[task] += 1
        order = [task for task in range(1, self.count + 1) if waits_for[task] == 0]
        for task in order:
            for follower in sorted(followers[task]):
                waits_for[follower] -= 1
                if waits_for[follower] == 0:
                    order.append(follower)
        return order

    def text(self) -> str:
        """The file."""
        lines = ["graph 2", f"tasks {self.count}", *(f"{extra} 0 1" for extra in self.extras), f"items {len(self.items)}"]
        for size, maker, readers in self.items:
            lines.append(" ".join(map(str, [size, maker, *sorted(set(readers))])))
        return "\n".join([*lines, "end", ""])


# ---- workflows of the sciences
# The first five are those of Bharathi et al. 2008 ('Characterization of scientific workflows') and Juve et al. 2013.

# the rows and columns from an image to those that it overlaps
OVERLAPS = ((1, 0), (0, 1), (1, 1), (1, -1))
TILE_OF_IMAGES = 16


def montage(graph: Builder, draw: Draws, count: int) -> None:
    """A mosaic of the sky: images in a square are projected, the differences of neighbours fitted, all images corrected by what fits them
    all, and added tile by tile."""
    images = max(2, int(count / 6.2))
    width = math.isqrt(images)
    projected = [graph.made(draw.about(20), draw.about(8)) for _ in range(images)]
    fits = []
    for image in range(images):
        for rows, columns in OVERLAPS:
            row, column = image // width + rows, image % width + columns
            other = row * width + column
            if 0 <= column < width and other < images:
                fits.append(graph.made(draw.about(6), 1, [projected[image], projected[other]]))
    all_fits = graph.made(1, 2, fits)
    corrections = graph.made(5, 2, [all_fits])
    corrected = [graph.made(draw.about(4), draw.about(8), [image, corrections]) for image in projected]
    table = graph.made(1, 1, corrected)
    shrunk = []
    tiles = max(1, images // TILE_OF_IMAGES)
    for tile in range(tiles):
        # what is left over goes into the last tile
        end = (tile + 1) * TILE_OF_IMAGES if tile + 1 < tiles else images
        added = graph.made(draw.about(10), draw.about(100), [table, *corrected[tile * TILE_OF_IMAGES : end]])
        shrunk.append(graph.made(draw.about(5), draw.about(4), [added]))
    graph.made(10, 5, shrunk)


def epigenomics(graph: Builder, draw: Draws, count: int) -> None:
    """Reads of a sequencer: each lane is split into chunks, which are filtered, converted, packed and mapped, and merged; then all lanes
    are merged, indexed and piled up."""
    lanes = max(1, int(math.sqrt(count / 40)))
    usual_chunks = max(2, count // (4 * lanes))
    merged = []
    for _ in range(lanes):
        split = graph.task(draw.about(200))
        chunks = max(2, usual_chunks * draw.between(60, 140) // 100)
        merge = graph.task(draw.about(50))
        for _ in range(chunks):
            chain = [split, *(graph.task(draw.about(extra)) for extra in (10, 5, 5, 150)), merge]
            for size, maker, reader in zip((25, 22, 18, 6, 4), chain, chain[1:]):
                graph.item(draw.about(size), maker, [reader])
        merged.append(graph.item(draw.about(3) * chunks, merge))
    whole = graph.made(20, draw.about(100), merged)
    index = graph.made(30, draw.about(80), [whole])
    graph.made(40, 20, [index])


def cybershake(graph: Builder, draw: Draws, count: int) -> None:
    """Hazard of earthquakes: of each site two strain tensors, which the synthesis of every seismogram reads, and of each seismogram its
    peak; all are packed in the end."""
    seismograms, peaks = [], []
    for _ in range(max(1, count // 100)):
        extraction = graph.task(draw.about(100))
        tensors = [graph.item(draw.about(400), extraction) for _ in range(2)]
        for _ in range(draw.between(20, 80)):
            seismograms.append(graph.made(draw.about(60), draw.about(3), tensors))
            peaks.append(graph.made(2, 1, seismograms[-1:]))
    graph.made(10, 50, seismograms)
    graph.made(10, 5, peaks)


def matches(graph: Builder, draw: Draws, extra: int, reads: Sequence[int]) -> int:
    """What in the data of a detector is like some template of a bank, which a task makes first."""
    bank = graph.made(draw.about(extra), draw.about(2), reads)
    return graph.made(draw.about(90), draw.about(20), [bank])


def ligo(graph: Builder, draw: Draws, count: int) -> None:
    """Search for inspirals in gravitational waves: in each group data are matched with banks of templates, coincidences found, and data
    matched with banks made of these. A group reads some of the second matches of the one before."""
    passed_on: list[int] = []
    for _ in range(max(1, count // 50)):
        width = draw.between(6, 14)
        first = [matches(graph, draw, 30, []) for _ in range(width)]
        earlier = [draw.one_of(passed_on) for _ in range(2)] if passed_on else []
        coincidences = graph.made(20, draw.about(25), first + earlier)
        second, passed_on = [], []
        for _ in range(width):
            second.append(matches(graph, draw, 10, [coincidences]))
            if draw.below(5) == 0:
                passed_on.append(second[-1])
        graph.made(20, draw.about(10), second)


def sipht(graph: Builder, draw: Draws, count: int) -> None:
    """Search for small RNAs: of each replicon motifs are matched and put together; four programs predict candidates, which are joined,
    parsed and looked up five times; and all is annotated."""
    annotations = []
    for _ in range(max(1, count // 35)):
        motifs = draw.between(14, 24)
        together = graph.task(2)
        for _ in range(motifs):
            graph.read(graph.made(draw.about(10), draw.about(3)), together)
        all_motifs = graph.item(draw.about(30), together)
        predictors = [graph.task(draw.about(extra)) for extra in (40, 60, 50, 100)]
        predictions = [graph.item(draw.about(size), task) for size, task in zip((15, 40, 10, 20), predictors)]
        candidates = graph.made(draw.about(60), draw.about(35), predictions)
        parsed = graph.made(20, draw.about(12), [candidates])
        annotation = graph.task(30)
        looked_up = [[candidates], [candidates], [parsed], [parsed, predictions[3]], [parsed]]
        for reads in looked_up:
            graph.read(graph.made(draw.about(70), draw.about(14), reads), annotation)
        graph.read(all_motifs, annotation)
        graph.read(candidates, annotation)
        annotations.append(graph.item(draw.about(8), annotation))
    graph.made(5, 1, annotations)


CHROMOSOMES = 8


def snakemake(graph: Builder, draw: Draws, count: int) -> None:
    """A pipeline of RNA in rules of Snakemake (Köster and Rahmann 2012): each sample is fetched, trimmed, aligned to an index that all
    share, sorted, freed of duplicates, counted, and called by chromosome; reports, counts and calls of all samples are put together."""
    samples = max(2, count // (8 + CHROMOSOMES))
    index = graph.made(200, 300)
    reports, counts = [], []
    calls: list[list[int]] = [[] for _ in range(CHROMOSOMES)]
    for _ in range(samples):
        fetched = graph.made(5, draw.about(120))
        reports.append(graph.made(20, 1, [fetched]))
        trimmed = graph.made(20, draw.about(100), [fetched])
        reports.append(graph.made(20, 1, [trimmed]))
        aligned = graph.made(draw.about(400), draw.about(90), [trimmed, index])
        in_order = graph.made(draw.about(150), draw.about(80), [aligned])
        freeing = graph.task(draw.about(100), [in_order])
        freed = graph.item(draw.about(75), freeing)
        reports.append(graph.item(1, freeing))
        counts.append(graph.made(30, 2, [freed]))
        for calls_of_one in calls:
            calls_of_one.append(graph.made(draw.about(60), draw.about(5), [freed, index]))
    graph.made(10, 3, reports)
    graph.made(30, 5, counts)
    joined = [graph.made(100, draw.about(2) * samples, [*calls_of_one, index]) for calls_of_one in calls]
    graph.made(10, 30, joined)


# ---- factorizations of a matrix in square tiles
# Buttari, Langou, Kurzak and Dongarra 2009 ('A class of parallel tiled linear algebra algorithms for multicore architectures').

TILE = 64


class TiledMatrix:
    """Of each tile the item that was made last, by its row and its column. All are loaded at first."""

    def __init__(self, graph: Builder, places: Iterable[tuple[int, int]]) -> None:
        self.graph = graph
        self.tiles = {place: graph.made(0, TILE) for place in places}

    def task(self, extra: int, *places: tuple[int, int]) -> int:
        """A further task, which reads these tiles."""
        return self.graph.task(extra, [self.tiles[place] for place in places])

    def renew(self, task: int, *places: tuple[int, int]) -> None:
        """Has a task make these tiles anew."""
        for place in places:
            self.tiles[place] = self.graph.item(TILE, task)

    def change(self, place: tuple[int, int], extra: int, *others: tuple[int, int]) -> None:
        """A task that reads a tile and others, and makes the one anew."""
        self.renew(self.task(extra, place, *others), place)


def length_for(count: int, tasks_of: Callable[[int], int]) -> int:
    """The least length, 2 at least, that makes so many tasks."""
    length = 2
    while tasks_of(length) < count:
        length += 1
    return length


def sum_of_squares(length: int) -> int:
    return length * (length + 1) * (2 * length + 1) // 6


def cholesky(graph: Builder, _: Draws, count: int, are_stored: bool = False) -> None:
    """Half of a symmetric matrix: the tile on the diagonal is factored, those below it solved, all behind them updated. What is finished
    is written away, or stays."""
    turns = 2 if are_stored else 1
    length = length_for(count, lambda it: it * (it + 1) * (it + 2) // 6 + it * (it + 1) // 2 * turns)
    matrix = TiledMatrix(graph, [(row, column) for row in range(length) for column in range(row + 1)])
    for step in range(length):
        behind = range(step + 1, length)
        matrix.change((step, step), 8)
        for row in behind:
            matrix.change((row, step), 4, (step, step))
        for row in behind:
            for column in range(step + 1, row + 1):
                matrix.change((row, column), 4, (row, step), (column, step))
        for row in range(step, length) if are_stored else []:
            matrix.task(1, (row, step))


def lu(graph: Builder, _: Draws, count: int, are_stored: bool = False) -> None:
    """A whole matrix: the tile on the diagonal is factored, those below and beside it solved, all behind them updated. What is finished is
    written away, or stays."""
    turns = 2 if are_stored else 1
    length = length_for(count, lambda it: sum_of_squares(it) + it * it * turns)
    matrix = TiledMatrix(graph, [(row, column) for row in range(length) for column in range(length)])
    for step in range(length):
        behind = range(step + 1, length)
        matrix.change((step, step), 8)
        for other in behind:
            matrix.change((other, step), 4, (step, step))
            matrix.change((step, other), 4, (step, step))
        for row in behind:
            for column in behind:
                matrix.change((row, column), 4, (row, step), (step, column))
        if are_stored:
            matrix.task(1, (step, step))
            for other in behind:
                matrix.task(1, (other, step))
                matrix.task(1, (step, other))


def qr(graph: Builder, _: Draws, count: int) -> None:
    """The tile on the diagonal becomes a triangle and reflectors, which change its row. Then it is combined with each tile below, and the
    reflectors of that change both rows. Finished rows are written away."""
    length = length_for(count, lambda it: sum_of_squares(it) + 2 * it * it)
    matrix = TiledMatrix(graph, [(row, column) for row in range(length) for column in range(length)])
    for step in range(length):
        behind = range(step + 1, length)
        factoring = matrix.task(16, (step, step))
        reflectors = graph.item(TILE // 2, factoring)
        matrix.tiles[step, step] = graph.item(TILE // 2, factoring)
        for column in behind:
            changing = matrix.task(8, (step, column))
            graph.read(reflectors, changing)
            matrix.renew(changing, (step, column))
        for row in behind:
            combining = matrix.task(16, (step, step), (row, step))
            matrix.tiles[step, step] = graph.item(TILE // 2, combining)
            reflectors = graph.item(TILE, combining)
            for column in behind:
                changing = matrix.task(8, (step, column), (row, column))
                graph.read(reflectors, changing)
                matrix.renew(changing, (step, column), (row, column))
        for column in range(step, length):
            matrix.task(1, (step, column))


# ---- what the collections of Dask ask for, and MapReduce
# Rocklin 2015 ('Dask: parallel computation with blocked algorithms and task scheduling').


def combined(graph: Builder, draw: Draws, items: Sequence[int], most: int, extra: int, size: int) -> int:
    """What is left of items once tasks have combined at most so many of them into one, again and again."""
    while len(items) > 1:
        groups = [items[start : start + most] for start in range(0, len(items), most)]
        # one that is left over alone waits for the next round
        items = [graph.made(extra, draw.about(size), group) if len(group) > 1 else group[0] for group in groups]
    return items[0]


def dask_standardisation(graph: Builder, draw: Draws, count: int) -> None:
    """An array less its mean, and then its deviation: each block is read for the mean, and once more after it."""
    blocks, sums = [], []
    for _ in range(max(4, int(count / 4.5))):
        blocks.append(graph.made(draw.about(10), draw.about(100)))
        sums.append(graph.made(5, 1, blocks[-1:]))
    mean = combined(graph, draw, sums, 4, 1, 1)
    squares = []
    for block in blocks:
        centred = graph.made(draw.about(100), draw.about(100), [block, mean])
        squares.append(graph.made(2, 1, [centred]))
    combined(graph, draw, squares, 4, 1, 1)


def dask_rechunk(graph: Builder, draw: Draws, count: int) -> None:
    """Blocks of rows are split, the pieces put together as blocks of columns, and each of these is reduced."""
    blocks = max(2, math.isqrt(count))
    pieces: list[list[int]] = [[] for _ in range(blocks)]
    for _ in range(blocks):
        rows = graph.made(draw.about(20), draw.about(8) * blocks)
        for pieces_of_column in pieces:
            pieces_of_column.append(graph.made(1, draw.about(8), [rows]))
    reduced = []
    for pieces_of_column in pieces:
        columns = graph.made(2, draw.about(8) * blocks, pieces_of_column)
        reduced.append(graph.made(5, draw.about(8), [columns]))
    combined(graph, draw, reduced, 4, 2, 8)


def dask_product(graph: Builder, draw: Draws, count: int) -> None:
    """The product of two matrices in blocks: all products of two blocks, added up and written away block by block."""
    length = 2
    # the greatest one whose cube is at most count / 1.4
    while 7 * (length + 1) ** 3 <= 5 * count:
        length += 1
    left, right = ([[graph.made(4, draw.about(64)) for _ in range(length)] for _ in range(length)] for _ in range(2))
    for row in range(length):
        for column in range(length):
            products = [graph.made(4, 64, [left[row][inner], right[inner][column]]) for inner in range(length)]
            graph.task(1, [combined(graph, draw, products, 4, 1, 64)])


def dask_join(graph: Builder, draw: Draws, count: int) -> None:
    """Two tables are split by a hash of their keys, the pieces of each hash joined, and what comes of it added up."""
    buckets = max(2, int(math.sqrt(count / 4)))
    pieces: list[list[int]] = [[] for _ in range(buckets)]
    for _ in range(2 * buckets):
        loaded = graph.made(draw.about(20), draw.about(6) * buckets)
        hashed = graph.made(5, draw.about(6) * buckets, [loaded])
        for pieces_of_bucket in pieces:
            pieces_of_bucket.append(graph.made(0, draw.between(3, 9), [hashed]))
    sums = []
    for pieces_of_bucket in pieces:
        joined = graph.made(2, draw.about(12) * buckets // 2, pieces_of_bucket)
        sums.append(graph.made(5, 3, [joined]))
    combined(graph, draw, sums, 8, 1, 3)


def map_reduce(graph: Builder, draw: Draws, count: int) -> None:
    """MapReduce (Dean and Ghemawat 2004): each mapper makes a part for each reducer, and what a reducer makes is written away."""
    reducers = min(max(2, int(math.sqrt(count / 2))), max(8, min(100, 1_000_000 // count)))
    mappers = max(2, count - 2 * reducers)
    parts: list[list[int]] = [[] for _ in range(reducers)]
    for _ in range(mappers):
        mapper = graph.task(draw.about(64))
        for parts_of_reducer in parts:
            parts_of_reducer.append(graph.item(draw.between(1, 4), mapper))
    for parts_of_reducer in parts:
        reduced = graph.made(draw.about(30), draw.about(mappers), parts_of_reducer)
        graph.task(3, [reduced])


# ---- grids, and steps in time


def fourier_transform(graph: Builder, _: Draws, count: int) -> None:
    """The butterfly of the fast Fourier transform (Cooley and Tukey 1965), at each level with partners twice as far apart."""
    levels = 2
    while (levels + 1) * 2**levels < count:
        levels += 1
    values = [graph.made(1, 16) for _ in range(2**levels)]
    for level in range(levels):
        values = [graph.made(1, 16, [values[place], values[place ^ 2**level]]) for place in range(2**levels)]
    for value in values:
        graph.task(0, [value])


def stencil(graph: Builder, draw: Draws, count: int) -> None:
    """A wavefront over a square grid: each cell reads the ones above it and at its left, as in the alignment of two sequences."""
    width = max(2, math.isqrt(count))
    above: list[int] = []
    for _ in range(width):
        row: list[int] = []
        for column in range(width):
            row.append(graph.made(draw.about(4), draw.about(10), above[column : column + 1] + row[-1:]))
        above = row


def heat(graph: Builder, draw: Draws, count: int) -> None:
    """Heat along a rod: at each step in time each block reads itself and its neighbours."""
    blocks = max(3, math.isqrt(count))
    values = [graph.made(2, draw.about(20)) for _ in range(blocks)]
    for _ in range(1, max(2, count // blocks)):
        values = [graph.made(draw.about(3), draw.about(20), values[max(0, block - 1) : block + 2]) for block in range(blocks)]
    graph.made(2, 1, values)


def training(graph: Builder, draw: Draws, count: int) -> None:
    """A step of training of a network, in which all activations are kept for the way back, and every fourth layer also reads what is four
    layers before. On the way back each layer makes the gradient of what it read, and of its weights, which are changed at once."""
    layers = max(3, count // 5)
    kept = [graph.made(5, draw.about(50))]
    for layer in range(layers):
        skipped = [kept[layer - 3]] if layer % 4 == 3 and layer >= 4 else []
        kept.append(graph.made(draw.about(20), draw.about(50), [kept[layer], *skipped]))
    gradient = graph.made(2, draw.about(50), [kept[layers]])
    for layer in reversed(range(layers)):
        next_gradient = graph.made(draw.about(20), draw.about(50), [gradient, kept[layer + 1]])
        weights = graph.made(draw.about(20), draw.about(10), [gradient, kept[layer]])
        graph.task(1, [weights])
        gradient = next_gradient
    graph.task(1, [gradient])


# ---- graphs at random


def layered(graph: Builder, draw: Draws, count: int) -> None:
    """Layers of random widths: each task reads one to three items of the layer before, and makes one or two."""
    usual_width = max(2, math.isqrt(count) // 2)
    earlier: list[int] = []
    while graph.count < count:
        width = draw.between(max(1, usual_width // 2), usual_width * 3 // 2)
        made = []
        for _ in range(min(width, count - graph.count)):
            task = graph.task(draw.between(0, 30))
            for item in [draw.one_of(earlier) for _ in range(draw.between(1, 3))] if earlier else []:
                graph.read(item, task)
            made += [graph.item(draw.between(1, 50), task) for _ in range(draw.between(1, 2))]
        earlier = made


def erdos_renyi(graph: Builder, draw: Draws, count: int) -> None:
    """The graph of Erdős and Rényi 1959: each task reads from each earlier one by the same chance, of which there are three in as many
    tasks. About half of the tasks make one item for all their readers, the others one for each."""
    chance = 3 / count
    for _ in range(count):
        graph.task(draw.between(0, 40))
    for maker in range(1, count + 1):
        is_shared = draw.below(2) == 1
        item = 0
        reader = maker + 1 + draw.failures(chance)
        while reader <= count:
            if not is_shared or not item:
                item = graph.item(draw.between(1, 50), maker)
            graph.read(item, reader)
            reader += 1 + draw.failures(chance)


def forked(graph: Builder, draw: Draws, count: int) -> tuple[int, int]:
    """So many tasks, the first and the last of which are told: a chain of at most three; or a fork, some of this kind side by side, and a
    join. The fork makes one item for all its branches, or one for each. A branch has at most 19 of 20 tasks: they do not nest deep."""
    if count < 4:
        first = last = graph.task(draw.between(0, 30))
        for _ in range(1, count):
            following = graph.task(draw.between(0, 30))
            graph.item(draw.between(1, 50), last, [following])
            last = following
        return first, last
    branches = draw.between(2, min(6, count - 2))
    fork = graph.task(draw.between(0, 20))
    ends = []
    left = count - 2
    for behind in reversed(range(branches)):
        share = max(1, left * draw.between(10, 90) // 100 // (behind + 1)) if behind else left
        share = min(share, left - behind)
        left -= share
        ends.append(forked(graph, draw, share))
    join = graph.task(draw.between(0, 20))
    shared = graph.item(draw.between(1, 60), fork) if draw.below(2) else 0
    for first, last in ends:
        if shared:
            graph.read(shared, first)
        else:
            graph.item(draw.between(1, 40), fork, [first])
        graph.item(draw.between(1, 40), last, [join])
    return fork, join


def fork_join(graph: Builder, draw: Draws, count: int) -> None:
    """Nested forks and joins, with an item across for each twentieth task, from it to a task that is not far behind it."""
    forked(graph, draw, count)
    order = graph.breadth_first()
    for _ in range(count // 20):
        maker = draw.below(count - 1)
        reader = min(count - 1, maker + 1 + draw.below(max(2, count // 10)))
        graph.item(draw.between(1, 20), order[maker], [order[reader]])


def random_tree(graph: Builder, draw: Draws, count: int) -> None:
    """A tree in which the parent of each node is one of the eight behind it, as in that of `demo`."""
    for _ in range(count):
        graph.task(draw.between(0, 1000))
    for task in range(1, count):
        # the parent is drawn before the size
        parent = task + 1 + draw.below(min(count - task, 8))
        graph.item(draw.between(1, 1000), task, [parent])
    graph.item(1, count)


# Builds a graph of about so many tasks.
FAMILIES: dict[str, Callable[[Builder, Draws, int], None]] = {
    "montage": montage,
    "epigenomics": epigenomics,
    "cybershake": cybershake,
    "ligo": ligo,
    "sipht": sipht,
    "cholesky": cholesky,
    "cholesky-st": partial(cholesky, are_stored=True),
    "lu": lu,
    "lu-st": partial(lu, are_stored=True),
    "qr": qr,
    "dask-std": dask_standardisation,
    "dask-rechunk": dask_rechunk,
    "dask-matmul": dask_product,
    "dask-join": dask_join,
    "snakemake": snakemake,
    "mapreduce": map_reduce,
    "fft": fourier_transform,
    "stencil": stencil,
    "heat": heat,
    "training": training,
    "layered": layered,
    "erdos": erdos_renyi,
    "forkjoin": fork_join,
    "randtree": random_tree,
}


def graph_of(family: str, count: int, seed: int = 1) -> Builder:
    """The graph of a family, with about so many tasks."""
    graph = Builder()
    FAMILIES[family](graph, Draws(seed * 7919 + count), count)
    return graph


def main() -> None:
    words = sys.argv[1:]
    if words == ["--list"]:
        print("\n".join(FAMILIES))
        return
    are_known = len(words) in (2, 3) and words[0] in FAMILIES and all(word.isdecimal() for word in words[1:])
    if not are_known or int(words[1]) < FEWEST_TASKS:
        sys.exit(__doc__)
    sys.stdout.write(graph_of(words[0], *map(int, words[1:])).text())


if __name__ == "__main__":
    main()
