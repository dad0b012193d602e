#!/usr/bin/env python3
"""Makes a matrix file, to measure with: a grid, a cube, a random pattern, a band or chains; or a permutation file for a grid.

usage: make_matrices.py grid ROWS COLUMNS FILE
       make_matrices.py cube SIDE HEIGHT FILE
       make_matrices.py dissection ROWS COLUMNS FILE
       make_matrices.py random VERTICES ENTRIES FILE
       make_matrices.py band VERTICES WIDTH FILE
       make_matrices.py pattern VERTICES ENTRIES FILE
       make_matrices.py valued_band VERTICES WIDTH FILE
       make_matrices.py chains CHAINS LENGTH FILE

The grid has the number r * COLUMNS + c + 1 for the vertex in row r and column c, both from 0, and joins each to its right and to its
lower neighbour. A cube has HEIGHT grids of SIDE rows and columns one over the other, and joins each vertex to the one over it. The entries of
a random pattern are drawn from all pairs of indices, with a value each; those of `pattern` have none. The numbers come from a small generator
with a fixed seed: the same call makes the same file. A band joins each vertex to those that are at most WIDTH numbers away; in a valued one
each entry has a value.

Chains are paths of so many vertices, side by side, before a separator. The first vertex of each path is joined to 20,000 vertices of the separator,
each later one to one more of it. So in the order of their numbers each vertex of a path is a front of its own, of 20,000 rows and more, and the
chains can be eliminated at the same time.

The dissection is an order of elimination of the grid: a line of vertices across its longer side comes last, after its two halves, which
are ordered likewise (nested dissection, George 1973).
"""
import sys

from numbers_from_a_seed import words


def grid(out, rows, columns):
    entries = rows * (columns - 1) + (rows - 1) * columns
    out.write("%%MatrixMarket matrix coordinate pattern symmetric\n")
    out.write(f"{rows * columns} {rows * columns} {entries}\n")
    for row in range(rows):
        for column in range(columns):
            vertex = row * columns + column + 1
            if column + 1 < columns:
                out.write(f"{vertex + 1} {vertex}\n")
            if row + 1 < rows:
                out.write(f"{vertex + columns} {vertex}\n")


def cube(out, side, height):
    square, entries = side * side, 2 * side * (side - 1) * height + side * side * (height - 1)
    out.write("%%MatrixMarket matrix coordinate pattern symmetric\n")
    out.write(f"{square * height} {square * height} {entries}\n")
    for vertex in range(1, square * height + 1):
        place = (vertex - 1) % square
        if place % side + 1 < side:
            out.write(f"{vertex + 1} {vertex}\n")
        if place + side < square:
            out.write(f"{vertex + side} {vertex}\n")
        if vertex + square <= square * height:
            out.write(f"{vertex + square} {vertex}\n")


def random_pattern(out, vertices, entries):
    draw = words(1)
    out.write("%%MatrixMarket matrix coordinate real general\n")
    out.write(f"{vertices} {vertices} {entries}\n")
    for _ in range(entries):
        out.write(f"{1 + next(draw) % vertices} {1 + next(draw) % vertices} {next(draw) % 1000}.25\n")


def unvalued(out, vertices, entries):
    draw = words(1)
    out.write("%%MatrixMarket matrix coordinate pattern general\n")
    out.write(f"{vertices} {vertices} {entries}\n")
    for _ in range(entries):
        out.write(f"{1 + next(draw) % vertices} {1 + next(draw) % vertices}\n")


def band_entries(vertices, width):
    for v in range(1, vertices + 1):
        for w in range(v + 1, min(v + width, vertices) + 1):
            yield w, v


def head_of_band(out, field, vertices, width):
    entries = sum(min(width, vertices - v) for v in range(1, vertices + 1))
    out.write(f"%%MatrixMarket matrix coordinate {field} symmetric\n")
    out.write(f"{vertices} {vertices} {entries}\n")


def band(out, vertices, width):
    head_of_band(out, "pattern", vertices, width)
    for w, v in band_entries(vertices, width):
        out.write(f"{w} {v}\n")


def valued_band(out, vertices, width):
    draw = words(1)
    head_of_band(out, "integer", vertices, width)
    for w, v in band_entries(vertices, width):
        out.write(f"{w} {v} {1 + next(draw) % 100_000}\n")


def chains(out, count, length):
    width = 20_000
    separator = count * length
    vertices = separator + width + length - 1
    out.write("%%MatrixMarket matrix coordinate pattern symmetric\n")
    out.write(f"{vertices} {vertices} {count * (width + 2 * (length - 1))}\n")
    for first in range(1, separator, length):
        for place in range(1, width + 1):
            out.write(f"{separator + place} {first}\n")
        for step in range(1, length):
            out.write(f"{first + step} {first + step - 1}\n")
            out.write(f"{separator + width + step} {first + step}\n")


def dissection(out, rows, columns):
    order = []
    # what is left to be ordered, the last first: a rectangle of the grid, or a line that comes as it is
    left = [(0, rows, 0, columns, False)]
    while left:
        top, bottom, first, last, is_line = left.pop()
        if bottom <= top or last <= first:
            continue
        if is_line or (bottom - top) * (last - first) <= 4:
            order.extend(row * columns + column + 1 for row in range(top, bottom) for column in range(first, last))
        elif bottom - top > last - first:
            middle = (top + bottom) // 2
            left += [(middle, middle + 1, first, last, True), (middle + 1, bottom, first, last, False), (top, middle, first, last, False)]
        else:
            middle = (first + last) // 2
            left += [(top, bottom, middle, middle + 1, True), (top, bottom, middle + 1, last, False), (top, bottom, first, middle, False)]
    out.write("\n".join(map(str, order)) + "\n")


def main():
    kind, first, second, name = sys.argv[1], int(sys.argv[2]), int(sys.argv[3]), sys.argv[4]
    with open(name, "w") as out:
        makers = {
            "grid": grid,
            "cube": cube,
            "dissection": dissection,
            "random": random_pattern,
            "pattern": unvalued,
            "band": band,
            "valued_band": valued_band,
            "chains": chains,
        }
        makers[kind](out, first, second)


main()
