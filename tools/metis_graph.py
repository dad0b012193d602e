#!/usr/bin/env python3
"""Writes the pattern of a matrix, made symmetric, as a graph file of METIS.

usage: metis_graph.py MATRIX > GRAPH

MATRIX is a file of Matrix Market in coordinate format. The graph has a vertex for each row, and an edge for each two rows that an entry joins. Its
first line has the numbers of both, and the line of row k behind it has the rows that are joined to k. `ndmetis GRAPH` writes GRAPH.iperm, the
inverse of an order of elimination, which the program takes by `--iperm`.
"""
import signal
import sys
from typing import List, TextIO


def read_neighbours(matrix: TextIO) -> List[List[int]]:
    """For each row those that are joined to it, rising; row 1 has the place 0."""
    if matrix.readline().lower().split()[:3] != ["%%matrixmarket", "matrix", "coordinate"]:
        raise ValueError("the first line is not that of a sparse matrix of Matrix Market")
    lines = (line.split() for line in matrix if line.strip() and not line.lstrip().startswith("%"))
    rows, columns = map(int, next(lines)[:2])
    if rows != columns:
        raise ValueError(f"it has {rows} rows and {columns} columns")
    neighbours: List[List[int]] = [[] for _ in range(rows)]
    for row, column in (map(int, entry[:2]) for entry in lines):
        if not 1 <= min(row, column) <= max(row, column) <= rows:
            raise ValueError(f"an entry is in row {row} and column {column} of {rows}")
        if row != column:
            neighbours[row - 1].append(column)
            neighbours[column - 1].append(row)
    return [sorted(set(it)) for it in neighbours]


def main() -> int:
    if len(sys.argv) != 2 or sys.argv[1].startswith("-"):
        print(__doc__, file=sys.stderr)
        return 2
    try:
        with open(sys.argv[1], encoding="latin-1") as matrix:
            neighbours = read_neighbours(matrix)
    except (OSError, ValueError, IndexError, StopIteration) as error:
        why = getattr(error, "strerror", "") or str(error) or "it is cut off"
        print(f"metis_graph.py: {sys.argv[1]} cannot be read: {why}", file=sys.stderr)
        return 1
    signal.signal(signal.SIGPIPE, signal.SIG_DFL)  # where nobody reads on, as behind `| head`, it ends without a word
    print(len(neighbours), sum(map(len, neighbours)) // 2)
    for joined in neighbours:
        print(*joined)
    return 0


if __name__ == "__main__":
    sys.exit(main())
