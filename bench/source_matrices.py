#!/usr/bin/env python3
"""Finds the matrices in the source packages of SuiteSparse and METIS and writes them as Matrix Market files.

usage: source_matrices.py SOURCE_FOLDER OUT_FOLDER

SOURCE_FOLDER is what `apt-get source suitesparse` or `apt-get source metis` unpacks. Matrices come in
six forms: Matrix Market; triplets with a head (CHOLMOD) and without one (CSparse, CXSparse);
Rutherford-Boeing and Harwell-Boeing; lists of columns (LDL); METIS's graphs. Only patterns of square matrices are written, each once,
with the two triangles put together. The files are named by the source's.
"""
import re
import sys
from collections.abc import Iterator
from pathlib import Path
from typing import NamedTuple, Optional


class Pattern(NamedTuple):
    """The pairs of a square matrix, from 1, the greater first, rising; without the diagonal."""

    order: int
    pairs: tuple[tuple[int, int], ...]


class Unread(Exception):
    """A file that is no square matrix of the form, with the reason."""


def pattern_of(rows: int, columns: int, entries: Iterator[tuple[int, int]]) -> Pattern:
    """The pattern of entries from 1."""
    if rows != columns or rows == 0:
        raise Unread("not square")
    pairs = {(max(entry), min(entry)) for entry in entries if entry[0] != entry[1]}
    if not pairs:
        raise Unread("nothing beside the diagonal")
    if any(row > rows or column < 1 for row, column in pairs):
        raise Unread("an index out of range")
    return Pattern(rows, tuple(sorted(pairs)))


def market(lines: list[str]) -> Pattern:
    if not re.match(r"%%MatrixMarket\s+matrix\s+coordinate\s", lines[0], re.IGNORECASE):
        raise Unread("not in coordinates")
    body = [line.split() for line in lines[1:] if line.strip() and not line.startswith("%")]
    rows, columns, count = map(int, body[0])
    return pattern_of(rows, columns, ((int(it[0]), int(it[1])) for it in body[1 : count + 1]))


def headed_triplets(lines: list[str]) -> Pattern:
    """CHOLMOD's: a line `rows columns entries` and maybe a symmetry; indices from 0 or from 1."""
    body = [line.split() for line in lines if line.strip() and line[0] not in "%#"]
    rows, columns, count = (int(it) for it in body[0][:3])
    entries = [(int(it[0]), int(it[1])) for it in body[1 : count + 1]]
    first = 0 if any(0 in entry for entry in entries) else 1
    return pattern_of(
        rows, columns, ((row + 1 - first, column + 1 - first) for row, column in entries)
    )


def bare_triplets(lines: list[str]) -> Pattern:
    """CSparse's: indices from 0, and the greatest say how large the matrix is."""
    body = [line.split() for line in lines if line.strip()]
    entries = [(int(it[0]) + 1, int(it[1]) + 1) for it in body]
    rows, columns = (max(entry[side] for entry in entries) for side in (0, 1))
    return pattern_of(rows, columns, iter(entries))


def column_lists(lines: list[str]) -> Pattern:
    """LDL's: a head, the places at which columns begin, and the rows of all columns, from 0."""
    head = re.match(r"name: .* n: (\d+) entries: (\d+)", lines[0])
    if not head:
        raise Unread("no head")
    order, count = int(head[1]), int(head[2])
    found = [int(token) for line in lines[2 : order + count + 3] for token in line.split()]
    starts, rows = found[: order + 1], found[order + 1 :]
    return pattern_of(order, order, by_columns(starts, rows, 0))


def neighbour_lists(lines: list[str]) -> Pattern:
    """METIS's: a head `vertices edges`, then the neighbours of each vertex, from 1."""
    body = [line.split() for line in lines if not line.startswith("%")]
    if len(body[0]) != 2:
        raise Unread("weights")
    order = int(body[0][0])
    pairs = ((v, int(it)) for v, row in enumerate(body[1 : order + 1], 1) for it in row)
    return pattern_of(order, order, pairs)


def by_columns(starts: list[int], rows: list[int], first: int) -> Iterator[tuple[int, int]]:
    for column, (start, end) in enumerate(zip(starts, starts[1:]), 1):
        for row in rows[start - first : end - first]:
            yield row + 1 - first, column


def fields(form: str, lines: list[str], count: int) -> list[int]:
    """Whole numbers in columns of a width, as a Fortran format such as (10I8) tells it."""
    found = re.search(r"(\d*)I(\d+)", form.upper())
    if not found:
        raise Unread("another format of numbers")
    width = int(found[2])
    cut = (
        line.rstrip("\n")[at : at + width]
        for line in lines
        for at in range(0, len(line.rstrip()), width)
    )
    return [int(it) for it in cut if it.strip()][:count]


def boeing(lines: list[str]) -> Pattern:
    """Rutherford-Boeing or Harwell-Boeing: a fifth line tells of right sides, if there are any."""
    counts = [int(it) for it in lines[1].split()]
    kind, rows, columns, entries = lines[2].split()[:4]
    if kind[2].upper() != "A":
        raise Unread("elements")
    start = 5 if len(counts) > 4 and counts[4] > 0 else 4
    forms = re.findall(r"\([^)]*\)", lines[3])
    starts = fields(forms[0], lines[start : start + counts[1]], int(columns) + 1)
    places = lines[start + counts[1] : start + counts[1] + counts[2]]
    return pattern_of(
        int(rows), int(columns), by_columns(starts, fields(forms[1], places, int(entries)), 1)
    )


def form_of(path: Path) -> Optional[object]:
    """How a file is read, by its name and its place."""
    if path.suffix == ".mtx":
        return market
    if path.suffix == ".graph" and path.parent.name == "graphs":
        return neighbour_lists
    if path.suffix in (".rb", ".rua", ".rsa", ".rra"):
        return boeing
    if path.suffix:
        return headed_triplets if path.suffix == ".tri" else None
    if path.parent.name == "Matrix":
        above = path.parent.parent.name
        return {
            "CSparse": bare_triplets,
            "CXSparse": bare_triplets,
            "LDL": column_lists,
            "Tcov": headed_triplets,
        }.get(above)
    return None


def name_of(path: Path, lines: list[str]) -> str:
    """The name that the collection of sparse matrices has for it, where the file tells one."""
    told = re.match(r"name: \w+/([\w.-]+)", lines[0])
    return told[1] if told else path.stem


def matrices(source: Path) -> Iterator[tuple[str, Pattern]]:
    """Each square pattern once, by rising order, with a name of its own."""
    found: dict[Pattern, str] = {}
    for path in sorted(source.rglob("*")):
        read = form_of(path) if path.is_file() else None
        if read is None or "mangle" in str(path):
            continue
        lines = path.read_text(encoding="latin-1").split("\n")
        try:
            found.setdefault(read(lines), name_of(path, lines))
        except (Unread, ValueError, IndexError):
            # rectangular, or made to be refused
            continue
    taken: set[str] = set()
    for pattern, name in sorted(found.items(), key=lambda it: (it[0].order, len(it[0].pairs))):
        number = 1
        while (own := name if number == 1 else f"{name}-{number}") in taken:
            number += 1
        taken.add(own)
        yield own, pattern


def write(pattern: Pattern, out: Path) -> None:
    with open(out, "w", encoding="ascii") as text:
        text.write("%%MatrixMarket matrix coordinate pattern symmetric\n")
        text.write(f"{pattern.order} {pattern.order} {len(pattern.pairs)}\n")
        text.writelines(f"{row} {column}\n" for row, column in pattern.pairs)


def main() -> None:
    if len(sys.argv) != 3:
        sys.exit(__doc__)
    source, out = Path(sys.argv[1]), Path(sys.argv[2])
    out.mkdir(parents=True, exist_ok=True)
    for name, pattern in matrices(source):
        write(pattern, out / f"{name}.mtx")
        print(f"{name}: {pattern.order} rows, {len(pattern.pairs)} pairs")


if __name__ == "__main__":
    main()
