#!/usr/bin/env python3
"""Draws a task graph with fences for Graphviz: arcs solid with their sizes, fences dashed, joins as points.

usage: to_dot.py --graph GRAPH --fences FENCES [--order ORDER] [--command-of COMMANDS] | dot -Tsvg > DRAWING
"""

from __future__ import annotations

import json
import sys
from collections.abc import Iterator

from fenced_graph import FencedGraph, export, limit_told


def quoted(text: str) -> str:
    return json.dumps(text, ensure_ascii=False)


def nodes_of(graph: FencedGraph) -> Iterator[str]:
    for task in graph.order:
        tooltip = f", tooltip={quoted(graph.commands[task])}" if task in graph.commands else ""
        yield f"{task} [label={quoted(graph.name(task))}{tooltip}]"
    for join in graph.used_joins:
        yield f"{join} [shape=point]"


def arcs_of(graph: FencedGraph) -> Iterator[str]:
    for item in graph.graph.items:
        label = f" [label={item.size}]" if item.size else ""
        if item.maker:
            yield from (f"{item.maker} -> {reader}{label}" for reader in item.readers)
    for join, readers in graph.used_joins.items():
        yield from (f"{reader} -> {join} [style=dashed, arrowhead=none]" for reader in readers)
    yield from (f"{start} -> {end} [style=dashed, constraint=false]" for start, end in graph.fences)


def lines_of(graph: FencedGraph) -> Iterator[str]:
    yield "digraph {"
    yield f"    label={quoted(f'Fenced for {graph.bound}, {limit_told(graph)}')}"
    yield from (f"    {line}" for line in [*nodes_of(graph), *arcs_of(graph)])
    yield "}"


if __name__ == "__main__":
    sys.exit(export(__doc__.split("\n")[0], lines_of))
