#!/usr/bin/env python3
"""Makes a makefile of a task graph with fences: each task is a target that runs `$(RUN) NAME`, each join an empty one.

usage: to_make.py --graph GRAPH --fences FENCES [--order ORDER] [--command-of COMMANDS] > MAKEFILE

Prerequisites are order-only, so that no task runs again for a fence. Make has no priorities: it begins with the targets that are listed first.
"""

from __future__ import annotations

import shlex
import sys
from collections.abc import Iterator

from fenced_graph import FencedGraph, export, limit_told


def escaped(text: str) -> str:
    return text.replace("$", "$$")


def rule_of(graph: FencedGraph, number: int, before: list[int]) -> str:
    return f"{graph.word(number)}:" + (f" | {' '.join(graph.word(it) for it in before)}" if before else "")


def lines_of(graph: FencedGraph) -> Iterator[str]:
    suppliers, waits = graph.suppliers(), graph.waits()
    yield f"# Fenced for {graph.bound}, {limit_told(graph)}."
    yield "RUN ?= ./run"
    yield f".PHONY: all {' '.join(graph.word(it) for it in [*graph.order, *graph.used_joins])}"
    yield f"all: {' '.join(graph.word(task) for task in graph.order)}"
    for join, readers in graph.used_joins.items():
        yield rule_of(graph, join, list(readers))
    for task in graph.order:
        yield rule_of(graph, task, suppliers[task] + waits[task])
        yield "\t" + escaped(graph.commands.get(task, "")) if task in graph.commands else f"\t$(RUN) {escaped(shlex.quote(graph.name(task)))}"


if __name__ == "__main__":
    sys.exit(export(__doc__.split("\n")[0], lines_of))
