#!/usr/bin/env python3
"""Makes a Snakefile of a task graph with fences: a rule for each task, items as temp() files, and a marker file for each task that has ended.

usage: to_snakemake.py --graph GRAPH --fences FENCES [--order ORDER] [--command-of COMMANDS] > SNAKEFILE

A task runs `{config[run]} NAME FILE..` and writes the files, its items. A fence is a marker as input: an item as input would be kept for it.
"""

from __future__ import annotations

import json
import shlex
import sys
from collections.abc import Iterator

from fenced_graph import FencedGraph, Unfit, export, gathered, limit_told


def escaped(text: str) -> str:
    return text.replace("{", "{{").replace("}", "}}")


def marker(graph: FencedGraph, task: int) -> str:
    return f"fences/{graph.word(task)}"


def listed(texts: list[str]) -> str:
    return ", ".join(texts)


class Files:
    """The items as files; one of size 0 is a mere dependence, and so none."""

    def __init__(self, graph: FencedGraph) -> None:
        self.made: dict[int, list[tuple[str, bool]]] = {task: [] for task in graph.tasks}
        self.read: dict[int, list[str]] = {task: [] for task in graph.tasks}
        for place, item in enumerate(graph.graph.items, 1):
            if not item.maker and item.size and item.readers:
                raise Unfit(f"item {place} is there from the start, and Snakemake would not delete it after its last reader")
            if not item.maker or not item.size:
                continue
            name = f"data/{graph.word(item.maker)}.{len(self.made[item.maker]) + 1}"
            self.made[item.maker].append((name, bool(item.readers)))
            for reader in item.readers:
                self.read[reader].append(name)


def markers_before(graph: FencedGraph) -> dict[int, list[str]]:
    """Readers stand in place of their join: a job takes longer than many inputs. What hands over no file is waited for by its marker."""
    bare = {(item.maker, reader) for item in graph.graph.items if item.maker and not item.size for reader in item.readers}
    found = {}
    for task, before in gathered(graph.tasks, [*graph.fences, *bare]).items():
        tasks = {reader for number in before for reader in graph.used_joins.get(number, (number,))}
        found[task] = [marker(graph, number) for number in sorted(tasks)]
    return found


def rule_of(graph: FencedGraph, task: int, files: Files, markers: list[str]) -> Iterator[str]:
    made = [name for name, _ in files.made[task]]
    outputs = [f"temp({json.dumps(name)})" if is_read else json.dumps(name) for name, is_read in files.made[task]]
    command = escaped(graph.commands.get(task, "")) or f"{{config[run]}} {escaped(shlex.join([graph.name(task), *made]))}"
    yield f"rule {graph.word(task)}:"
    if inputs := [json.dumps(name) for name in [*files.read[task], *markers]]:
        yield f"    input: {listed(inputs)}"
    yield f"    output: {listed([*outputs, f'touch({json.dumps(marker(graph, task))})'])}"
    yield f"    priority: {graph.priorities[task]}"
    yield f"    shell: {json.dumps(command, ensure_ascii=False)}"


def lines_of(graph: FencedGraph) -> Iterator[str]:
    files, markers = Files(graph), markers_before(graph)
    yield f"# Fenced for {graph.bound}, {limit_told(graph)}."
    yield 'config.setdefault("run", "./run")'
    yield "rule all:"
    yield f"    input: {listed([json.dumps(marker(graph, task)) for task in graph.order])}"
    for task in graph.order:
        yield from rule_of(graph, task, files, markers[task])


if __name__ == "__main__":
    sys.exit(export(__doc__.split("\n")[0], lines_of))
