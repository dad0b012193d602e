#!/usr/bin/env python3
"""Tells a report of memplan with the names of the tasks in place of their numbers.

usage: memplan COMMAND .. | name_tasks.py FILE      (or name_tasks.py FILE <REPORT)

A comment `# K NAME` in FILE, a tree, a workflow or a task graph, says what its task K is called; the rest of the line is the name. `reduce` writes
such comments into the workflow that it prints. So names that stand in a graph are kept all along:

    memplan reduce --graph my.graph | name_tasks.py my.graph >my.workflow
    memplan plan --workflow my.workflow | name_tasks.py my.workflow

Numbers of tasks without a name stay, and so does what is no number of a task: times, amounts, items, places. What is told in the report's last
line, on standard error or in JSON is left as it is.
"""
import re
import signal
import sys
from collections.abc import Iterator
from typing import Callable

NAMED = re.compile(r"[ \t]*#[ \t]+([0-9]+)[ \t]+(\S.*?)\s*")

Names = dict[int, str]
Line = list[str]


def names_in(text: str) -> Names:
    found = (NAMED.fullmatch(line) for line in text.splitlines())
    return {int(it[1]): it[2] for it in found if it}


def put(names: Names, line: Line, *places: int) -> Line:
    """The tokens at these places are numbers of tasks."""
    return [names.get(int(it), it) if place in places and it.isdigit() else it for place, it in enumerate(line)]


def of_listed(names: Names, lines: list[Line]) -> Iterator[Line]:
    """The lines behind `order N` and `priority N` are tasks: of a plan and of the best postorder."""
    left = 0
    for line in lines:
        if left:
            yield put(names, line, 0)
            left -= 1
            continue
        if len(line) == 2 and line[0] in ("order", "priority"):
            left = int(line[1])
        yield line


def of_a_run(names: Names, lines: list[Line]) -> Iterator[Line]:
    return (put(names, line, 2) if len(line) == 3 else line for line in lines)


def of_gaps(names: Names, lines: list[Line]) -> Iterator[Line]:
    return (put(names, line, 1) if len(line) == 3 else line for line in lines)


def of_a_rest(names: Names, lines: list[Line]) -> Iterator[Line]:
    return (put(names, line, 0, 1) if len(line) == 2 else line for line in lines)


def of_a_list(names: Names, lines: list[Line]) -> Iterator[Line]:
    return (put(names, line, 0) for line in lines)


def of_others(names: Names, lines: list[Line]) -> Iterator[Line]:
    return iter(lines)


def teller(lines: list[Line]) -> Callable[[Names, list[Line]], Iterator[Line]]:
    """By the report's first lines."""
    first, second = [*lines[:2], [], []][:2]
    if first[:1] == ["plan"] or second[:1] == ["order"]:
        return of_listed
    if first[:1] == ["makespan"]:
        return of_a_run
    if second[:1] == ["gaps"]:
        return of_gaps
    if first[:2] == ["refused", "graph"] and len(first) == 4 and first[2] in ("rest", "uses"):
        return of_a_rest
    if first and all(len(line) == 1 and line[0].isdigit() for line in lines):
        return of_a_list
    return of_others


def named(names: Names, report: str) -> Iterator[str]:
    """The lines of the report. Of a workflow that `reduce` printed the comments alone speak of the graph's tasks."""
    if report.startswith("workflow"):
        for line in report.splitlines():
            found = NAMED.fullmatch(line)
            yield f"# {found[1]} {names.get(int(found[2]), found[2])}" if found and found[2].isdigit() else line
        return
    lines = [line.split() for line in report.splitlines()]
    for tokens in teller(lines)(names, lines):
        yield " ".join(tokens)


def main() -> int:
    if len(sys.argv) != 2 or sys.argv[1].startswith("-"):
        print("usage: memplan COMMAND .. | name_tasks.py FILE", file=sys.stderr)
        return 2
    try:
        with open(sys.argv[1], encoding="utf-8", errors="replace") as file:
            names = names_in(file.read())
    except OSError as error:
        print(f"name_tasks.py: {sys.argv[1]}: {error.strerror}", file=sys.stderr)
        return 1
    signal.signal(signal.SIGPIPE, signal.SIG_DFL)  # where nobody reads on, as behind `| head`, it ends without a word
    sys.stdout.writelines(f"{line}\n" for line in named(names, sys.stdin.read()))
    return 0


if __name__ == "__main__":
    sys.exit(main())
