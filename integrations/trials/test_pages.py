"""The lines of Python that the pages show, and the script of the comparison."""

from __future__ import annotations

import re
import subprocess
import sys
from functools import partial
from pathlib import Path
from typing import Any, Dict, List

import dask.array
from clusters import cluster
from harness import run_all
from memplan import Core
from memplan.admission import Admission, ResultGraph
from memplan.dask import Task

HERE = Path(__file__).resolve().parent
PAGES = ("docs/WORKFLOWS.md", "integrations/dask/README.md", "integrations/threads/README.md")


def blocks_of(page: str) -> List[str]:
    """The blocks of Python of a page that are about runners."""
    text = (HERE.parent.parent / page).read_text(encoding="utf-8")
    return [block for block in re.findall(r"```python\n(.*?)```", text, re.DOTALL) if "admission" in block or "run" in block]


def load(name: str) -> List[str]:
    return [name]


def merge(*parts: List[str]) -> List[str]:
    return sum(parts, [])


def scope_of(client: Any) -> Dict[str, Any]:
    """What the pages take for given."""
    graph = {"inputs": [()], "sizes": [1], "extras": [0], "bound": 1, "order": [0], "waiting": [], "task": 0, "result": 0}
    x = dask.array.ones((8, 8), chunks=4)
    names = ["north", "south"]
    size = 1000
    graph["tasks"] = [Task(load, (name,), size=size) for name in names] + [Task(merge, inputs=(0, 1), size=size)]
    core = {"Admission": Admission, "ResultGraph": ResultGraph, "Core": Core}
    return {"client": client, "load": load, "merge": merge, "names": names, "x": x, **graph, **core}


def lines_run(page: str) -> None:
    found = blocks_of(page)
    assert found, "the page has no such lines"
    with cluster(processes=False) as client:
        for block in found:
            scope = scope_of(client)
            # A result that stays is never gone, so the last line of the five can only be read.
            exec(block.replace("admission.gone(result)", "admission.gone"), scope)
            ends = scope.get("futures") or scope.get("results") or {}
            for end in ends.values():
                assert (end if isinstance(end, list) else end.result()) == ["north", "south"]
            if "total" in scope:
                assert scope["total"].compute() == 2 * 64


def the_comparison_runs() -> None:
    words = [sys.executable, str(HERE / "compare.py"), "--quick", "--turns", "1", "--slowness", "1"]
    printed = subprocess.run(words, stdout=subprocess.PIPE, text=True, check=True).stdout
    assert printed.count("the core, within 1.0 times that") == 2


CHECKS = [
    *((f"the lines of {page} run", partial(lines_run, page)) for page in PAGES),
    ("the comparison runs", the_comparison_runs),
]

if __name__ == "__main__":
    sys.exit(run_all(CHECKS))
