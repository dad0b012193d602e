"""The page of a plan, one file that loads nothing: what `page.html`, with a script and a style inside, is given to show."""

from __future__ import annotations

import base64
import html
import json
from pathlib import Path
from typing import Any, Dict, List, Optional, Sequence, Tuple

from ._systems import course_of, lives_of, system_of
from ._texts import PathLike
from ._types import Array
from .results import Blockers, Claims, Need, Plan, Simulation, States, Work
from .trees import Tree

import numpy  # isort: skip  # behind what says so where it is missing

PAGE = Path(__file__).resolve().parent / "page.html"

START, TOGETHER, BLOCK, TASK = range(4)
"""What of a node the term is that ends at a position: what is there before it, its children together, its block, or all down from it."""


def write_report(path: PathLike, work: Work, plan: Plan, simulations: Sequence[Simulation], unit: str, title: str) -> None:
    """Of a plan that fits the work, else it is refused as by `replay` and `check`."""
    data = data_of(work, plan, simulations, unit, title or f"{type(work).__name__} of {len(work):,} tasks")
    # in a script a page may not end, and no comment begin
    told = json.dumps(data, separators=(",", ":")).replace("<", "\\u003c")
    page = PAGE.read_text(encoding="utf-8").replace("[data]", told, 1).replace("[title]", html.escape(data["title"]), 1)
    Path(path).write_bytes(page.encode("utf-8", "xmlcharrefreplace"))


def data_of(work: Work, plan: Plan, simulations: Sequence[Simulation], unit: str, title: str) -> Dict[str, Any]:
    peak = work.replay(plan)
    if peak != plan.peak:
        raise ValueError(f"plan: its peak is {plan.peak}, and along its order it is {peak}")
    if plan.evidence is not None:
        work.check(plan)
    system, tasks = system_of(work), numpy.array(work._numbered(plan), "int64")
    lives = lives_of(system, tasks)
    course = course_of(system, tasks, lives)
    columns = {"tasks": tasks, "between": course.between, "during": course.during, "size": system.sizes}
    columns.update(producer=system.producers, birth=lives.starts, death=lives.ends)
    claims: List[List[int]] = []
    if isinstance(work, Tree):
        columns.update(parent=work.parent, own=work.extra + work.out)
        if isinstance(plan.evidence, Claims):
            claims = claims_on(work, plan.evidence)
    return {
        "title": title,
        "summary": summary_of(work, plan, unit),
        "unit": unit,
        "peak": peak,
        "bound": plan.bound,
        "base": work.naming.base,
        "names": None if work.naming.names is None else list(map(str, work.naming.names)),
        "columns": {name: packed(values) for name, values in columns.items()},
        "claims": claims,
        "proof": list(proof_of(work, plan, unit, len(claims))),
        "runs": [run_of(it) for it in simulations],
        "made": "Numbers of more than 15 digits are rounded. This file loads nothing from anywhere.",
    }


def packed(values: Array) -> Tuple[str, str]:
    """A column as the page reads it: of bytes where all are so small, else of 32 bits, else of floating numbers."""
    most = int(values.max(initial=0))
    kind = "u1" if most < 2**8 else "u4" if most < 2**32 else "f8"
    return kind, base64.b64encode(numpy.asarray(values).astype("<" + kind).tobytes()).decode("ascii")


def run_of(simulation: Simulation) -> Dict[str, Optional[int]]:
    if simulation.bound is None or simulation.workers is None:
        raise ValueError("simulations: one was made by hand, and has no bound")
    return {
        "bound": simulation.bound,
        "workers": simulation.workers,
        "makespan": int(simulation.makespan),
        "used": int(simulation.used),
    }


def summary_of(work: Work, plan: Plan, unit: str) -> str:
    told = f"{len(work):,} tasks one after the other, with a peak of {plan.peak:,} {unit}"
    if plan.bound == plan.peak:
        return f"{told}. No order has a lower one{'' if plan.evidence is not None else ', as the planner says'}."
    return f"{told}; no order has a peak below {plan.bound:,} {unit}."


def proof_of(work: Work, plan: Plan, unit: str, on_tree: int) -> List[str]:
    evidence = plan.evidence
    if evidence is None:
        return ["The plan came without evidence; plan(evidence=True) makes it with some, and this page then shows it."]
    told = f"No order has a peak below {plan.bound:,} {unit}: the checker, which is proved, has judged the evidence and found it right."
    if isinstance(evidence, Claims):
        count = len(evidence.position)
        where = " In the tree above each task with a claim has a corner; point at it for its words." if on_tree else ""
        return [told, f"The evidence is {count:,} {'claim' if count == 1 else 'claims'}.{where}"]
    if isinstance(evidence, Need):
        of = "what is there before any task has run" if evidence.task is None else f"what {evidence.task} alone reads and needs"
        return [told, f"The evidence is {of}."]
    if isinstance(evidence, States):
        return [told, f"The evidence is a search backwards from the end, which looks at {evidence.many:,} states at most."]
    assert isinstance(evidence, Blockers)
    names = ", ".join(str(task) for task, _ in evidence.blockers[:20])
    more = f" and {len(evidence.blockers) - 20:,} others" if len(evidence.blockers) > 20 else ""
    which = "last" if evidence.last else "first"
    return [told, f"The evidence is tasks of which one starts {which} in every order, and needs so much then: {names}{more}."]


# Claims


def claims_on(tree: Tree, claims: Claims) -> List[List[int]]:
    """Each claim by its node: the node, what of it, whether backwards, the bound and the rest. One on all roots together has the node 0."""
    nodes, parts = positions_of(tree.parent)
    rows = zip(*(column.tolist() for column in map(numpy.asarray, claims)))
    return [[nodes[position - 1], parts[position - 1], backward, bound, rest] for position, backward, bound, rest in rows]


def positions_of(parent: Array) -> Tuple[List[int], List[int]]:
    """The node of each position of the tree's term, and what of it the part is that ends there: PLANS says under 'Claims' which are."""
    count = len(parent)
    children: List[List[int]] = [[] for _ in range(count + 1)]
    for node, above in enumerate(parent.tolist(), 1):
        children[above].append(node)
    nodes: List[int] = []
    parts: List[int] = []

    def put(node: int, *told: int) -> None:
        for part in told:
            nodes.append(node)
            parts.append(part)

    stack = list(reversed(children[0]))
    opened = [False] * (count + 1)
    while stack:
        node = stack[-1]
        if children[node] and not opened[node]:
            opened[node] = True
            stack.extend(reversed(children[node]))
            continue
        stack.pop()
        many = len(children[node])
        put(node, *([START] if many == 0 else [TOGETHER] if many > 1 else []), BLOCK, TASK)
    if len(children[0]) > 1:
        put(0, TOGETHER)
    return nodes, parts


def simulations_of(work: Any, plan: Plan, bounds: Sequence[int], workers: Sequence[int]) -> List[Simulation]:
    return [work.simulate(plan, bound, many) for many in workers for bound in bounds]
