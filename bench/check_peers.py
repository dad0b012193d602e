#!/usr/bin/env python3
"""Tries the peers on random small trees and workflows: a peer that is wrong is no measure.

usage: bench/check_peers.py FOLDER [CASES]

`peer` and `model` are in FOLDER, where `make -C bench/peers` builds them: bench/out. Each order
that they find has to be a traversal, with the peak that they tell; of at most ten tasks, no order
has a lower peak than a plan, and of at most seven no postorder than the best one. Both planners
have to tell the same peak, the model finds the same order with claims and without, and its claims
have to show that no order has a lower peak. Inputs, orders and claims are judged by the models of
tools/fuzz. CASES is 1,000 if nothing else is said, which take a minute or two. The last line is
'N passed, M failed'.
"""
import random
import subprocess
import sys
import tempfile
from collections.abc import Iterator
from itertools import permutations, product
from pathlib import Path
from typing import Optional

sys.path.insert(0, str(Path(__file__).resolve().parent.parent / "tools" / "fuzz"))

from models import (
    Plan,
    System,
    numbers,
    objection,
    plan_of,
    system_of_tree,
    system_of_workflow,
    term_of_tree,
    term_of_workflow,
    tree_parents,
)
from random_files import random_tree, random_workflow

MOST_TASKS, MOST_POSTORDERS = 10, 7


def postorders(parents: list[int]) -> Iterator[list[int]]:
    """All postorders of a tree."""
    below: list[list[int]] = [[] for _ in range(len(parents) + 1)]
    for node, parent in enumerate(parents, 1):
        below[parent].append(node)

    def of(node: int) -> Iterator[list[int]]:
        own = [node] if node else []
        for children in permutations(below[node]):
            for parts in product(*(list(of(child)) for child in children)):
                yield [it for part in parts for it in part] + own

    return of(0)


def plan_fault(system: System, plan: Plan) -> Optional[str]:
    if fault := system.fault(plan.order):
        return fault
    if system.peak(plan.order) != plan.peak:
        return f"the peak is {system.peak(plan.order)}"
    if system.count <= MOST_TASKS and system.least_peak() < plan.peak:
        return f"the least peak is {system.least_peak()}"
    return None


def post_fault(system: System, parents: list[int], printed: bytes) -> Optional[str]:
    lines = printed.split(b"\n")
    peak, order = int(lines[0].split()[1]), numbers(b"\n".join(lines[2:-2]))
    if fault := system.fault(order):
        return fault
    if system.peak(order) != peak:
        return f"the peak is {system.peak(order)}"
    if system.count <= MOST_POSTORDERS:
        best = min(system.peak(it) for it in postorders(parents))
        return f"the best postorder has {best}" if best < peak else None
    return None


def model_fault(system: System, term: list, peak: int, plan: Plan, proof: Plan) -> Optional[str]:
    """What is wrong with the model's plan, or with that which has claims."""
    if fault := plan_fault(system, plan):
        return fault
    if plan.peak != peak:
        return f"its peak is {plan.peak}, and that of the other planner {peak}"
    if plan.claims or (plan.order, plan.peak) != (proof.order, proof.peak):
        return "it finds another order where it makes claims, or makes some where it should not"
    said = objection(system, term, proof)
    return f"an objection to its claims: {said}" if said else None


def case_faults(folder: Path, name: str, draw: random.Random) -> Iterator[str]:
    """Runs the peers on a random input, and says what is wrong with their answers."""
    kind = "tree" if draw.random() < 0.5 else "workflow"
    text = random_tree(draw) if kind == "tree" else random_workflow(draw)
    Path(name).write_bytes(text)

    def printed(peer: str, *words: str) -> bytes:
        return subprocess.run([folder / peer, *words], stdout=subprocess.PIPE, check=True).stdout

    system = system_of_tree(text) if kind == "tree" else system_of_workflow(text)
    term = term_of_tree(text) if kind == "tree" else term_of_workflow(text)
    plan = plan_of(printed("peer", "plan", kind, name))
    made, proof = (plan_of(printed("model", it, kind, name)) for it in ("plan", "certify"))
    faults = [plan_fault(system, plan), model_fault(system, term, plan.peak, made, proof)]
    if kind == "tree":
        faults.append(post_fault(system, tree_parents(text), printed("peer", "post", name)))
    yield from (fault.strip() for fault in faults if fault)


def main() -> int:
    if len(sys.argv) not in (2, 3):
        sys.exit(__doc__)
    built, cases = Path(sys.argv[1]).resolve(), int(sys.argv[2]) if len(sys.argv) > 2 else 1000
    failed = 0
    with tempfile.TemporaryDirectory() as folder:
        for number in range(cases):
            faults = list(case_faults(built, f"{folder}/input", random.Random(number)))
            failed += bool(faults)
            for fault in faults:
                print(f"case {number}: {fault}")
    print(f"{cases - failed} passed, {failed} failed")
    return 1 if failed else 0


if __name__ == "__main__":
    sys.exit(main())
