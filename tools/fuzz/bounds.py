#!/usr/bin/env python3
"""Asks `bound` for a bound of random small task graphs, `plan` for a plan, and `check` for its verdict on plans with bounds, and compares all with
brute force.

usage: bounds.py PROGRAM [--graphs N] [--first N] [--seed S] [--jobs J] [--keep FOLDER]      (PROGRAM is crates/memplan/out/memplan)

A graph has at most seven tasks and some items, each with any number of readers; the seed and the number of a graph make it. Of each it asks:

- `bound` prints a number that is at most the least peak of all orders, and at least what is there at the start and what each task reads and needs;
  the plain judge of evidence.py has nothing against the evidence; beside an order it prints its peak, or its first fault;
- `plan` prints an order with its peak, no worse than the one that it is given, a bound that is at most the least peak, and evidence that the plain
  judge, or of claims `check`, has nothing against; as JSON it says the same; where the bound is the peak, that is the least one;
- `check` says `least` of an order whose peak is that number, and `above` of any other, with that evidence;
- of plans whose numbers, evidence or order are changed it says what the plain judge says; and a plan that it accepts has a bound that is at most the
  least peak;
- a file that is changed in a few bytes, tokens or lines is refused as the plain reader refuses it, or judged as what it says.

It prints how many graphs and orders were tried, and for how many the bound and the peak of the plan are the least peak. A graph that is wrong is kept in FOLDER, and the status
is then 1.
"""
import argparse
import json
import multiprocessing
import random
import sys
import tempfile
from collections.abc import Iterator
from pathlib import Path
from typing import NamedTuple, Optional

import formats
from bench import DONE, FORMAT, LIMIT, NO, Bench, Ending, told
from evidence import Blocker, BoundedPlan, Judge, bounded_plan_of, evidence_of, text_of
from models import rows, shared_system_of_graph
from random_files import changed, listed, random_forked_graph, random_layered_graph, random_shared_graph, random_traversal
from shared import no_traversal


class Result(NamedTuple):
    """A graph that was tried: whether the bound is the least peak, and whether that of the plan is; how many orders there are, the runs that it
    took, and what was wrong."""

    is_met: bool
    is_least: bool
    orders: int
    runs: int
    wrongs: list[str]


class Trial:
    """A random graph, and what is asked of it."""

    def __init__(self, draw: random.Random, bench: Bench) -> None:
        self.draw, self.bench = draw, bench
        self.text = draw.choice([random_shared_graph, random_forked_graph, random_layered_graph])(draw)
        self.system = shared_system_of_graph(self.text)
        self.judge = Judge(self.system)
        self.orders = {order: self.system.peak(order) for order in self.system.traversals()}
        self.least = min(self.orders.values())
        self.bound: Optional[int] = None
        self.planned: Optional[int] = None

    def wrongs(self) -> Iterator[str]:
        self.bench.write("g", self.text)
        order = random_traversal(self.draw, self.system)
        found = self.bench.run(["bound", "--graph", "g", *self.draw.choice([[], ["--effort", str(self.draw.choice([0, 1, 100, 10**4, 10**6]))]])])
        yield from self.wrongs_of_bound(found, b"")
        self.bench.write("o", listed(self.draw, order))
        beside = self.bench.run(["bound", "--graph", "g", "--order", "o"])
        head = f"peak {self.system.peak(order)}\n".encode()
        yield from self.wrongs_of_bound(beside, head)
        other = no_traversal(self.draw, self.system)
        self.bench.write("o", listed(self.draw, other))
        refused = self.bench.run(["bound", "--graph", "g", "--order", "o"])
        if refused != Ending(NO, self.system.fault(other).encode(), b""):
            yield f"bound beside {other}: {refused}"
        if beside.status == DONE and beside.report.startswith(head):
            lines = rows(beside.report)
            plan = BoundedPlan(order, self.system.peak(order), int(lines[1][1]), *evidence_of(lines[2:]))
            self.bound = plan.bound
            for tried in self.plans(plan):
                yield from self.wrongs_of_check(text_of(tried))
            yield from self.wrongs_of_check(changed(self.draw, text_of(plan)))
        self.bench.write("o", listed(self.draw, order))
        self.planned, wrongs = self.planned_by([], None)
        yield from wrongs
        effort = self.draw.choice([[], ["--effort", str(self.draw.choice([0, 1, 100, 10**4, 10**6]))]])
        _, wrongs = self.planned_by(["--order", "o", *effort], self.system.peak(order))
        yield from wrongs
        self.bench.write("o", listed(self.draw, other))
        refused = self.bench.run(["plan", "--graph", "g", "--order", "o"])
        if refused != Ending(NO, self.system.fault(other).encode(), b""):
            yield f"plan from {other}: {refused}"

    def planned_by(self, more: list[str], most: Optional[int]) -> tuple[Optional[int], list[str]]:
        """The peak of a plan, which may be given one that is not to be passed; and what is wrong with it."""
        words = ["plan", "--graph", "g", *more]
        found = self.bench.run(words)
        _, refusal = formats.refusal_of(lambda: formats.read_bounded_plan(found.report))
        if found.status != DONE or refusal:
            return None, [f"plan: {found}"]
        plan = bounded_plan_of(found.report)
        return plan.peak, list(self.wrongs_of_plan(words, found.report, plan, most))

    def wrongs_of_plan(self, words: list[str], text: bytes, plan: BoundedPlan, most: Optional[int]) -> Iterator[str]:
        if self.orders.get(tuple(plan.order)) != plan.peak or plan.bound > min(plan.peak, self.least) or (most is not None and plan.peak > most):
            yield f"plan {plan}, where the least peak is {self.least} and that of the order {most}"
        verdict = f"yes {plan.peak} least\n" if plan.bound == plan.peak else f"yes {plan.peak} above {plan.bound}\n"
        if plan.word != "claims" and self.judge.verdicts(plan) != [verdict]:
            yield f"the plain judge says of {plan}: {self.judge.verdicts(plan)}"
        self.bench.write("p", text)
        checked = self.bench.run(["check", "--graph", "g", "--plan", "p"])
        if checked != Ending(DONE, verdict.encode(), b""):
            yield f"check of {plan}: {checked}"
        told = self.bench.run([*words, "--print", "json"])
        made = json.loads(told.report) if told.status == DONE else {}
        if [made.get("order"), made.get("peak"), made.get("bound"), list(made.get("evidence", {}))] != [list(plan.order), plan.peak, plan.bound, [plan.word]]:
            yield f"plan as JSON: {told} in place of {plan}"

    def wrongs_of_bound(self, found: Ending, head: bytes) -> Iterator[str]:
        lines = rows(found.report)[1 if head else 0 :]
        if found.status != DONE or not found.report.startswith(head) or lines[-1] != ["end"]:
            yield f"bound: {found}"
            return
        bound = int(lines[0][1])
        needs = [self.system.memory(0), *map(self.system.own_need, range(1, self.system.count + 1))]
        if not max(needs) <= bound <= self.least:
            yield f"bound {bound}, where the least peak is {self.least} and a task needs {max(needs)}"
        if objections := self.judge.objections(BoundedPlan([], 0, bound, *evidence_of(lines[1:]))):
            yield f"the evidence for {bound} is objected to: {objections}"

    def plans(self, plan: BoundedPlan) -> Iterator[BoundedPlan]:
        """The plan, one of least peak, and others that are changed."""
        draw = self.draw
        best = min(self.orders, key=self.orders.__getitem__)
        yield plan
        yield plan._replace(order=list(best), peak=self.least)
        yield plan._replace(peak=plan.peak + draw.choice([-1, 1]) if plan.peak else 1)
        yield plan._replace(bound=max(0, plan.bound + draw.choice([-1, 1, 1, 1, 2])))
        yield plan._replace(order=no_traversal(draw, self.system))
        without_set = plan._replace(base=[], blockers=[], bound=draw.randint(0, self.least + 1))
        yield without_set._replace(word="need", number=draw.randint(0, self.system.count + 1))
        yield from self.plans_by_states(without_set._replace(order=list(best), peak=self.least, word="states"))
        if plan.word in ("first", "last"):
            for _ in range(4):
                yield self.changed_set(plan)

    def plans_by_states(self, plan: BoundedPlan) -> Iterator[BoundedPlan]:
        """The least peak shown by states, with as many as there are or one too few; and other bounds and numbers."""
        count = len(self.judge.states_below(self.least, 2**self.system.count))
        yield plan._replace(bound=self.least, number=count)
        yield plan._replace(bound=self.least, number=max(0, count - 1))
        yield plan._replace(bound=self.least + 1, number=2**self.system.count)
        yield plan._replace(number=self.draw.choice([0, count, 2**self.system.count, 2**32 - 1]))

    def changed_set(self, plan: BoundedPlan) -> BoundedPlan:
        draw = self.draw
        kind = draw.randrange(6)
        if kind == 0:
            return plan._replace(word="first" if plan.word == "last" else "last")
        if kind == 1:
            return plan._replace(blockers=[blocker for blocker in plan.blockers if draw.random() < 0.6])
        if kind == 2:
            return plan._replace(base=self.changed_amounts(plan.base))
        if kind == 3:
            return plan._replace(blockers=[Blocker(blocker.task, self.changed_amounts(blocker.amounts)) for blocker in plan.blockers])
        if kind == 4:
            more = Blocker(draw.randint(0, self.system.count + 1), [])
            return plan._replace(blockers=sorted([*plan.blockers, more]) if draw.random() < 0.8 else [*plan.blockers, more])
        return plan._replace(blockers=draw.sample(plan.blockers, len(plan.blockers)))

    def changed_amounts(self, amounts: list[tuple[int, int]]) -> list[tuple[int, int]]:
        draw = self.draw
        told = dict(amounts)
        for _ in range(draw.randint(1, 2)):
            place = draw.randint(1, len(self.judge.uses) + (draw.random() < 0.05))
            told[place] = told.get(place, 0) + draw.choice([-2, -1, 1, 2])
        return sorted(told.items())

    def wrongs_of_check(self, text: bytes) -> Iterator[str]:
        self.bench.write("p", text)
        found = self.bench.run(["check", "--graph", "g", "--plan", "p", *self.draw.choice([[], ["--workers", str(self.draw.randint(1, 4))]])])
        _, refusal = formats.refusal_of(lambda: formats.read_bounded_plan(text))
        if refusal:
            wanted = [Ending(FORMAT if refusal.startswith("format") else LIMIT, f"refused {refusal}\n".encode(), b"")]
        else:
            verdicts = self.verdicts(text)
            if not verdicts:
                return
            wanted = [Ending(DONE if verdict.startswith("yes") else NO, verdict.encode(), b"") for verdict in verdicts]
        if found not in wanted:
            yield f"check: {found} in place of {wanted} of {text!r}"
        elif found.status == DONE and bounded_plan_of(text).bound > self.least:
            yield f"a bound above the least peak {self.least} is accepted: {text!r}"

    def verdicts(self, text: bytes) -> list[str]:
        """The plain judge's; none of claims, which it knows nothing of."""
        plan = bounded_plan_of(text)
        return [] if plan.word == "claims" else self.judge.verdicts(plan)


class Worker:
    """Tries graphs of a seed in a folder of its own."""

    def __init__(self, program: Path, seed: int, keep: Path) -> None:
        self.program, self.seed, self.keep = program, seed, keep
        # made in the process that tries the graphs
        self.home: Optional[tempfile.TemporaryDirectory] = None
        self.bench: Optional[Bench] = None

    def __call__(self, number: int) -> Result:
        if self.bench is None:
            self.home = tempfile.TemporaryDirectory()
            self.bench = Bench(self.program, Path(self.home.name) / "files")
            self.bench.put({})
        before = self.bench.runs
        trial = Trial(random.Random(f"{self.seed} {number}"), self.bench)
        wrongs = told(trial.wrongs())
        if wrongs:
            folder = self.keep / str(number)
            folder.mkdir(parents=True, exist_ok=True)
            (folder / "graph").write_bytes(trial.text)
            (folder / "case.json").write_text(json.dumps({"wrong": wrongs}, indent=1) + "\n")
        return Result(trial.bound == trial.least, trial.planned == trial.least, len(trial.orders), self.bench.runs - before, wrongs)


def arguments() -> argparse.Namespace:
    parser = argparse.ArgumentParser(description=__doc__, formatter_class=argparse.RawDescriptionHelpFormatter)
    parser.add_argument("program", type=Path)
    parser.add_argument("--graphs", type=int, default=20000)
    parser.add_argument("--first", type=int, default=1, help="the number of the first graph")
    parser.add_argument("--seed", type=int, default=1)
    parser.add_argument("--jobs", type=int, default=2)
    parser.add_argument("--keep", type=Path, default=Path("wrong-bounds"))
    return parser.parse_args()


def main() -> int:
    given = arguments()
    worker = Worker(given.program.resolve(), given.seed, given.keep.resolve())
    results: list[Result] = []
    with multiprocessing.Pool(given.jobs) as pool:
        for result in pool.imap(worker, range(given.first, given.first + given.graphs), chunksize=50):
            for wrong in result.wrongs:
                print(f"graph {given.first + len(results)}: {wrong}", flush=True)
            results.append(result)
    met = sum(1 for result in results if result.is_met)
    wrong = sum(1 for result in results if result.wrongs)
    orders, runs = (sum(counts) for counts in zip(*((result.orders, result.runs) for result in results)))
    least = sum(1 for result in results if result.is_least)
    print(f"{len(results)} graphs; the least peak is the bound of {met} and the peak of the plan of {least}; {orders} orders, {runs} runs; {wrong} wrong")
    return 1 if wrong else 0


if __name__ == "__main__":
    sys.exit(main())
