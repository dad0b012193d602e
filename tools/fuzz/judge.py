"""What is asked of a run: by docs/FORMATS.md, by the readers of formats.py and by the models of models.py."""
import json
import os
import re
from collections.abc import Callable, Iterator
from functools import partial
from typing import Optional

import formats
from bench import (
    BOUND,
    COMPLAINTS,
    DONE,
    FORMAT,
    LIMIT,
    NO,
    NO_MEMORY,
    NOT_SERIES_PARALLEL,
    READ_FAULT,
    STATUSES,
    USAGE,
    WORKING_SET,
    WRITE_FAULT,
    Bench,
    Ending,
    failed,
)
from cases import Case
from certificates import Judge as FenceJudge
from certificates import certificate_of
from evidence import BoundedPlan, bounded_plan_of, evidence_of
from evidence import Judge as EvidenceJudge
from fronts import columns_of, columns_report, fronts_report, later_of, vertices_of_fronts
from models import (
    SharedSystem,
    Simulation,
    Spilling,
    System,
    children_of,
    first_position,
    inverse_of,
    numbers,
    objection,
    order_of,
    parts_of,
    plan_of,
    planned_peak,
    postorder_of,
    reduction_of,
    rows,
    shared_of,
    shared_system_of_graph,
    system_of_term,
    system_of_tree,
    system_of_workflow,
    term_of_tree,
    term_of_workflow,
    tree_parents,
)

KINDS = {
    "tree": "header number count parent cycle share no-end",
    "workflow": "header word number stack-short not-one-term task-count share no-end",
    "graph": "header number section arc item cycle share no-end",
    "matrix": "banner not-matrix array-format field symmetry size-line not-square entry index too-few too-many",
    "perm": "number range repeated count",
    "iperm": "number range repeated count",
    "order": "header number count no-end",
    "plan": "header number section order priority claim amount no-end json",
    "fences": "header section number join fence amount workers no-end",
    "priority": "number range repeated count",
}

LIMITS = {
    "tree": "bytes tasks size total time steps",
    "workflow": "bytes tasks positions size total time steps",
    "graph": "bytes tasks arcs positions uses size total time",
    "matrix": "bytes order entries mindeg steps",
    "perm": "bytes",
    "iperm": "bytes",
    "order": "bytes tasks",
    "plan": "bytes tasks positions",
    "fences": "bytes tasks positions",
    "priority": "bytes",
}

# The options that make up an input.
INPUT_OPTIONS = ("tree", "workflow", "graph", "matrix", "perm", "iperm", "ordering", "shape", "amalgamate", "inplace")

# No more tasks than this are planned by trying all orders.
FEW = 10


class Judge:
    """What is asked of one case; each `..._ends` gives what is wrong with an ending of its command, where all files are accepted."""

    def __init__(self, bench: Bench, case: Case, ending: Ending) -> None:
        self.bench, self.words, self.ending = bench, case.words, ending
        self.text = ending.report.decode("latin-1")
        self.options = formats.request_of(case.words) or {}

    def wrongs(self) -> Iterator[str]:
        """All that is wrong with the case."""
        status, report, complaint = self.ending
        if status not in STATUSES:
            yield f"the status is {status}"
            return
        if complaint != COMPLAINTS.get(status, b""):
            yield f"standard error holds {complaint!r}"
        if status in (USAGE, READ_FAULT, NO_MEMORY) and report:
            yield "something is printed"
        if status in (NO, FORMAT, LIMIT, BOUND, WORKING_SET) and not self.is_refusal():
            yield "this is no refusal of the grammar"
        if self.bench.run(self.words) != self.ending:
            yield "the same words end otherwise"
        refusal = self.refusal()
        if refusal:
            if refusal != self.ending:
                yield f"expected {refusal}"
        elif status not in (DONE, NO, BOUND, NOT_SERIES_PARALLEL, WORKING_SET):
            yield "all words and files are accepted"
        else:
            yield from getattr(self, f"{self.words[0]}_ends")()

    def is_refusal(self) -> bool:
        """Whether the report is the one line that its status has."""
        files = [file for file in KINDS if file in self.options]
        count = "[0-9]+"
        if self.ending.status in (FORMAT, LIMIT):
            table, form, tail = (KINDS, "format", f" {count}") if self.ending.status == FORMAT else (LIMITS, "limit", "")
            return any(re.fullmatch(f"refused {form} {file} ({'|'.join(table[file].split())}){tail}\n", self.text) for file in files)
        order = f"no order {count} (unknown|repeated|too-early|missing)"
        if self.ending.status == BOUND:
            return self.words[0] in ("simulate", "fence", "fronts") and bool(re.fullmatch(f"refused bound {count} {count}\n", self.text))
        if self.ending.status == WORKING_SET:
            return self.words[0] == "spill" and bool(re.fullmatch(f"refused working-set {count} {count} {count}\n", self.text))
        claim = f"no peak {count} {count}|no root {count}|no claim {count} (data|series|par|outside)"
        if "graph" in self.options:
            test = "task|rising|amounts|sizes|open|level"
            claim = f"{claim}|no need (task|low)|no set (empty|base)|no blocker {count} ({test})|no term"
        lines = {"replay": order, "simulate": order, "fence": order, "spill": order, "bound": order, "check": f"{order}|{claim}"}
        if "fences" in self.options:
            fences = f"fences (many|cycle {count})|no fence {count} (join|tasks|apart)"
            lines["check"] = f"no joins (many|items)|no workers room|no {fences}|no amounts (count|total)|no amount {count} (size|limit)|no bound {count}"
        if "graph" in self.options:
            lines["plan"] = order
        if {"order", "plan"} & self.options.keys():
            lines |= {"columns": order, "reduce": order}
        return self.words[0] in lines and bool(re.fullmatch(f"({lines[self.words[0]]})\n", self.text))

    # ---- refusals

    def refusal(self) -> Optional[Ending]:
        """How the run has to end where its words have no request, or one of its files cannot be read or is refused."""
        if formats.request_of(self.words) is None:
            return failed(USAGE)
        count = 0
        for file in ("tree", "workflow", "graph", "matrix", "perm", "iperm", "order", "plan", "fences", "priority"):
            if file not in self.options:
                continue
            text = self.bench.read(self.options[file])
            if text is None:
                return failed(READ_FAULT)
            read, refusal = self.read(file, text, count)
            if refusal:
                return Ending(FORMAT if refusal.startswith("format") else LIMIT, f"refused {refusal}\n".encode(), b"")
            if file not in ("perm", "iperm", "order", "fences") and (file != "plan" or self.words[0] == "upgrade"):
                count = read
        return None

    def read(self, file: str, text: bytes, count: int) -> tuple[int, Optional[str]]:
        """What a file counts, and why it is refused; so many vertices or tasks are there by the files before it."""
        if file == "matrix":
            order, refusal = formats.refusal_of(partial(formats.read_matrix, text))
            if self.options.get("ordering") == "mindeg" and order > formats.MOST_MINDEG:
                refusal = "limit matrix mindeg"
            return order, refusal
        if file == "iperm":
            return formats.refusal_of(partial(formats.read_inverse, text, count))
        if file == "perm":
            return formats.refusal_of(partial(formats.read_permutation, file, text, count))
        if file == "priority":
            count = system_of(self.bench, self.options).count if "matrix" in self.options else count
            return formats.refusal_of(partial(formats.read_permutation, file, text, count))
        readers = {
            "tree": formats.read_tree,
            "workflow": formats.read_workflow,
            "graph": formats.read_graph_of_either_version,
            "order": formats.read_order,
            "plan": self.reader_of_plans(),
            "fences": formats.read_fences,
        }
        return formats.refusal_of(partial(readers[file], text))

    def reader_of_plans(self) -> Callable[[bytes], int]:
        if self.words[0] not in ("check", "upgrade"):
            return formats.read_planned_order
        return formats.read_bounded_plan if self.is_check_of_graph() else formats.read_plan

    def is_check_of_graph(self) -> bool:
        return self.words[0] == "check" and "graph" in self.options

    # ---- reports

    def expect(self, text: str) -> Iterator[str]:
        """The text of the report, and the status that it has."""
        begins = {"no ": NO, "refused bound": BOUND, "refused working-set": WORKING_SET, "refused graph": NOT_SERIES_PARALLEL}
        status = next((status for start, status in begins.items() if text.startswith(start)), DONE)
        if (self.ending.status, self.text) != (status, text):
            yield f"expected {status} {text!r}"

    def file(self, option: str) -> bytes:
        return self.bench.read(self.options[option]) or b""

    def asked_order(self) -> list[int]:
        return self.planned_order()[0] if "plan" in self.options else order_of(self.file("order"))

    def planned_order(self) -> tuple[list[int], list[int]]:
        """The order that a plan of any form gives, and its priority, which only one of version 2 may have."""
        text = self.file("plan")
        if formats.is_json(text):
            return formats.json_value(text)["order"], []
        if formats.is_third(text):
            lines = rows(text)
            return [int(task) for (task,) in lines[2 : int(lines[1][1]) + 2]], []
        plan = plan_of(text)
        return plan.order, plan.priority

    def replay_ends(self) -> Iterator[str]:
        system, order = system_of(self.bench, self.options), self.asked_order()
        yield from self.expect(system.fault(order) or f"peak {system.peak(order)}\n")

    def simulate_ends(self) -> Iterator[str]:
        system, order = system_of(self.bench, self.options), self.asked_order()
        bound = int(self.options["bound"])
        fault = system.fault(order)
        if fault or system.peak(order) > bound:
            yield from self.expect(fault or f"refused bound {bound} {system.peak(order)}\n")
            return
        priority = order
        if "priority" in self.options:
            priority = numbers(self.file("priority"))
        elif "plan" in self.options:
            priority = self.planned_order()[1] or order
        yield from self.expect(Simulation(system, order, priority, bound, int(self.options["workers"])).report())

    def fence_ends(self) -> Iterator[str]:
        if "bound" not in self.options:
            yield from self.wrongs_of_fences(None)
            return
        bound = int(self.options["bound"])
        if not {"order", "plan"} & self.options.keys():
            peak = planned_peak(self.bench.run(["plan", *input_words(self.options)]).report)
            yield from self.expect(f"refused bound {bound} {peak}\n") if peak > bound else self.wrongs_of_fences(bound)
            return
        system, order = system_of(self.bench, self.options), self.asked_order()
        fault = system.fault(order)
        if fault or system.peak(order) > bound:
            yield from self.expect(fault or f"refused bound {bound} {system.peak(order)}\n")
            return
        yield from self.wrongs_of_fences(bound)

    def wrongs_of_fences(self, bound: Optional[int]) -> Iterator[str]:
        """Of a file of fences for a bound, or of one whose fences forbid no run."""
        if self.ending.status != DONE or formats.refusal_of(partial(formats.read_fences, self.ending.report))[1]:
            yield "this is no file of fences"
            return
        made, judge = certificate_of(self.ending.report), self.fence_judge()
        if made.bound != (made.bound if bound is None else bound) or made.workers != int(self.options.get("workers", 0)):
            yield "these are fences for another bound, or other workers"
        if (verdict := judge.verdict(made)) != f"yes {made.bound}\n":
            yield f"the fences have an objection: {verdict}"
        elif bound is None and (forbidding := judge.forbidding(made.fences)):
            yield f"of the tasks as they stand these fences forbid some run: {forbidding}"
        if self.options.get("fewest") == "yes":
            all_words = [f"--{name}={value}" for name, value in self.options.items() if name != "fewest"]
            if not set(made.fences) <= set(certificate_of(self.bench.run(["fence", *all_words]).report).fences):
                yield "these are not some of the fences that there are without --fewest"
        self.bench.write("made", self.ending.report)
        if self.bench.run(["check", *input_words(self.options), "--fences=made"]) != Ending(DONE, verdict.encode(), b""):
            yield "check does not say yes to the fences"

    def fence_judge(self) -> FenceJudge:
        system = system_of(self.bench, self.options)
        return FenceJudge(shared_of(system) if isinstance(system, System) else system)

    def spill_ends(self) -> Iterator[str]:
        system, order = system_of(self.bench, self.options), self.asked_order()
        word = "gaps" if "graph" in self.options else "items"
        text = system.fault(order) or ending_of_spill(Spilling(system, order, int(self.options["bound"])), word, self.text)
        yield from self.expect(text)

    def eliminated(self) -> dict[int, set[int]]:
        """The vertices of the matrix in the order of their elimination, each with those of its column after it."""
        order = numbers(self.file("perm")) if "perm" in self.options else None
        if "iperm" in self.options:
            order = inverse_of(formats.places_of(self.file("iperm"), formats.read_matrix(self.file("matrix"))))
        return later_of(self.file("matrix"), order, self.options.get("ordering") == "mindeg")

    def fronts_ends(self) -> Iterator[str]:
        columns = columns_of(self.eliminated())
        yield from self.expect(fronts_report(columns, int(self.options["bound"]), int(self.options["workers"])))

    def columns_ends(self) -> Iterator[str]:
        zeros = int(self.options["amalgamate"]) if "amalgamate" in self.options else None
        order = self.asked_order() if {"order", "plan"} & self.options.keys() else None
        vertices, fault = vertices_of_fronts(self.eliminated(), zeros, order)
        yield from self.expect(fault or columns_report(vertices, self.options.get("print") == "perm"))
        if fault:
            return
        # of the order that is printed the fronts are the same, before any are merged
        self.bench.write("made", columns_report(vertices, True).encode())
        given = [word for word in input_words(self.options) if word.startswith(("--matrix", "--perm", "--iperm", "--ordering"))]
        new, old = (self.bench.run(["tree", *words]) for words in ([given[0], "--perm=made"], given))
        if new.status != DONE or sorted(line[1:] for line in rows(new.report)[2:-1]) != sorted(line[1:] for line in rows(old.report)[2:-1]):
            yield "in the order that is printed the matrix has other fronts"

    def segments_ends(self) -> Iterator[str]:
        term, places = term_of(self.bench, self.options), places_of(self.bench, self.options)
        parts, lines = parts_of(term), self.text.splitlines()
        if self.ending.status != DONE or (lines[0], lines[-1]) != (f"segments {len(places)}", "end"):
            yield "these are no staircases of as many terms"
            return
        for number, (place, *told) in enumerate(zip(places, lines[1:-1:2], lines[2:-1:2], strict=True), 1):
            part = parts[place - 1]
            system = system_of_term(term[first_position(part) - 1 : place])
            for line, start, direction in zip(told, (part.first, part.last), "FR"):
                head, steps = f"{number} {direction} {start}", steps_of(line)
                if not line.startswith(head) or not is_staircase(steps, start):
                    yield f"{line!r} is no staircase from {head!r}"
                elif min([start, *(level for _, level in steps)]) != part.least:
                    yield f"{line!r} does not come down to {part.least}"
                elif system.count <= FEW and steps != system.staircase(direction == "R"):
                    yield f"expected the steps {system.staircase(direction == 'R')} of {line!r}"

    def carried_order_ends(self) -> Iterator[str]:
        """Of an order of the workflow that `reduce` prints."""
        made, order = self.bench.run(["reduce", f"--graph={self.options['graph']}"]).report, self.asked_order()
        graph, workflow = shared_system_of_graph(self.file("graph")), system_of_workflow(made)
        if fault := workflow.fault(order):
            yield from self.expect(fault)
            return
        names = dict(re.findall(r"^# (\d+) (\d+)$", made.decode(), re.M))
        # what stands behind the tasks of the graph are joins
        told = [name for name in (int(names[str(number)]) for number in order) if name <= graph.count]
        if fault := graph.fault(told):
            yield f"of the graph the order is {fault!r}"
            return
        yield from self.expect("".join([f"peak {graph.peak(told)}\norder {len(told)}\n", *(f"{number}\n" for number in told), "end\n"]))
        if graph.peak(told) > workflow.peak(order):
            yield f"the order has the peak {workflow.peak(order)} in the workflow"

    def reduce_ends(self) -> Iterator[str]:
        (graph, refusal), text = reduction_of(self.file("graph")), self.ending.report
        if refusal:
            yield from self.expect(refusal)
            return
        if {"order", "plan"} & self.options.keys():
            yield from self.carried_order_ends()
            return
        places, names = zip(*re.findall(r"^# (\d+) (\d+)$", self.text, re.M)) if graph.tasks else ((), ())
        if self.ending.status != DONE or formats.refusal_of(partial(formats.read_workflow, text)) != (len(graph.tasks), None):
            yield "this is no workflow of as many tasks"
        elif [int(place) for place in places] != list(range(1, len(graph.tasks) + 1)) or len({*names}) != len(names):
            yield "these are not the names of the tasks"
        else:
            name = [int(name) for name in names]
            lines = [[int(token) for token in tokens[1:]] for tokens in rows(text)[2:-1] if tokens[0] == "task"]
            tasks = [(line[0], line[1] if len(line) == 3 else 0, line[-1]) for line in lines]
            ends = [tuple(0 if task is None else name[task] for task in item[1:]) for item in system_of_workflow(text).items]
            arcs = [(*both, item[0]) for both, item in zip(ends, system_of_workflow(text).items)]
            if tasks != [graph.tasks[number - 1] for number in name] or sorted(arcs) != sorted(graph.arcs):
                yield "the workflow has another system than the graph"

    def graph_plan_ends(self) -> Iterator[str]:
        system, most = shared_system_of_graph(self.file("graph")), None
        if "order" in self.options:
            order = order_of(self.file("order"))
            if fault := system.fault(order):
                yield from self.expect(fault)
                return
            most = system.peak(order)
        text = self.ending.report
        if self.options.get("print") == "json":
            more = [f"--{name}={self.options[name]}" for name in ("graph", "order", "effort") if name in self.options]
            text = self.bench.run(["plan", *more]).report
        if formats.refusal_of(partial(formats.read_bounded_plan, text))[1]:
            yield "this is no plan of version 3"
            return
        plan = bounded_plan_of(text)
        if self.options.get("print") == "json":
            told = json.loads(self.text)
            if [told["order"], told["peak"], told["bound"], list(told["evidence"])] != [list(plan.order), plan.peak, plan.bound, [plan.word]]:
                yield "the JSON has another plan"
        if system.fault(plan.order) or system.peak(plan.order) != plan.peak or plan.bound > plan.peak or (most is not None and plan.peak > most):
            yield f"a plan with the peak {plan.peak} and the bound {plan.bound}, from an order with the peak {most}"
        elif system.count <= FEW and plan.bound > min(map(system.peak, system.traversals())):
            yield f"a bound of {plan.bound}"
        self.bench.write("made", text)
        verdict = f"yes {plan.peak} least\n" if plan.bound == plan.peak else f"yes {plan.peak} above {plan.bound}\n"
        if self.bench.run(["check", f"--graph={self.options['graph']}", "--plan=made"]) != Ending(DONE, verdict.encode(), b""):
            yield "check does not say yes to the plan"

    def plan_ends(self) -> Iterator[str]:
        if "graph" in self.options:
            yield from self.graph_plan_ends()
            return
        words, text = input_words(self.options), self.ending.report
        if self.options.get("print") == "json":
            text = self.bench.run(["plan", *words]).report
            plan = plan_of(text)
            told = {"claims": plan.claims, "order": plan.order, "peak": plan.peak}
            yield from self.expect(json.dumps(told, separators=(",", ":")) + "\n")
        plan, system = plan_of(text), system_of(self.bench, self.options)
        if formats.refusal_of(partial(formats.read_plan, text))[1] or not text.startswith(b"plan 1\n"):
            yield "this is no plan of version 1"
        if said := objection(system, term_of(self.bench, self.options), plan):
            yield f"the plan has an objection: {said}"
        if system.count <= FEW and system.least_peak() != plan.peak:
            yield f"the least peak is {system.least_peak()}"
        self.bench.write("made", text)
        if self.bench.run(["check", *words, "--plan=made"]) != Ending(DONE, f"yes {plan.peak}\n".encode(), b""):
            yield "check does not say yes to the plan"

    def bound_ends(self) -> Iterator[str]:
        system, head = shared_system_of_graph(self.file("graph")), ""
        if "order" in self.options:
            order = order_of(self.file("order"))
            if fault := system.fault(order):
                yield from self.expect(fault)
                return
            head = f"peak {system.peak(order)}\n"
        found = re.fullmatch(f"{head}bound ([0-9]+)\n(.*)end\n", self.text, re.DOTALL)
        if not found:
            yield "this is no bound of the grammar"
            return
        bound, lines = int(found[1]), [line.split() for line in [*found[2].splitlines(), "end"]]
        if said := EvidenceJudge(system).objections(BoundedPlan([], 0, bound, *evidence_of(lines))):
            yield f"the evidence is objected to: {said}"
        needs = [system.memory(0), *map(system.own_need, range(1, system.count + 1))]
        if bound < max(needs) or (system.count <= FEW and bound > min(map(system.peak, system.traversals()))):
            yield f"a bound of {bound}"

    def check_ends(self) -> Iterator[str]:
        if "fences" in self.options:
            yield from self.expect(self.fence_judge().verdict(certificate_of(self.file("fences"))))
            return
        if self.is_check_of_graph():
            plan = bounded_plan_of(self.file("plan"))
            if plan.word != "claims":
                verdicts = EvidenceJudge(shared_system_of_graph(self.file("graph"))).verdicts(plan)
                yield from self.expect(self.text if self.text in verdicts else verdicts[0])
            return
        plan, system = plan_of(self.file("plan")), system_of(self.bench, self.options)
        yield from self.expect(objection(system, term_of(self.bench, self.options), plan) or f"yes {plan.peak}\n")
        if self.ending.status == DONE and plan.peak != plan_of(self.bench.run(["plan", *input_words(self.options)]).report).peak:
            yield "plan finds another peak"

    def tree_ends(self) -> Iterator[str]:
        shared = any(len(tokens) == 5 and tokens[3] != "0" for tokens in rows(self.ending.report)[2:-1])
        if not self.text.startswith(f"tree {2 if shared else 1}\n"):
            yield "the tree is of the other version"
        if refusal := formats.refusal_of(partial(formats.read_tree, self.ending.report))[1]:
            yield f"the tree is refused: {refusal}"
        self.bench.write("made", self.ending.report)
        if self.bench.run(["plan", "--tree=made"]) != self.bench.run(["plan", *input_words(self.options)]):
            yield "the tree has another plan than its matrix"

    def post_ends(self) -> Iterator[str]:
        found = re.fullmatch("peak ([0-9]+)\norder ([0-9]+)\n((?:[0-9]+\n)*)end\n", self.text)
        if not found:
            yield "this is no postorder of the grammar"
            return
        tree = tree_of(self.bench, self.options)
        order, system = [int(line) for line in found[3].split()], system_of_tree(tree)
        if len(order) != int(found[2]) or system.fault(order) or not is_postorder(tree_parents(tree), order):
            yield "this is no postorder"
        elif system.peak(order) != int(found[1]):
            yield f"the postorder has the peak {system.peak(order)}"
        elif system.count <= FEW and system.least_peak() > int(found[1]):
            yield f"the least peak is {system.least_peak()}"

    def demo_ends(self) -> Iterator[str]:
        kind = self.options.get("kind", "tree")
        post = "" if kind == "workflow" else "postorder ([0-9]+)\n"
        found = re.fullmatch(f"demo {kind}\ntasks ([0-9]+)\npositions [0-9]+\npeak ([0-9]+)\n{post}check yes\nend\n", self.text)
        if not found or (post and int(found[3]) < int(found[2])):
            yield "this is no summary"
        elif "tasks" in self.options and int(found[1]) != int(self.options["tasks"]):
            yield "this is a summary of other tasks"

    def upgrade_ends(self) -> Iterator[str]:
        kind = next(name for name in ("tree", "workflow", "graph", "plan") if name in self.options)
        if not self.text.startswith(f"{kind} 2\n"):
            yield f"this is no {kind} of version 2"
        self.bench.write("made", self.ending.report)
        if self.bench.run(["upgrade", f"--{kind}=made"]) != self.ending:
            yield "what was upgraded is not upgraded to the same"
        if kind == "plan":
            old, new = plan_of(self.file("plan")), plan_of(self.ending.report)
            priority = numbers(self.file("priority")) if "priority" in self.options else old.priority
            if new != old._replace(priority=priority):
                yield "the plan is another one"
        elif kind == "graph":
            old, new = shared_system_of_graph(self.file("graph")), shared_system_of_graph(self.ending.report)
            if (new.tasks, new.items) != (old.tasks, old.items):
                yield "the graph is another one"
        elif self.bench.run(["plan", f"--{kind}=made"]) != self.bench.run(["plan", *input_words(self.options)]):
            yield "what was upgraded has another plan"


# ---- spills


def ending_of_spill(spilling: Spilling, word: str, told: str) -> str:
    """What `spill` has to print: the first step that needs too much, or what was told, if that has the least volume and fits; else amounts that do.
    Of a spill it tells amounts of items or of gaps, in this word."""
    if refusal := spilling.working_set():
        return refusal
    amounts = amounts_told(told)
    if sum(amounts.values()) == spilling.least_volume() and spilling.is_plan(amounts):
        return spilling.report(word, amounts)
    return spilling.report(word, spilling.chosen())


def amounts_told(text: str) -> dict[tuple[int, ...], int]:
    """The amounts of a report of `spill`, each by the numbers before it."""
    lines = ([int(token) for token in line.split()] for line in text.splitlines()[2:-1] if re.fullmatch("[0-9 ]+", line))
    return {tuple(names): amount for *names, amount in lines}


# ---- inputs of runs that were accepted


def input_words(options: dict[str, str]) -> list[str]:
    return [f"--{name}={options[name]}" for name in INPUT_OPTIONS if name in options]


def tree_of(bench: Bench, options: dict[str, str]) -> bytes:
    """The text of a tree, or of the fronts of a matrix."""
    if "tree" in options:
        return bench.read(options["tree"]) or b""
    return bench.run(["tree", *input_words(options)]).report


def system_of(bench: Bench, options: dict[str, str]) -> System | SharedSystem:
    if "graph" in options:
        return shared_system_of_graph(bench.read(options["graph"]) or b"")
    if "workflow" in options:
        return system_of_workflow(bench.read(options["workflow"]) or b"")
    return system_of_tree(tree_of(bench, options))


def term_of(bench: Bench, options: dict[str, str]) -> list[tuple[str, list[int]]]:
    if "workflow" in options:
        return term_of_workflow(bench.read(options["workflow"]) or b"")
    return term_of_tree(tree_of(bench, options))


def places_of(bench: Bench, options: dict[str, str]) -> list[int]:
    """The positions of the terms of which `segments` tells: of a workflow all, of a tree those of its nodes' tasks."""
    term = term_of(bench, options)
    if "workflow" in options:
        return list(range(1, len(term) + 1))
    tasks = (position for position, (word, _) in enumerate(term, 1) if word == "task")
    place = dict(zip(postorder_of(children_of(tree_parents(tree_of(bench, options)))), tasks))
    return [place[number] for number in sorted(place)]


def steps_of(line: str) -> list[tuple[int, int]]:
    """The pairs of a line of `segments`."""
    values = [int(token) for token in line.split()[3:]]
    return list(zip(values[::2], values[1::2], strict=True))


def is_staircase(steps: list[tuple[int, int]], start: int) -> bool:
    """Whether bounds rise and levels fall, from the memory at the start on."""
    bounds, levels = [start - 1, *(bound for bound, _ in steps)], [start, *(level for _, level in steps)]
    return all(a < b for a, b in zip(bounds, bounds[1:])) and all(a > b for a, b in zip(levels, levels[1:]))


def is_postorder(parents: list[int], order: list[int]) -> bool:
    """Whether the nodes below each node stand right before it."""
    sizes = [1] * (len(parents) + 1)
    place = {node: at for at, node in enumerate(order)}
    first = dict(place)
    for node in order:
        if place[node] - first[node] + 1 != sizes[node]:
            return False
        if parent := parents[node - 1]:
            sizes[parent] += sizes[node]
            first[parent] = min(first[parent], first[node])
    return True


# ---- outputs that fail


def output_faults(bench: Bench, case: Case, ending: Ending) -> Iterator[str]:
    """Runs the case with a full output and with a closed one."""
    wanted = failed(WRITE_FAULT) if ending.report else ending
    with open("/dev/full", "wb") as full:
        if bench.run(case.words, full.fileno()) != wanted:
            yield "a full output is no write fault"
    reader, writer = os.pipe()
    os.close(reader)
    if bench.run(case.words, writer) != wanted:
        yield "a closed output is no write fault"
    os.close(writer)
