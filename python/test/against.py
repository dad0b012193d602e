"""What random inputs need to be compared with the program: how they are drawn and called, and refusals that say the same."""

from __future__ import annotations

import os
from random import Random
from typing import Any, Callable, Dict, Iterator, List, NamedTuple, Optional, Sequence, Tuple
from unittest import mock

import memplan
from memplan import Blockers, Claims, Fences, Need, Plan, Readers, Refused, Segments, TaskRefused
from memplan._refusals import _OF_LIBRARY
from samples import Case, numpy
from works import Drawn, Told, listed, program, run

INPUTS = int(os.environ.get("MEMPLAN_INPUTS", "200"))
"""How many random inputs there are of all kinds together."""

SEED = os.environ.get("MEMPLAN_SEED", "1")


class Named:
    """One work in each of the ways in which its tasks may be called, and from a task as it is called back to its number."""

    def __init__(self, work: Any, names: List[Any]) -> None:
        self.work = work
        self.names = names
        self.number = {name: at for at, name in enumerate(names, 1)}

    def told(self, numbers: List[int]) -> List[Any]:
        return [self.names[number - 1] for number in numbers]

    def numbers(self, tasks: Any) -> List[int]:
        return [self.number[task] for task in (tasks if isinstance(tasks, list) else tasks.tolist())]


def ways(kind: Callable[..., Any], drawn: Drawn, draw: Random) -> Named:
    """From 1, from 0, or by names."""
    count, columns, way = len(drawn.before), dict(drawn.columns), draw.randrange(3)
    base, names = (0, list(range(count))) if way == 1 else (1, list(range(1, count + 1)))
    if way == 1:
        if "parent" in columns:
            columns["parent"] = [parent - 1 for parent in columns["parent"]]
        if "items" in columns:
            columns["items"] = [(size, None if p == 0 else p - 1, {it - 1 for it in readers}) for size, p, readers in columns["items"]]
    if way == 2:
        names = [draw.choice([f"align_{at}", (at, "part")]) for at in range(count)]
    return Named(kind(**columns, base=base, **({"names": names} if way == 2 else {})), names)


def given(draw: Random, values: Sequence[int]) -> Any:
    """The numbers as a caller may have them."""
    kinds: List[Any] = [list, tuple]
    if numpy:
        kinds += [lambda them, kind=kind: numpy.array(them, kind) for kind in ("int64", "uint32", ">i8", "uint64", "object")]
        kinds += [lambda them: numpy.array([[it, 7] for it in them], "int64").reshape(-1, 2)[:, 0]]
    return draw.choice(kinds)(values)


def simulated(core: memplan.Core, order: Sequence[int], times: Sequence[int], workers: int) -> str:
    """The report of a run of tasks by a core, which start in the places of the order, as FORMATS says under 'Simulated runs'."""
    events: List[str] = []
    due: Dict[int, int] = {}
    waiting: List[int] = []  # activated, in the order's places
    time, used, booked = 0, core.used, core.booked

    def note(what: str, task: int) -> None:
        nonlocal used, booked
        events.append(f"{time} {what} {task}\n")
        used, booked = max(used, core.used), max(booked, core.booked)

    while True:
        for task in [it for it in order if due.get(it) == time]:
            assert core.finish(task) and core.is_done(task)
            del due[task]
            note("finish", task)
        while task := core.activate():
            waiting.append(task)
            note("activate", task)
        assert core.next() == next((it for it in waiting if core.is_startable(it)), 0)
        for task in list(waiting):
            if len(due) < workers and core.is_startable(task):
                assert core.start(task) and not core.start(task)
                waiting.remove(task)
                due[task] = time + times[task - 1]
                note("start", task)
        if not due:
            return f"makespan {time}\nused {used}\nbooked {booked}\nevents {len(events)}\n{''.join(events)}end\n"
        time = min(due.values())


class Input(NamedTuple):
    """A random work, how it is called, an order of it, and where further numbers are drawn."""

    drawn: Drawn
    it: Named
    order: List[int]
    draw: Random


class Against(Case):
    """What the program prints is made again from what a call or a method gives."""

    option: str
    case = ""

    @classmethod
    def setUpClass(cls) -> None:
        """The program is asked by the methods as by the tests, where one run answers both."""
        patch = mock.patch("memplan._work.run", run)
        patch.start()
        cls.addClassCleanup(patch.stop)

    def draws(self, share: int) -> Iterator[Random]:
        """For each of so many hundredths of the inputs where its numbers are drawn."""
        for at in range(INPUTS * share // 100):
            self.case = f"{self.option} {SEED} {at}"
            yield Random(self.case)

    def _formatMessage(self, msg: Any, standardMsg: str) -> str:
        return f"{super()._formatMessage(msg, standardMsg)}\n{self.case}"

    def says_of(self, text: str, command: str, *words: object, **files: str) -> Told:
        return program(command, *words, **{self.option: text, **files})

    def refused_alike(self, call: Any, told: Any, wanted: Told, of: Sequence[int] = (), it: Optional[Named] = None) -> None:
        """The call is refused just where the program refuses, with its status, its numbers, and of an order with the task's name."""
        try:
            call(*told)
        except Refused as refusal:
            first = wanted.report.split("\n")[0].split()
            self.assertEqual(refusal.status, wanted.status)
            numbers = [int(token) for token in first if token.isdigit()]
            if wanted.status in (3, 4):  # the program tells a line, and the library a place
                self.assertEqual(_OF_LIBRARY[refusal.kind].reason, first[3], wanted)
                return
            self.assertTrue({refusal.at, refusal.value} - {0} <= set(numbers), (first, refusal.at, refusal.value))
            reason = refusal.reason if isinstance(refusal, TaskRefused) else _OF_LIBRARY[refusal.kind].reason
            self.assertIn(reason, " ".join(token for token in first if not token.isdigit()) + " working-set" * (refusal.status == 10))
            if it is not None and first[1] == "order":
                at = numbers[0] - 1
                task = it.names[of[at] - 1] if at < len(of) and of[at] < 99 else None
                self.assertEqual(getattr(refusal, "task", None), task)
        else:
            self.assertEqual(wanted.status, 0, wanted)

    # Methods that all works have

    def check_common(self, one: Input) -> None:
        drawn, it, order, draw = one
        self.assertEqual(it.work.names, it.names)
        peak = it.work.replay(it.told(order))
        self.assertEqual(f"peak {peak}\n", self.says_of(drawn.text, "replay", order=listed(order)).report)
        bound, workers = peak + draw.choice([0, 3, 50]), draw.randint(1, 4)
        self.check_run(one, bound, workers)
        self.check_fences(one, bound, draw.choice([None, workers]))
        self.check_wrong(one, peak)

    def check_run(self, one: Input, bound: int, workers: int) -> None:
        drawn, it, order, draw = one
        ranked = draw.sample(order, len(order))
        priority, files = draw.choice([(None, {}), (it.told(ranked), {"priority": listed(ranked)})])
        ran = it.work.simulate(it.told(order), bound, workers, priority)
        events = [f"{time} {what} {task}\n" for time, what, task in zip(ran.time, ran.what, it.numbers(ran.task))]
        head = f"makespan {ran.makespan}\nused {ran.used}\nbooked {ran.booked}\nevents {len(events)}\n"
        wanted = self.says_of(drawn.text, "simulate", "--bound", bound, "--workers", workers, order=listed(order), **files)
        self.assertEqual(head + "".join(events) + "end\n", wanted.report)

    def check_fences(self, one: Input, bound: int, workers: Optional[int]) -> None:
        drawn, it, order, _ = one
        fences: Fences = it.work.fence(it.told(order), bound, workers)
        words = () if workers is None else ("--workers", workers)
        wanted = self.says_of(drawn.text, "fence", "--bound", bound, *words, order=listed(order)).report
        self.assertEqual(self.fences_text(it, fences), wanted)
        it.work.check_fences(fences)
        if len(fences.amounts):
            wrong = fences._replace(amounts=[*map(int, fences.amounts[:-1]), 2**61])
            said = self.says_of(drawn.text, "check", fences=self.fences_text(it, wrong))
            self.refused_alike(it.work.check_fences, (wrong,), said)

    def check_wrong(self, one: Input, peak: int) -> None:
        """Orders that are none, and a bound below the peak."""
        drawn, it, order, draw = one
        told = it.told(order), peak - 1, 2
        if peak:
            said = self.says_of(drawn.text, "simulate", "--bound", peak - 1, "--workers", 2, order=listed(order))
            self.refused_alike(it.work.simulate, told, said)
            said = self.says_of(drawn.text, "fence", "--bound", peak - 1, order=listed(order))
            self.refused_alike(it.work.fence, told[:2], said)
        wrong = wrong_order(draw, order)
        named = [it.names[task - 1] if task < 99 else 99 for task in wrong]
        said = self.says_of(drawn.text, "replay", order=listed(wrong))
        self.refused_alike(it.work.replay, (named,), said, wrong, it)

    # Texts

    def fences_text(self, it: Named, fences: Fences) -> str:
        joins = {join: len(it.names) + at for at, join in enumerate(fences.joins, 1)}
        pairs = [(joins[a] if isinstance(a, Readers) else it.number[a], it.number[b]) for a, b in fences.pairs]
        return (
            f"fences 1\nbound {fences.bound}\nworkers {fences.workers or 0}\nroom {fences.room}\njoins {len(joins)}\n"
            + listed([join.item + 1 for join in joins])
            + f"fences {len(pairs)}\n"
            + listed([f"{a} {b}" for a, b in pairs])
            + f"amounts {len(fences.amounts)}\n{listed(list(map(int, fences.amounts)))}end\n"
        )

    def plan_text(self, it: Named, plan: Plan, version: int) -> str:
        """Of a plan without a ranking."""
        lines = [f"plan {version}", f"order {len(plan.order)}", *map(str, it.numbers(plan.order)), f"peak {plan.peak}"]
        lines += [f"bound {plan.bound}"] if version == 3 else []
        evidence = plan.evidence
        if isinstance(evidence, Need):
            lines.append(f"need {0 if evidence.task is None else it.number[evidence.task]}")
        elif isinstance(evidence, Blockers):
            lines += [f"{'last' if evidence.last else 'first'} {len(evidence.blockers)}", f"base {len(evidence.base)}"]
            lines += [f"{use} {amount}" for use, amount in evidence.base]
            for task, amounts in evidence.blockers:
                lines += [f"blocker {it.number[task]} {len(amounts)}", *(f"{use} {amount}" for use, amount in amounts)]
        elif isinstance(evidence, Claims):
            lines += claim_lines([*zip(*evidence)])
        else:
            assert evidence is not None
            lines.append(f"states {evidence.many}")
        return "\n".join([*lines, "end", ""])

    def segments_text(self, segments: List[Segments]) -> str:
        lines = [f"segments {len(segments)}"]
        for number, it in enumerate(segments, 1):
            for letter, stairs in (("F", it.forward), ("R", it.backward)):
                lines.append(" ".join(map(str, [number, letter, stairs.level, *(n for step in stairs.steps for n in step)])))
        return "\n".join([*lines, "end", ""])


def claim_lines(claims: Sequence[Tuple[int, int, int, int]]) -> List[str]:
    return [f"claims {len(claims)}", *(f"{p} {'FR'[b]} {bound} {rest}" for p, b, bound, rest in claims)]


def wrong_order(draw: Random, order: List[int]) -> List[int]:
    """Of a few tasks it may be right by chance."""
    return draw.choice([order[::-1], order[1:], [*order, *order[:1]], [*order[:2], 99, *order[2:]]])


def spill_text(volume: int, amounts: Sequence[int], word: str = "items") -> str:
    lines = [f"{place} {amount}" for place, amount in enumerate(amounts, 1) if amount]
    return f"volume {volume}\n{word} {len(lines)}\n{listed(lines)}end\n"
