#!/usr/bin/env python3
"""Asks `fence` for fences of random small inputs, and `check` for its verdict on fence files, and compares all with all parallel runs.

usage: fences.py [PROGRAM] [--inputs N] [--first N] [--seed S] [--jobs J] [--keep FOLDER]      (PROGRAM is crates/memplan/out/memplan)

An input is mostly a task graph of version 2, with at most seven tasks and some items, each with any number of readers; else a tree or a workflow. The
seed and the number of an input make it. Of each it asks:

- at a bound from the peak of an order on, `fence` prints a file that the plain judge of certificates.py accepts, with this bound and for as many
  workers; the order keeps to its fences; and there are none where the bound has room for what all tasks need together;
- of the tasks as they stand `fence` prints a file that the plain judge accepts too, for as many workers: no moment of a run without fences uses more
  than its bound, and some moment uses all of it, if they are for any number of workers and no item has several readers; and its fences leave all
  moments;
- below the peak it tells the peak, and of a list that is no traversal the first fault;
- without an order it does so by the peak of what `plan` prints, which is no lower than the least peak of all orders;
- of such files, of random ones, and of those where an amount, a fence, a join, the bound, the workers or their room is changed, `check` says what
  the plain judge says;
- no moment of a parallel run that keeps to the fences of an accepted file uses more than its bound, on no more workers than it says, and none is
  a stop: all moments are looked at; where the bound alone is too low, they are compared with what the amounts certify;
- a file that is changed in a few bytes, tokens or lines is refused as the plain reader refuses it, or judged as what it says.

Without PROGRAM the judge alone is asked, of random files. It prints how many inputs and files were tried, and for how many of those accepted some
moment uses all of the bound, and the same of the bounds of tasks as they stand. An input that is wrong is kept in FOLDER, and the status is then 1.
"""
import argparse
import json
import multiprocessing
import random
import sys
import tempfile
from collections.abc import Callable, Generator, Iterator
from pathlib import Path
from typing import NamedTuple, Optional

import formats
from bench import BOUND, DONE, FORMAT, LIMIT, NO, Bench, Ending, told
from certificates import MOST_AMOUNT, MOST_HANDED_ON, Certificate, Judge, Moments, certificate_of, text_of
from models import SharedSystem, System, planned_peak, shared_of, shared_system_of_graph, system_of_tree, system_of_workflow
from random_files import (
    changed,
    listed,
    random_certificate,
    random_forked_graph,
    random_layered_graph,
    random_shared_graph,
    random_traversal,
    random_tree,
    random_workflow,
)
from shared import no_traversal

# An input has no more tasks than these.
MOST = 7


class Result(NamedTuple):
    """An input that was tried: how many files were accepted and how many not, of how many all of the bound is used, how many bounds there were of the
    tasks as they stand, of how many all is used, the runs that it took, and what was wrong."""

    accepted: int
    refused: int
    met: int
    standing: int
    reached: int
    runs: int
    wrongs: list[str]


class Input(NamedTuple):
    """The option that names it, its file and its system."""

    option: str
    text: bytes
    system: SharedSystem


def random_input(draw: random.Random) -> Input:
    kind = draw.randrange(8)
    if kind == 0:
        return small_input(draw, "--tree", random_tree, system_of_tree)
    if kind == 1:
        return small_input(draw, "--workflow", random_workflow, system_of_workflow)
    text = draw.choice([random_shared_graph, random_forked_graph, random_layered_graph])(draw)
    return Input("--graph", text, shared_system_of_graph(text))


def small_input(draw: random.Random, option: str, random_text: Callable[[random.Random], bytes], system_of: Callable[[bytes], System]) -> Input:
    while True:
        text = random_text(draw)
        system = system_of(text)
        if system.count <= MOST:
            return Input(option, text, shared_of(system))


class Trial:
    """A random input, and what is asked of it."""

    def __init__(self, draw: random.Random, bench: Optional[Bench]) -> None:
        self.draw, self.bench = draw, bench
        self.option, self.text, self.system = random_input(draw)
        self.judge = Judge(self.system)
        self.order = random_traversal(draw, self.system)
        self.peak = self.system.peak(self.order)
        self.accepted = self.refused = self.met = self.standing = self.reached = 0
        # by fences and workers
        self.moments: dict[tuple[frozenset[tuple[int, int]], int], Moments] = {}

    def wrongs(self) -> Iterator[str]:
        if self.bench:
            self.bench.write("i", self.text)
            self.bench.write("o", listed(self.draw, self.order))
        for _ in range(4):
            yield from self.wrongs_of_file(text_of(random_certificate(self.draw, self.judge)))
        if self.bench:
            yield from self.wrongs_of_refusals()
            for workers in (0, self.draw.randint(1, 4)):
                yield from self.wrongs_of_standing(workers)
                yield from self.wrongs_of_planned(workers)
                for bound in (self.peak, self.peak + self.draw.randint(1, self.peak + 3)):
                    yield from self.wrongs_of_fence(bound, workers)

    # ---- what `fence` prints

    def fence(self, bound: Optional[int], workers: int, order: Optional[str] = "o") -> Ending:
        """Along the order of a file within a bound, or with none along one that is planned; or with no bound of the tasks as they stand."""
        within = ["--bound", str(bound), *(["--order", order] if order else [])] if bound is not None else []
        return self.bench.run(["fence", self.option, "i", *within, *(["--workers", str(workers)] if workers else [])])

    def wrongs_of_standing(self, workers: int) -> Iterator[str]:
        found = self.fence(None, workers)
        _, refusal = formats.refusal_of(lambda: formats.read_fences(found.report))
        if found.status != DONE or found.complaint or refusal:
            yield f"fence for {workers} workers: {found}, {refusal}"
            return
        certificate, free = certificate_of(found.report), self.moments_of([], workers)
        if text_of(certificate) != found.report:
            yield f"fence prints no plain text: {found}"
        if certificate.workers != workers or not self.judge.verdict(certificate).startswith("yes"):
            yield f"fence for {workers} workers: {certificate}, of which the judge says {self.judge.verdict(certificate)}"
            return
        is_least = not workers and not self.judge.joins
        if certificate.bound < free.most_used or is_least and certificate.bound > free.most_used:
            yield f"some moment uses {free.most_used}, and none uses more, for {workers} workers: {certificate}"
        if self.moments_of(certificate.fences, workers).count != free.count or self.judge.forbidding(certificate.fences):
            yield f"fences forbid some run for {workers} workers: {self.judge.forbidding(certificate.fences)} of {certificate}"
        self.standing, self.reached = self.standing + 1, self.reached + (certificate.bound == free.most_used)
        yield from self.wrongs_of_file(found.report)

    def wrongs_of_refusals(self) -> Iterator[str]:
        workers = self.draw.randint(0, 3)
        if self.peak:
            bound = self.draw.choice([0, self.peak - 1, self.draw.randrange(self.peak)])
            found = self.fence(bound, workers)
            if found != Ending(BOUND, f"refused bound {bound} {self.peak}\n".encode(), b""):
                yield f"fence within {bound}, where the peak is {self.peak}: {found}"
        other = no_traversal(self.draw, self.system)
        self.bench.write("o", listed(self.draw, other))
        found = self.fence(self.draw.choice([0, self.peak, 2**64 - 1]), workers)
        if found != Ending(NO, self.system.fault(other).encode(), b""):
            yield f"fence along {other}: {found}"
        self.bench.write("o", listed(self.draw, self.order))

    def wrongs_of_planned(self, workers: int) -> Iterator[str]:
        """Along an order that is planned, within a bound round the least peak of all orders."""
        least = min(map(self.system.peak, self.system.traversals()))
        bound = max(0, least + self.draw.choice([-1, -1, 0, 0, 1, least]))
        found, peak = self.fence(bound, workers, None), planned_peak(self.bench.run(["plan", self.option, "i"]).report)
        if peak < least:
            yield f"the plan has the peak {peak}, and no order has one below {least}"
        elif peak <= bound:
            yield from self.printed_fences(found, bound, workers)
        elif found != Ending(BOUND, f"refused bound {bound} {peak}\n".encode(), b""):
            yield f"fence within {bound}, where the plan has the peak {peak}: {found}"

    def printed_fences(self, found: Ending, bound: int, workers: int) -> Generator[str, None, Optional[Certificate]]:
        """What is wrong with a file of fences within a bound, and its certificate if the judge accepts it."""
        _, refusal = formats.refusal_of(lambda: formats.read_fences(found.report))
        if found.status != DONE or found.complaint or refusal:
            yield f"fence within {bound} for {workers} workers: {found}, {refusal}"
            return None
        certificate = certificate_of(found.report)
        if text_of(certificate) != found.report:
            yield f"fence prints no plain text: {found}"
        if (certificate.bound, certificate.workers) != (bound, workers) or not self.judge.verdict(certificate).startswith("yes"):
            yield f"fence within {bound} for {workers} workers: {certificate}, of which the judge says {self.judge.verdict(certificate)}"
            return None
        yield from self.wrongs_of_file(found.report)
        return certificate

    def wrongs_of_fence(self, bound: int, workers: int) -> Iterator[str]:
        found = self.fence(bound, workers)
        certificate = yield from self.printed_fences(found, bound, workers)
        if certificate is None:
            return
        if certificate.fences and not workers and bound >= self.system.memory(0) + sum(self.system.needs):
            yield f"fences where there is room for all tasks at once, within {bound}: {certificate}"
        for other in self.changes(certificate):
            yield from self.wrongs_of_file(text_of(other))
        yield from self.wrongs_of_file(changed(self.draw, found.report))

    def moments_of(self, fences: list[tuple[int, int]], workers: int) -> Moments:
        key = frozenset(fences), workers
        if key not in self.moments:
            self.moments[key] = Moments(self.system, fences, workers)
        return self.moments[key]

    def wrongs_of_file(self, text: bytes) -> Iterator[str]:
        """How `check` ends is how the reader and the judge say; and the moments keep within what was accepted, or what is certified."""
        _, refusal = formats.refusal_of(lambda: formats.read_fences(text))
        if refusal:
            wanted = Ending(FORMAT if refusal.startswith("format") else LIMIT, f"refused {refusal}\n".encode(), b"")
        else:
            verdict = self.judge.verdict(certificate_of(text))
            wanted = Ending(DONE if verdict.startswith("yes") else NO, verdict.encode(), b"")
            yield from self.wrongs_of_moments(certificate_of(text), verdict)
        self.accepted, self.refused = self.accepted + (wanted.status == DONE), self.refused + (wanted.status != DONE)
        if self.bench:
            self.bench.write("f", text)
            found = self.bench.run(["check", self.option, "i", "--fences", "f"])
            if found != wanted:
                yield f"check: {found} in place of {wanted} of {text!r}"

    def wrongs_of_moments(self, certificate: Certificate, verdict: str) -> Iterator[str]:
        is_yes = verdict.startswith("yes")
        if not is_yes and not verdict.startswith("no bound "):
            return
        most = certificate.bound if is_yes else int(verdict.split()[2]) + certificate.workers * certificate.room
        moments = self.moments_of(certificate.fences, certificate.workers)
        self.met += is_yes and moments.most_used == most
        if moments.most_used > most:
            yield f"a moment uses {moments.most_used}, and {most} is certified by {certificate}"
        if moments.stop is not None:
            yield f"a run stops where the tasks of the set {moments.stop:b} are done: {certificate}"

    def changes(self, certificate: Certificate) -> Iterator[Certificate]:
        """The certificate with an amount, a fence, a join, the bound, the workers or their room changed."""
        draw, (bound, workers, room, joins, fences, amounts) = self.draw, certificate
        yield certificate._replace(bound=max(0, bound - 1))
        yield certificate._replace(bound=draw.choice([0, workers * room, draw.randint(0, bound), 2**64 - 1]))
        for other in (workers + 1, draw.randint(1, 4)):
            yield certificate._replace(workers=other)
        yield certificate._replace(workers=workers or 1, room=max(0, room - 1))
        yield certificate._replace(workers=workers or 1, room=draw.choice([room + 1, bound, 2**64 - 1]))
        if joins:
            place = draw.randrange(len(joins))
            yield certificate._replace(joins=joins[:place] + joins[place + 1 :])
            yield certificate._replace(joins=draw.choice([joins[::-1], [*joins, joins[-1]], [*joins[:-1], joins[-1] + draw.choice([-1, 1]) or 9]]))
        for other in self.changed_amounts(amounts):
            yield certificate._replace(amounts=other)
        yield from self.changed_fences(certificate)

    def changed_amounts(self, amounts: list[int]) -> Iterator[list[int]]:
        draw = self.draw
        yield [*amounts, 0]
        for _ in range(3 if amounts else 0):
            place, other = draw.randrange(len(amounts)), draw.randrange(len(amounts))
            yield with_more(amounts, place, -1)
            yield with_more(with_more(amounts, place, 1), other, -1)
            moved = draw.randint(0, amounts[place])
            yield with_more(with_more(amounts, place, -moved), other, moved)
        if amounts:
            place = draw.randrange(len(amounts))
            yield amounts[:place] + amounts[place + 1 :]
            yield with_more(amounts, place, draw.choice([MOST_AMOUNT - amounts[place], MOST_AMOUNT + 1, MOST_HANDED_ON, 2**64 - 1]) - amounts[place])
            yield [min(MOST_AMOUNT, max(amount, MOST_AMOUNT - draw.randint(0, 1))) for amount in amounts]

    def changed_fences(self, certificate: Certificate) -> Iterator[Certificate]:
        draw, count, fences, amounts = self.draw, self.judge.count, certificate.fences, certificate.amounts
        links = len(self.judge.links)
        for place in draw.sample(range(len(fences)), min(3, len(fences))):
            fewer, (start, end) = fences[:place] + fences[place + 1 :], fences[place]
            yield certificate._replace(fences=fewer)
            yield certificate._replace(fences=fewer, amounts=amounts[: links + place] + amounts[links + place + 1 :])
            yield certificate._replace(fences=fences[:place] + [(end, start)] + fences[place + 1 :])
            yield certificate._replace(fences=fences[:place] + [(draw.randint(1, max(count, 1)), end)] + fences[place + 1 :])
            # a circle
            yield certificate._replace(fences=[*fences, (end, start)], amounts=[*amounts, 0])
        waits = [(start, end) for _, start, end in self.judge.links if start and end]
        if waits:
            start, end = draw.choice(waits)
            yield certificate._replace(fences=[*fences, (end, start)], amounts=[*amounts, 0])
        for _ in range(2):
            more = draw.choice([draw.randint(0, count + 1), count + 1, 2**32 - 1]), draw.randint(0, count + 1)
            yield certificate._replace(fences=[*fences, more], amounts=[*amounts, 0])
            yield certificate._replace(fences=[more, *fences], amounts=[*amounts[:links], 0, *amounts[links:]])


def with_more(amounts: list[int], place: int, more: int) -> list[int]:
    """With so much more at a place, and no less than 0."""
    return [*amounts[:place], max(0, amounts[place] + more), *amounts[place + 1 :]]


class Worker:
    """Tries inputs of a seed in a folder of its own."""

    def __init__(self, program: Optional[Path], seed: int, keep: Path) -> None:
        self.program, self.seed, self.keep = program, seed, keep
        # made in the process that tries the inputs
        self.home: Optional[tempfile.TemporaryDirectory] = None
        self.bench: Optional[Bench] = None

    def set_up(self) -> None:
        self.home = tempfile.TemporaryDirectory()
        if self.program:
            self.bench = Bench(self.program, Path(self.home.name) / "files")
            self.bench.put({})

    def __call__(self, number: int) -> Result:
        if self.home is None:
            self.set_up()
        before = self.bench.runs if self.bench else 0
        trial = Trial(random.Random(f"{self.seed} {number}"), self.bench)
        wrongs = told(trial.wrongs())
        if wrongs:
            folder = self.keep / str(number)
            folder.mkdir(parents=True, exist_ok=True)
            (folder / "i").write_bytes(trial.text)
            (folder / "case.json").write_text(json.dumps({"option": trial.option, "wrong": wrongs}, indent=1) + "\n")
        runs = self.bench.runs - before if self.bench else 0
        return Result(trial.accepted, trial.refused, trial.met, trial.standing, trial.reached, runs, wrongs)


def arguments() -> argparse.Namespace:
    parser = argparse.ArgumentParser(description=__doc__, formatter_class=argparse.RawDescriptionHelpFormatter)
    parser.add_argument("program", type=Path, nargs="?")
    parser.add_argument("--inputs", type=int, default=5000)
    parser.add_argument("--first", type=int, default=1, help="the number of the first input")
    parser.add_argument("--seed", type=int, default=1)
    parser.add_argument("--jobs", type=int, default=2)
    parser.add_argument("--keep", type=Path, default=Path("wrong-fences"))
    return parser.parse_args()


def main() -> int:
    given = arguments()
    worker = Worker(given.program and given.program.resolve(), given.seed, given.keep.resolve())
    results: list[Result] = []
    with multiprocessing.Pool(given.jobs) as pool:
        for result in pool.imap(worker, range(given.first, given.first + given.inputs), chunksize=10):
            for wrong in result.wrongs:
                print(f"input {given.first + len(results)}: {wrong}", flush=True)
            results.append(result)
    accepted, refused, met, standing, reached, runs = (sum(counts) for counts in zip(*(result[:6] for result in results)))
    wrong = sum(1 for result in results if result.wrongs)
    files = f"{accepted} files accepted, of {met} some moment uses all of the bound; {refused} files not accepted"
    files = f"{files}; {standing} bounds of tasks as they stand, all of {reached} used"
    print(f"{len(results)} inputs; {files}; {runs} runs of the program; {wrong} inputs wrong")
    return 1 if wrong else 0


if __name__ == "__main__":
    sys.exit(main())
