"""Simulated runs, from what `simulate` prints."""
from typing import NamedTuple

import numpy as np
from memplan import Simulation
from memplan._plot_run import ACTIVATE, FINISH, START, WORDS, Events, firsts_of, levels_of

from .system import Read
from .text import TOO_LARGE, Refusal, text_of

REPORT = "what `simulate` prints, whose first line is 'makespan' and a number"


class Run(NamedTuple):
    """A report of `simulate`: its head, and of each event the time, the word and the task."""

    name: str
    makespan: int
    used: int
    booked: int
    times: np.ndarray
    words: np.ndarray
    tasks: np.ndarray

    @property
    def events(self) -> Events:
        return Events(self.times, self.words, self.tasks)


def run_of(name: str) -> Run:
    text = text_of(name, REPORT)
    makespan = text.expect_word(0, "makespan", REPORT)
    used, booked, count = (
        text.expect_word(row, word, f"'{word}' and a number")
        for row, word in enumerate(("used", "booked", "events"), 1)
    )
    # more than there are rows is as good as one more
    count = min(count, text.count)
    told = "an event, 'TIME activate TASK', 'TIME start TASK' or 'TIME finish TASK'"
    tokens = text.expect_widths(4, count, 3, told)
    times, tasks = text.values(tokens), text.values(tokens + 2)
    are = [text.are(tokens + 1, word) for word in WORDS]
    text.expect_all(4, (np.minimum(times, tasks) >= 0) & np.any(are, axis=0), told)
    text.expect_end(4 + count)
    text.expect_all(4, np.diff(times, prepend=0) >= 0, "a time that is not before the last one")
    if makespan != int(times.max(initial=0)) or makespan == TOO_LARGE:
        text.refuse(0, f"the time of the last event, {int(times.max(initial=0))}")
    return Run(text.name, makespan, used, booked, times, np.argmax(are, axis=0), tasks)


def refuse_run(run: Run, read: Read, event: int) -> None:
    told = f"{run.times[event]} {WORDS[run.words[event]]} {run.tasks[event]}"
    expected = f"expected a run of {read.name}, each task activated, started and finished once"
    raise Refusal(run.name, f"{expected}, its time later; found '{told}'", 5 + event)


def expect_run(run: Run, read: Read) -> None:
    """Refuses what is no run of these tasks, at its first wrong event."""
    count = read.count
    if (wrong := (run.tasks < 1) | (run.tasks > count)).any():
        refuse_run(run, read, int(np.argmax(wrong)))
    firsts = firsts_of(run.events, count)
    if (again := firsts[run.words, run.tasks - 1] != np.arange(len(run.times))).any():
        refuse_run(run, read, int(np.argmax(again)))
    if len(run.times) != 3 * count:
        told = f"expected {3 * count} events, as {read.name} has {count} tasks"
        raise Refusal(run.name, f"{told}; found {len(run.times)}", 4)
    lengths = run.times[firsts[FINISH]] - run.times[firsts[START]]
    is_right = (firsts[ACTIVATE] < firsts[START]) & (firsts[START] < firsts[FINISH])
    if not (is_right := is_right & (lengths == read.system.times)).all():
        refuse_run(run, read, int(firsts[FINISH, np.argmin(is_right)]))


def expect_levels(run: Run, read: Read) -> None:
    levels = levels_of(read.system, run.events)
    for line, (word, them) in enumerate(zip(("used", "booked"), levels), 2):
        stated, found = getattr(run, word), int(them.max())
        if stated != found:
            told = f"expected a run of {read.name}, with '{word} {found}'; found {stated}"
            raise Refusal(run.name, told, line)


def simulation_of(name: str, read: Read) -> Simulation:
    run = run_of(name)
    expect_run(run, read)
    expect_levels(run, read)
    words = [WORDS[word] for word in run.words.tolist()]
    return Simulation(run.makespan, run.used, run.booked, run.times, words, run.tasks)
