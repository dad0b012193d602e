"""Runs of programs, what they took, and a store of it, so that a run that was stopped goes on."""
import json
import subprocess
from collections.abc import Collection
from pathlib import Path
from typing import NamedTuple, Optional

# How much of a first line is kept as what a program said.
MOST_SAID = 80

# A row has two turns; and further ones, while it has taken no more seconds of processor time than
# these for each turn that is asked for.
LONG_TURN = 4

# The status that the meter tells for a program that was killed, as after the limit; and that of
# memplan for words that it does not know.
KILLED, USAGE = -1, 2


class Figure(NamedTuple):
    """What a program took: its status, milliseconds of processor time and by the clock, MB of
    memory at its peak, and the line of its output that tells its result."""

    status: int
    cpu: float
    clock: float
    memory: float
    said: str

    @property
    def is_done(self) -> bool:
        return self.status == 0

    @property
    def counts(self) -> bool:
        """Whether it is what the program took for its whole work."""
        return self.status not in (KILLED, USAGE)


class Side(NamedTuple):
    """A program beside others: its name in the table, its words, and how it must end."""

    name: str
    words: list[str]
    status: int = 0


def told(output: Path) -> str:
    """The result in an output: its line `peak ..`, or the beginning of its first one."""
    with open(output, encoding="ascii", errors="replace") as text:
        first = text.readline(MOST_SAID).strip()
        if first.startswith("plan"):
            return next((line.strip() for line in text if line.startswith("peak")), "")
    return first


class Bench:
    """Measures rows of sides in turn, and keeps what it measured in a file."""

    def __init__(self, folder: Path, turns: int, limit: int) -> None:
        self.folder, self.turns, self.limit = folder, turns, limit
        self.store = folder / "figures.json"
        self.meter = folder / "meter"
        found = json.loads(self.store.read_text()) if self.store.exists() else {}
        self.figures = {key: Figure(*it) for key, it in found.items()}

    def output(self, name: str) -> Path:
        return self.folder / f"{name}.output"

    def run(self, side: Side) -> Figure:
        words = [str(self.meter), str(self.limit), str(self.output(side.name)), *side.words]
        done = subprocess.run(words, capture_output=True, text=True, stdin=subprocess.DEVNULL)
        if done.returncode != 0:
            raise SystemExit(f"the meter failed: {' '.join(words)}")
        status, cpu, clock, memory = map(int, done.stdout.split())
        said = told(self.output(side.name)) if status >= 0 else ""
        return Figure(status, cpu / 1000, clock / 1000, memory / 1024, said)

    def measure(
        self,
        row: str,
        sides: list[Side],
        turns: Optional[int] = None,
        same: Collection[str] = (),
    ) -> list[Figure]:
        """The figures of all sides: of each the least of some turns, which they take in turn.
        Sides of which it is said that they print the same have to, where they come to an end."""
        keys = [f"{row}: {side.name}" for side in sides]
        if not all(key in self.figures for key in keys):
            print(f"  {row}: {'; '.join(side.name for side in sides)}", flush=True)
            tries = self.in_turn(sides, turns or self.turns)
            alike = [it.name for it in sides if it.name in same and tries[it.name][-1].is_done]
            if len({self.output(name).read_bytes() for name in alike}) > 1:
                raise SystemExit(f"{row}: {', '.join(alike)} print different texts")
            for key, side in zip(keys, sides):
                self.figures[key] = self.least(row, side, tries[side.name])
            self.keep()
        return [self.figures[key] for key in keys]

    def in_turn(self, sides: list[Side], turns: int) -> dict[str, list[Figure]]:
        """The figures of each turn of each side; what took too long is not run again."""
        tries: dict[str, list[Figure]] = {side.name: [] for side in sides}
        for turn in range(turns):
            spent = sum(it.cpu for figures in tries.values() for it in figures)
            if turn > 1 and spent > 1000 * LONG_TURN * turns:
                break
            for side in sides:
                if all(it.status != KILLED for it in tries[side.name]):
                    tries[side.name].append(self.run(side))
        return tries

    def least(self, row: str, side: Side, tries: list[Figure]) -> Figure:
        first = tries[0]
        if first.status not in (side.status, KILLED, USAGE):
            raise SystemExit(
                f"{row}: {side.name} ended with {first.status}: {' '.join(side.words)}"
            )
        return Figure(
            first.status,
            min(it.cpu for it in tries),
            min(it.clock for it in tries),
            min(it.memory for it in tries),
            first.said,
        )

    def forget(self, row: str) -> None:
        """Has a row measured again."""
        self.figures = {
            key: it for key, it in self.figures.items() if not key.startswith(f"{row}: ")
        }

    def keep(self) -> None:
        """Writes the store whole under another name first: a run may be stopped at any time.
        Commands that are not there yet are asked for again."""
        new = self.store.with_suffix(".new")
        known = {key: it for key, it in self.figures.items() if it.status != USAGE}
        new.write_text(json.dumps(known, indent=0))
        new.replace(self.store)


# Cells of tables


def time_of(figure: Figure, milliseconds: Optional[float] = None) -> str:
    if figure.status == KILLED:
        return "too long"
    if figure.status == USAGE:
        return "no such command"
    value = figure.cpu if milliseconds is None else milliseconds
    return f"{value:,.0f}" if value >= 10 else f"{value:.1f}"


def memory_of(figure: Figure) -> str:
    return f"{figure.memory:,.0f}" if figure.counts else ""


def ratio(one: float, other: float) -> str:
    return f"{one / other:.1f}" if other > 0 and one > 0 else ""


def ratios(one: Figure, other: Figure) -> tuple[str, str]:
    """Those of processor time and of memory."""
    if not one.counts or not other.counts:
        return "", ""
    return ratio(one.cpu, other.cpu), ratio(one.memory, other.memory)


def table(head: list[str], rows: list[list[str]]) -> str:
    """A table in Markdown, its numbers at the right; nothing where there are no rows."""
    if not rows:
        return ""
    rule = ["---"] + ["--:"] * (len(head) - 1)
    lines = (f"| {' | '.join(row)} |" for row in [head, rule, *rows])
    return "\n".join(lines) + "\n"
