#!/usr/bin/python3
"""Memory and time of everyday collections of Dask by Dask alone and by the runner, with sizes of a first run: a table in Markdown.

usage: collections_table.py threads|processes [--only NAME,..] [--skip NAME,..]

The collections are those of orders.py. Each is recorded in this process (`memplan.dask.record`), built anew, and run on four workers of one
thread, as threads of one process or as processes: by Dask alone (`persist`), and by the runner within the least bound, and within 1.5 times
that. Bytes are those of results in the memory of workers at any moment, by Dask's own transitions: on two processes a result counts twice,
on two threads of one process once. Extras, which are in the bound, are not in these bytes. Results are compared with Dask's.

The status is 1 where results differ, a run fails, or a run holds more than its bound.
"""

from __future__ import annotations

import argparse
import os
import signal
import statistics
import sys
import time
from typing import Any, Callable, Dict, List, NamedTuple, Optional, Tuple

import dask
from clusters import cluster
from dask.base import tokenize
from distributed import Client, WorkerPlugin, wait
from memplan.dask import least_bound, of_collection, record, run
from orders import collections

SECONDS, WORKERS, FACTORS, MEGABYTE = 120, 4, (1.0, 1.5), 1e6
NAME = "held"

Record = Tuple[int, int, str, int]
"""When, in which process, of which key, and how many bytes have come, or 0 where it has gone."""


def plugin() -> WorkerPlugin:
    """Notes what enters the memory of a worker, and what leaves it."""

    class Held(WorkerPlugin):
        def setup(self, worker: Any) -> None:
            self.worker, self.records = worker, []

        def transition(self, key: str, start: str, finish: str, **_: Any) -> None:
            import os
            import time

            if finish == "memory":
                state = self.worker.state.tasks[key]
                size = 0 if state.type is type(None) else state.nbytes or 0
                self.records.append((time.monotonic_ns(), os.getpid(), str(key), max(size, 1)))
            elif start == "memory":
                self.records.append((time.monotonic_ns(), os.getpid(), str(key), 0))

    return Held()


def taken(client: Client) -> List[Record]:
    def take(dask_worker: Any) -> List[Record]:
        it = dask_worker.plugins[NAME]
        records, it.records = it.records, []
        return records

    return sorted(record for some in client.run(take).values() for record in some)


def most_held(records: List[Record]) -> int:
    counts: Dict[Tuple[int, str], List[int]] = {}
    there = most = 0
    for _, process, key, size in records:
        copies = counts.setdefault((process, key), [])
        if size:
            copies.append(size)
            there += size if len(copies) == 1 else 0
        elif copies:
            there -= copies[0] if len(copies) == 1 else 0
            copies.pop()
        most = max(most, there)
    return most


class Cell(NamedTuple):
    held: int
    seconds: float
    token: str

    def told(self) -> str:
        return f"{self.held / MEGABYTE:.3g} / {self.seconds:.2f}"


def measured(client: Client, work: Callable[[], Any]) -> Cell:
    """Of work that makes a collection on the cluster."""
    taken(client)
    began = time.monotonic()
    made = work()
    wait(made)
    seconds = time.monotonic() - began
    held = most_held(taken(client))
    return Cell(held, seconds, tokenize(dask.compute(made)))


def by_the_runner(client: Client, collection: Any, sizes: Any, factor: float) -> Tuple[int, Cell]:
    tasks, rebuild = of_collection(collection, sizes)
    bound = int(factor * least_bound(tasks, client))
    return bound, measured(client, lambda: rebuild(run(tasks, bound, client)))


class Row(NamedTuple):
    cells: List[str]
    saving: Optional[float]
    slowness: Optional[float]
    is_right: bool


def by_dask(client: Client, collection: Any) -> Optional[Cell]:
    """None where this Dask fails: on threads of one process 2022.12.1 cannot give a DataFrame's shuffle or sum its futures."""
    try:
        return measured(client, lambda: dask.persist(collection)[0])
    except TypeError as error:
        if "Serialize" not in str(error):
            raise
        return None


def row_of(client: Client, name: str, make: Callable[[], Any]) -> Row:
    with dask.config.set(scheduler="sync"):  # what a collection computes while it is made, it computes in this thread
        results, sizes = record(make())
        builds = iter([make() for _ in range(1 + len(FACTORS))])
    wanted = tokenize((results,))
    alone = by_dask(client, next(builds))
    cells = [name, "fails" if alone is None else alone.told()]
    within = []
    for factor in FACTORS:
        bound, cell = by_the_runner(client, next(builds), sizes, factor)
        within.append((bound, cell))
        cells += [f"{bound / MEGABYTE:.3g}", cell.told()] if factor == 1.0 else [cell.told()]
    tokens = {cell.token for _, cell in within}
    is_right = tokens == {wanted if alone is None else alone.token} and all(cell.held <= bound for bound, cell in within)
    if not is_right:
        print(f"{name}: {within}, {alone}, {wanted}", file=sys.stderr, flush=True)
    least = within[0][1]
    if alone is None:
        return Row(cells, None, None, is_right)
    return Row(cells, alone.held / max(least.held, 1), least.seconds / alone.seconds, is_right)


class TooLong(Exception):
    pass


def stop(*_: Any) -> None:
    raise TooLong(f"over {SECONDS} seconds")


def main() -> int:
    there = collections()
    parser = argparse.ArgumentParser(description=__doc__, formatter_class=argparse.RawDescriptionHelpFormatter)
    parser.add_argument("workers", choices=("threads", "processes"))
    parser.add_argument("--only", type=lambda words: words.split(","), default=list(there))
    parser.add_argument("--skip", type=lambda words: words.split(","), default=[])
    asked = parser.parse_args()
    head = ["collection", "Dask, MB / s", "least bound, MB", "within it, MB / s", "within 1.5 times, MB / s"]
    for line in (head, ["---"] + ["--:"] * (len(head) - 1)):
        print(f"| {' | '.join(line)} |", flush=True)
    rows, failed = [], 0
    signal.signal(signal.SIGALRM, stop)
    with cluster(asked.workers == "processes", WORKERS) as client:
        client.register_worker_plugin(plugin(), name=NAME)
        for name in asked.only:
            if name in asked.skip:
                continue
            signal.alarm(SECONDS)
            try:
                row = row_of(client, name, there[name])
                rows.append(row)
                print(f"| {' | '.join(row.cells)} |", flush=True)
                failed += not row.is_right
            except Exception as error:  # of any kind: the others are to run too
                failed += 1
                print(f"{name}: {type(error).__name__}: {error}", file=sys.stderr, flush=True)
            finally:
                signal.alarm(0)
    compared = [row for row in rows if row.saving is not None]
    if compared:
        saving, slowness = (statistics.median(getattr(row, it) for row in compared) for it in ("saving", "slowness"))
        right = sum(row.is_right for row in rows)
        print(f"\nMedians of {len(compared)}: Dask alone holds {saving:.2f} times as much as the run within the least bound, which takes "
              f"{slowness:.2f} times as long. {right} collections had Dask's results, and kept within their bounds; {failed} did not.")
    return 1 if failed else 0


if __name__ == "__main__":
    if os.environ.get("PYTHONHASHSEED") != "0":
        os.execve(sys.executable, [sys.executable, *sys.argv], {**os.environ, "PYTHONHASHSEED": "0"})
    sys.exit(main())
