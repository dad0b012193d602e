"""Clusters for the trials, on the loopback address alone, and the records of their blocks."""

from __future__ import annotations

import gc
import logging
import socket
import subprocess
import sys
import threading
import time
from contextlib import contextmanager, suppress
from pathlib import Path
from typing import Any, Callable, Dict, Iterator, List, Sequence, Tuple

import blocks
import dask
from distributed import Client, LocalCluster, TimeoutError
from harness import eventually
from memplan.dask import Task

HERE = Path(__file__).resolve().parent
LOOPBACK = "127.0.0.1"

# What Dask says of lost workers and the like, which are lost on purpose.
logging.disable()

# A block is in memory or it is not: nothing goes to disk.
dask.config.set({f"distributed.worker.memory.{what}": False for what in ("target", "spill", "pause", "terminate")})


@contextmanager
def cluster(processes: bool, workers: int = 4, saturation: float = 1.1, memory_limit: int = 0) -> Iterator[Client]:
    """Workers of one thread each: threads of this process, or processes. ``saturation`` is how many tasks Dask hands to a thread at once
    that are ready from the start: a number is its default since 2022.11, infinity what it did before. A ``memory_limit`` of 0 is none."""
    with dask.config.set({"distributed.scheduler.worker-saturation": saturation}):
        made = LocalCluster(
            n_workers=workers,
            threads_per_worker=1,
            processes=processes,
            memory_limit=memory_limit,
            dashboard_address=f"{LOOPBACK}:0",
            worker_dashboard_address=f"{LOOPBACK}:0",
            silence_logs=50,
            **({"host": LOOPBACK} if processes else {}),
        )
    with made, Client(made) as client:
        # The modules stay, so no trial has to look for garbage among them: that took most of its time.
        gc.freeze()
        client.run(gc.freeze)
        yield client


@contextmanager
def programs(*lines: str) -> Iterator[List[subprocess.Popen]]:
    """Programs of Dask, which find blocks.py and nothing of memplan; they are killed at the end."""
    environment = {"PYTHONPATH": str(HERE), "PATH": "/usr/bin:/bin"}
    begun: List[subprocess.Popen] = []
    try:
        for line in lines:
            words = [sys.executable, "-m", *line.split()]
            begun.append(subprocess.Popen(words, env=environment, stdout=subprocess.DEVNULL, stderr=subprocess.DEVNULL))
        yield begun
    finally:
        for program in begun:
            program.kill()
            program.wait()


def worker_line(scheduler: str) -> str:
    return f"distributed.cli.dask_worker --host {LOOPBACK} --nthreads 1 --no-nanny --no-dashboard --memory-limit 0 {scheduler}"


@contextmanager
def bare_workers(count: int) -> Iterator[Tuple[Client, List[subprocess.Popen]]]:
    """A client of workers that are programs of their own, and these programs."""
    with LocalCluster(
        n_workers=0, processes=True, host=LOOPBACK, dashboard_address=f"{LOOPBACK}:0", silence_logs=50
    ) as made, Client(made) as client, programs(*[worker_line(made.scheduler_address)] * count) as begun:
        client.wait_for_workers(count, timeout=60)
        yield client, begun


@contextmanager
def separate_scheduler() -> Iterator[Tuple[Client, subprocess.Popen]]:
    """A client of a scheduler that is a program of its own, with one worker; and that program."""
    with socket.socket() as free:
        free.bind((LOOPBACK, 0))
        port = free.getsockname()[1]
    scheduler = f"tcp://{LOOPBACK}:{port}"
    line = f"distributed.cli.dask_scheduler --host {LOOPBACK} --port {port} --no-dashboard --dashboard-address {LOOPBACK}:0"
    with programs(line, worker_line(scheduler)) as begun:
        client = Client(scheduler, timeout=60)
        client.wait_for_workers(1, timeout=60)
        yield client, begun[0]
        # Without its scheduler a client may take longer to close, which is Dask's affair.
        with suppress(TimeoutError):
            client.close(timeout=5)


def once_it_runs(client: Client, act: Callable[[], Any]) -> threading.Thread:
    """Does something soon after a run has begun."""

    def wait_and_act() -> None:
        if eventually(lambda: any(key.startswith("memplan") for key in list(client.futures)), 60):
            time.sleep(0.3)
            act()

    thread = threading.Thread(target=wait_and_act)
    thread.start()
    return thread


def is_clean(client: Client) -> bool:
    """Whether neither client, scheduler nor workers have anything of a run."""

    def names(dask_scheduler: Any) -> List[str]:
        tables = (dask_scheduler.tasks, dask_scheduler.plugins, dask_scheduler.events, dask_scheduler.event_subscriber)
        return [str(name) for table in tables for name in table]

    def busy(dask_worker: Any) -> List[str]:
        return [*dask_worker.state.tasks, *dask_worker.data, *dask_worker.active_threads.values(), *dask_worker.plugins]

    told = [*client.run_on_scheduler(names), *client.futures, *client._event_handlers]
    for worker in client.run(busy).values():
        told += worker
    return not any(str(name).startswith("memplan") for name in told)


def leaves_nothing(client: Client) -> None:
    """No worker is busy, no future is left, and the cluster is usable."""
    assert not any(client.run(lambda dask_worker: list(dask_worker.active_threads)).values()), "a worker is busy"
    assert eventually(lambda: is_clean(client)), "something of the run is left"
    assert client.submit(sum, [1, 2], pure=False).result() == 3


def records(client: Client) -> List[List[blocks.Record]]:
    """Of all processes, each asked once; those of this one first, since they were asked for last."""
    others = [worker for worker in client.nthreads() if not worker.startswith("inproc")]
    there = client.run(blocks.taken_records, workers=others) if others else {}
    return [blocks.taken_records(), *there.values()]


def settled_records(client: Client) -> List[List[blocks.Record]]:
    """The records once Dask has had time to drop what was given back."""
    time.sleep(0.2)
    first = records(client)
    time.sleep(0.1)
    return first + records(client)


def plain_digests(client: Client, tasks: Sequence[Task], kept: Sequence[int]) -> Dict[int, Any]:
    """What a run without any bound leaves of the tasks that are kept."""
    futures: Dict[int, Any] = {}
    while len(futures) < len(tasks):
        for index, task in enumerate(tasks):
            if index not in futures and all(result in futures for result in task.inputs):
                inputs = [futures[result] for result in task.inputs]
                futures[index] = client.submit(task.function, *task.arguments, *inputs, pure=False)
    return digests(client, {index: futures[index] for index in kept})


def digests(client: Client, futures: Dict[int, Any]) -> Dict[int, Any]:
    """What tells the results apart, in the order of their tasks."""
    told = {index: client.submit(blocks.digest, future, pure=False) for index, future in sorted(futures.items())}
    return dict(zip(told, client.gather(list(told.values()))))
