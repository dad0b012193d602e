"""Blocks of memory whose bytes are recorded, in each process, from their making to their end; copies on other workers too."""

from __future__ import annotations

import gc
import time
from typing import Any, Iterable, List, Tuple

import numpy
from dask.core import flatten
from dask.sizeof import sizeof

Record = Tuple[int, int]
"""When (by the clock of the machine, in nanoseconds), and how many bytes more, or fewer, there are."""

RECORDS: List[Record] = []
"""Those of this process."""


class Block:
    """So many bytes, as the result of a task or as what it needs while it runs."""

    def __init__(self, data: numpy.ndarray) -> None:
        self.data = data
        RECORDS.append((time.monotonic_ns(), data.nbytes))

    def __del__(self) -> None:
        RECORDS.append((time.monotonic_ns(), -self.data.nbytes))

    def __reduce__(self) -> tuple:
        return Block, (self.data,)


@sizeof.register(Block)
def _(block: Block) -> int:
    return block.data.nbytes


def taken(size: int) -> Block:
    """So many bytes, of which one is written in each page: a trial shall not be a trial of the machine's memory."""
    block = Block(numpy.empty(size, numpy.uint8))
    block.data[::4096] = 1
    return block


def total(block: Block) -> int:
    """Of the bytes that are written."""
    return int(block.data[::4096].sum(dtype=numpy.int64))


def work(number: int, size: int, extra: int, seconds: float, *inputs: Block) -> Block:
    """A task: takes its extra and its result, sleeps, and leaves bytes that depend on its number and on those of its inputs."""
    room = taken(extra)
    result = taken(size)
    told = number + sum(place * total(block) for place, block in enumerate(inputs, 1))
    result.data[::4096] = told % 251
    time.sleep(seconds)
    del room
    return result


CHUNK, PART = 4_000_000, 100_000
"""The bytes of a chunk of an array, and of a part of a sum."""


def read(number: int, seconds: float) -> Block:
    return work(number, CHUNK, 0, seconds)


def add(left: Block, right: Block, seconds: float) -> Block:
    return work(1, CHUNK, 0, seconds, left, right)


def squeeze(block: Block, axis: Any = None, keepdims: Any = None) -> Block:
    return work(2, PART, 0, 0, block)


def gather(parts: Any, axis: Any = None, keepdims: Any = None) -> Block:
    return work(3, PART, 0, 0, *flatten(parts, list))


def digest(block: Block) -> Tuple[int, int]:
    """What tells the results of two runs apart."""
    return block.data.nbytes, total(block)


def taken_records() -> List[Record]:
    """The records of this process since they were asked for last."""
    gc.collect()
    records = list(RECORDS)
    del RECORDS[: len(records)]
    return records


def top_and_rest(records: Iterable[List[Record]]) -> Tuple[int, int]:
    """The greatest sum of bytes at any moment, over all processes, and what is left at the end."""
    live = top = 0
    for _, change in sorted(record for process in records for record in process):
        live += change
        top = max(top, live)
    return top, live
