"""Which task starts next, and on which worker. Nothing here knows of Dask."""

from __future__ import annotations

from heapq import heappop, heappush
from typing import Collection, Dict, Iterable, Iterator, List, Mapping, Optional, Tuple


class Placement:
    """The tasks of a run that may start, and the workers.

    Next is the first task along the order that a worker can run at once: one that starts tasks at all (is not paused, say), has a free
    thread and, where the task has to run where its home lies, has that. Of such workers it goes to the one that holds least, so that no
    worker fills up while others are empty; of these to the one with most free threads.
    """

    def __init__(self, threads: Mapping[str, int], ranks: Mapping[int, int]) -> None:
        self._ranks = ranks
        self.free = dict(threads)
        """The threads of each worker on which no task of the run is."""
        self.held = dict.fromkeys(threads, 0)
        """The bytes of the run's results on each worker, with what those that run there will leave, as stated."""
        self.resting: Dict[str, str] = {}
        """The workers that start no tasks, and why."""
        self.places: Dict[int, Optional[Collection[str]]] = {}
        """For each task that may start, the workers where it may, which are live; None means all."""
        # By rank, for each worker the tasks that have to run where it is one of the places; behind None those that run anywhere. A task
        # that has started elsewhere, or whose home is there no more, is taken out when it comes to the top.
        self._queues: Dict[Optional[str], List[Tuple[int, int]]] = {None: [], **{worker: [] for worker in threads}}

    def add(self, task: int, places: Optional[Collection[str]]) -> None:
        """A task may start from now on, on these workers."""
        self.places[task] = places
        for place in (None,) if places is None else places:
            self._push(task, place)

    def widen(self, tasks: Iterable[int], worker: str) -> None:
        """The home of these tasks has come to lie on this worker too: those that may start may start there."""
        for task in tasks:
            if task in self.places:
                self._push(task, worker)

    def next(self) -> Optional[Tuple[int, str]]:
        """A task that can start now, and where; none where there is none."""
        able = [worker for worker, threads in self.free.items() if threads > 0 and worker not in self.resting]
        tops = [top for place in (None, *able) for top in self._top(place)] if able else []
        if not tops:
            return None
        _, task = min(tops)
        places = self.places[task]
        fit = (worker for worker in able if places is None or worker in places)
        return task, min(fit, key=lambda worker: (self.held[worker], -self.free[worker]))

    def start(self, task: int, worker: str, size: int) -> None:
        """A task starts, whose result is at most so large."""
        del self.places[task]
        self.free[worker] -= 1
        self.held[worker] += size

    def end(self, worker: str, size: int) -> None:
        """A task that would leave so much has left its thread; what it left is told by `hold`."""
        self.free[worker] += 1
        self.held[worker] -= size

    def hold(self, worker: str, change: int) -> None:
        """So many bytes more, or fewer, lie on a worker."""
        if worker in self.held:
            self.held[worker] += change

    def _push(self, task: int, place: Optional[str]) -> None:
        if place in self._queues:
            heappush(self._queues[place], (self._ranks[task], task))

    def _top(self, place: Optional[str]) -> Iterator[Tuple[int, int]]:
        queue = self._queues[place]
        while queue and not self._is_there(queue[0][1], place):
            heappop(queue)
        yield from queue[:1]

    def _is_there(self, task: int, place: Optional[str]) -> bool:
        places = self.places.get(task, ())
        return place is None if places is None else place in places
