"""Sizes that are measured, told by shapes, and found again; plans with their bounds; what a run tells at its end."""

from __future__ import annotations

import sys
import tempfile
from functools import partial
from pathlib import Path
from typing import Any, Callable, Dict, List, Tuple

import dask
import dask.array
import dask.bag
import numpy
from clusters import cluster, leaves_nothing
from dask.delayed import delayed
from distributed import Client
from harness import raised, run_all
from memplan.dask import Sizes, SizesUnknown, Slack, Task, dask_order, least_bound, of_collection, plan, record, run

KB = 1000


def zeros(kilobytes: int, *_: Any) -> numpy.ndarray:
    return numpy.zeros(125 * kilobytes)


def costly(kilobytes: int, *_: Any) -> numpy.ndarray:
    """Needs four times as much beside its result."""
    room = zeros(4 * kilobytes)
    return room[: 125 * kilobytes].copy()


def pipeline(last: int = 7) -> Any:
    """Delayed, so that each build has other keys."""
    model = delayed(zeros)(5000)
    parts = [delayed(costly)(100 * size, model) for size in (20, 40, last)]
    return delayed(len)(parts)


def array() -> Any:
    x = dask.array.ones((300, 400), chunks=(100, 200))
    return dask.array.concatenate([x + 1, x[:50] * 2]).rechunk((100, 100))


def words() -> Any:
    return dask.bag.from_sequence(range(900), npartitions=6).map(str).groupby(len, shuffle="tasks")


def stated(collection: Any, sizes: Any) -> Dict[str, List[Tuple[int, int]]]:
    """By the names of tasks."""
    found: Dict[str, List[Tuple[int, int]]] = {}
    for task in of_collection(collection, sizes)[0]:
        found.setdefault(dask.utils.key_split(task.key), []).append((task.size, task.extra))
    return {name: sorted(some) for name, some in found.items()}


def are_measured(record_it: Callable[[Any], Any]) -> None:
    keys = [{task.key for task in of_collection(pipeline(), lambda key: (0, 0))[0]} for _ in range(2)]
    assert not keys[0] & keys[1], "the case is none: keys are the same"
    result, sizes = record_it(pipeline())
    assert dask.compute(result)[0] == 3
    found = stated(pipeline(), sizes)
    assert [size for size, _ in found["zeros"]] == [5000 * KB]
    assert [size for size, _ in found["costly"]] == [700 * KB, 2000 * KB, 4000 * KB]
    for size, extra in found["costly"]:
        assert 4.4 * size + KB <= extra <= 4.4 * size + 700 * KB, (size, extra)  # with the slack, and what else the process does
    assert 0 <= found["zeros"][0][1] < 700 * KB


def are_found_where_constants_are_others() -> None:
    _, sizes = record(pipeline())
    found = [size for size, _ in stated(pipeline(9), sizes)["costly"]]
    assert found == [2000 * KB, 4000 * KB, Slack().over(4000 * KB)], found  # of a name the greatest counts
    exact = record(pipeline(), slack=Slack(1, 0))[1]
    assert [size for size, _ in stated(pipeline(9), exact)["costly"]] == [2000 * KB, 4000 * KB, 4000 * KB]


def are_written_and_read() -> None:
    _, sizes = record(pipeline())
    with tempfile.TemporaryDirectory() as folder:
        path = Path(folder) / "sizes"
        sizes.save(path)
        assert stated(pipeline(), Sizes.load(path)) == stated(pipeline(), sizes)
        path.write_text("[1]")
        assert "no sizes of memplan" in str(raised(ValueError, Sizes.load, path))


def are_told_by_shapes() -> None:
    found = {task.key: task.size for task in of_collection(array())[0]}
    made = array()
    lengths = {(made.name, *place): made.blocks[place].nbytes for place in numpy.ndindex(made.numblocks)}
    assert len(lengths) == 16 and {key: found[key] for key in lengths} == lengths
    error = raised(SizesUnknown, of_collection, [array(), pipeline()])
    assert error.names == {"zeros": 1, "costly": 3, "len": 1} and "costly (3)" in str(error)
    assert stated(pipeline(), Sizes(otherwise=(5, 6)))["costly"] == [(5, 6)] * 3


def hold_for_the_next_build(make: Callable[[], Any], client: Client) -> None:
    """Also of what Dask measures by samples."""
    result, sizes = record(make())
    for _ in range(3):
        tasks, rebuild = of_collection(make(), sizes)
        made = run(tasks, least_bound(tasks, client), client)
        assert not made.summary.greater(), made.summary
        assert str(dask.compute(rebuild(made))[0]) == str(result)
        del made
    leaves_nothing(client)


def a_plan_tells_its_peak_and_a_bound_below(client: Client) -> None:
    x = dask.array.ones((400, 400), chunks=100)
    tasks, _ = of_collection((x - x.mean(axis=0)).std(), lambda key: (8 * KB, KB))
    made = plan(tasks, client)
    least = least_bound(tasks, client)
    assert 0 < made.bound == least.below <= made.peak == least
    assert least == least_bound(tasks, client, made.order) <= least_bound(tasks, client, dask_order(tasks))
    assert made.names == [tasks[task].key for task in made.order] and sorted(made.order) == list(range(len(tasks)))
    chain = plan([Task(zeros, (1,), (), KB), Task(len, (), (0,), 28)], client)
    assert (chain.order, chain.peak, chain.bound, chain.is_least) == ([0, 1], KB + 28, KB + 28, True)


def a_run_tells_how_near_it_came(client: Client) -> None:
    tasks = [Task(zeros, (10,), (), 30 * KB, key="wide"), Task(zeros, (2,), (0,), 2 * KB, 5 * KB, key="narrow")]
    told = run(tasks, "50kB", client).summary
    assert (told.bound, told.least, told.enough) == (50 * KB, 37 * KB, 17 * KB)
    assert told.booked == 37 * KB and 30 * KB <= told.used <= 37 * KB
    assert [(it.key, it.size, it.stated) for it in told.largest()] == [("wide", 10 * KB, 30 * KB), ("narrow", 2 * KB, 2 * KB)]
    assert [it.key for it in told.overstated()] == ["wide"] and told.greater() == []
    assert "overstated: task 0 (wide) 9.77 kiB of 29.30 kiB" in str(told) and "booked at most 36.13 kiB" in str(told)
    leaves_nothing(client)


def main() -> int:
    status = run_all(
        [
            ("sizes are measured in this process", partial(are_measured, record)),
            ("sizes are found where constants are others", are_found_where_constants_are_others),
            ("sizes are written and read", are_written_and_read),
            ("sizes are told by shapes", are_told_by_shapes),
        ]
    )
    for kind, processes in (("threads", False), ("processes", True)):
        with cluster(processes, 2) as client:
            checks = [
                ("sizes are measured there", partial(are_measured, partial(record, client=client))),
                *((f"sizes of {it.__name__} hold", partial(hold_for_the_next_build, it, client)) for it in (array, words)),
                ("a plan tells its peak and a bound below", partial(a_plan_tells_its_peak_and_a_bound_below, client)),
                ("a run tells how near it came", partial(a_run_tells_how_near_it_came, client)),
            ]
            status |= run_all([(f"Dask's {kind}: {name}", check) for name, check in checks])
    return status


if __name__ == "__main__":
    sys.exit(main())
