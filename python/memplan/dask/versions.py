"""Whether this Dask has what the package takes from it; an error at import tells of it, and not one in the middle of a run."""

from __future__ import annotations

from importlib import import_module
from operator import attrgetter
from typing import Any, Callable, Sequence

TRIED = "2022.12.1"
"""The version of dask and distributed that the package was tried with."""

_NEEDED = {
    "dask.base": ("is_dask_collection", "unpack_collections"),
    "dask.core": ("flatten", "get_dependencies", "literal"),
    "dask.highlevelgraph": ("HighLevelGraph",),
    "dask.optimization": ("SubgraphCallable",),
    "dask.order": ("order",),
    "distributed": (
        "Client.asynchronous",
        "Client.nthreads",
        "Client.register_scheduler_plugin",
        "Client.register_worker_plugin",
        "Client.run_on_scheduler",
        "Client.subscribe_topic",
        "Client.unregister_worker_plugin",
        "Future",
        "SchedulerPlugin.log_event",
        "SchedulerPlugin.remove_worker",
        "WorkerPlugin.transition",
    ),
}


def require_dask(load: Callable[[str], Any] = import_module) -> None:
    """`ImportError` where this Dask is one that the package can do nothing with. ``load`` imports a module."""
    there = ", ".join(f"{name} {getattr(load(name), '__version__', '?')}" for name in ("dask", "distributed"))
    tried = f"memplan.dask was tried with dask and distributed {TRIED} alone, and this is {there}"
    missing = [f"{module}.{name}" for module, names in _NEEDED.items() for name in names if not _has(load, module, name)]
    if missing:
        raise ImportError(f"{tried}, which has no {', no '.join(missing)}")
    if _has(load, "dask._task_spec", "Task"):
        raise ImportError(f"{tried}, whose graphs have tasks of another kind (dask._task_spec.Task)")


def require_scheduler(lacking: Sequence[str]) -> None:
    """`ImportError` where a scheduler has not all the tables that a run uses; its version may be another one than the client's."""
    if lacking:
        raise ImportError(f"memplan.dask was tried with distributed {TRIED} alone, and the scheduler has no {', no '.join(lacking)}")


def _has(load: Callable[[str], Any], module: str, name: str) -> bool:
    try:
        attrgetter(name)(load(module))
    except (ImportError, AttributeError):
        return False
    return True
