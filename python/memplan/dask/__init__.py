"""Tasks on a Dask cluster that keep within a bound on memory. What may start is decided by memplan's core, which is proved."""

from .versions import require_dask

try:
    require_dask()  # before what follows takes names from Dask
except ModuleNotFoundError as lack:
    if lack.name not in ("dask", "distributed"):
        raise
    raise ImportError("memplan.dask needs Dask with its scheduler: pip install 'memplan[dask]' (Debian: python3-distributed)") from None

from ..admission import BoundTooLow  # noqa: E402

from .errors import (  # noqa: E402
    AnnotationRefused,
    EngineStopped,
    ResultTooLarge,
    RunError,
    SizesUnknown,
    Standstill,
    TaskFailed,
    TasksInACycle,
    UnbookedData,
    WorkerLost,
)
from .runner import least_bound, plan, run  # noqa: E402
from .sizes import Sizes, Slack, record  # noqa: E402
from .summary import Results, Summary  # noqa: E402
from .tasks import LeastBound, Task, TaskPlan, dask_order, of_collection, of_graph  # noqa: E402

__all__ = [
    "AnnotationRefused",
    "BoundTooLow",
    "EngineStopped",
    "LeastBound",
    "ResultTooLarge",
    "Results",
    "RunError",
    "Sizes",
    "SizesUnknown",
    "Slack",
    "Standstill",
    "Summary",
    "Task",
    "TaskFailed",
    "TaskPlan",
    "TasksInACycle",
    "UnbookedData",
    "WorkerLost",
    "dask_order",
    "least_bound",
    "of_collection",
    "of_graph",
    "plan",
    "record",
    "run",
]
