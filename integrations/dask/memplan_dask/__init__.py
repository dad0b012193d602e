"""The name that `memplan.dask` had before it was a part of the package; it is the same module, and so are those in it."""

import sys
from importlib import import_module

import memplan.dask

for name in ("errors", "inside", "placement", "remote", "runner", "sizes", "structure", "summary", "tasks", "versions"):
    sys.modules[f"{__name__}.{name}"] = import_module(f"memplan.dask.{name}")
sys.modules[__name__] = memplan.dask
