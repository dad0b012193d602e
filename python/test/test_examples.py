"""The examples in the docstrings of the objects: each public method has one, and each is run, and so are those of docs/PYTHON.md."""

from __future__ import annotations

import doctest
import importlib
import inspect
import os
import re
import tempfile
import unittest
from pathlib import Path
from typing import Any, Dict, Iterator, Tuple

import memplan
from memplan import Graph, Item, Join, Tree

try:
    import networkx
except ImportError:
    networkx = None

try:
    import dask
    import distributed
except ImportError:
    dask = distributed = None

try:
    import numpy
except ImportError:
    numpy = None
try:
    import scipy.sparse
except ImportError:
    scipy = None

try:
    import matplotlib
except ImportError:
    matplotlib = None
else:
    matplotlib.use("Agg")
    from matplotlib import pyplot
    from memplan import plot

TOP = Path(__file__).resolve().parents[2]
NAMES = ["_refusals", "_texts", "_work", "admission", "graphs", "results", "threads", "trees", "workflows"]
NAMES += ["plot"] if matplotlib else []
NAMES += ["dask.runner", "dask.sizes", "dask.summary", "dask.tasks"] if distributed else []
MODULES = ["memplan", *(f"memplan.{name}" for name in NAMES)]
CLASSES = [memplan.Tree, memplan.Graph, memplan.Workflow, memplan.Plan, memplan.Fences, memplan.Simulation, memplan.Segments, memplan.Core]
CALLS = ["plan", "best_postorder", "replay", "certify", "check", "spill", "fronts", "replay_system", "replay_shared", "plan_shared"]
PICTURES = ("plot.", ".plot(", ".report(")

FIVE = Tree([2, 5, 4, 5, 0], [1, 5, 1, 5, 0], [9, 0, 9, 0, 0], names=["a", "b", "c", "d", "top"])
DIAMOND = Graph.of_mapping(
    {"load": [], "count": ["load"], "sort": ["load"], "merge": ["count", "sort"]},
    size={"load": 10, "count": 1, "sort": 10, "merge": 2},
)


def public(kind: type) -> Iterator[Tuple[str, Any]]:
    for name, value in inspect.getmembers(kind):
        its = value.fget if isinstance(value, property) else value
        if not name.startswith("_") and callable(its) and (getattr(its, "__module__", None) or "").startswith("memplan"):
            yield f"{kind.__name__}.{name}", its


class Examples(unittest.TestCase):
    def run_examples(self, test: doctest.DocTest) -> None:
        if networkx is None and "networkx" in (test.docstring or ""):
            self.skipTest("there is no networkx")
        if dask is None and "dask" in (test.docstring or ""):
            self.skipTest("there is no dask")
        if numpy is None and "dask.array" in (test.docstring or ""):
            self.skipTest("there is no numpy")
        if matplotlib is None and any(it in (test.docstring or "") for it in PICTURES):
            self.skipTest("there is no matplotlib")
        said: Any = []
        runner = doctest.DocTestRunner(verbose=False)
        runner.run(test, out=said.append)
        if matplotlib is not None:
            pyplot.close("all")
        self.assertEqual(runner.failures, 0, "".join(said))

    def test_each_public_method_has_an_example(self) -> None:
        for kind in CLASSES:
            self.assertIn(">>> " if kind in (memplan.Tree, memplan.Graph, memplan.Workflow) else "", kind.__doc__ or "")
            for name, value in public(kind):
                self.assertIn(">>> ", value.__doc__ or "", name)
        for name in CALLS:
            self.assertIn(">>> ", getattr(memplan, name).__doc__, name)
        if distributed is not None:
            for name in ("least_bound", "plan", "record", "run", "of_collection", "of_graph", "dask_order"):
                self.assertIn(">>> ", getattr(importlib.import_module("memplan.dask"), name).__doc__, name)
        if matplotlib is not None:
            for name in plot.__all__:
                self.assertIn(">>> ", getattr(plot, name).__doc__, name)

    def test_they_say_what_is_so(self) -> None:
        with tempfile.TemporaryDirectory() as folder:
            given: Dict[str, Any] = {name: getattr(memplan, name) for name in memplan.__all__}
            given.update(FIVE=FIVE, DIAMOND=DIAMOND, FOLDER=Path(folder), EXAMPLES=TOP / "examples", networkx=networkx, Item=Item, Join=Join)
            if matplotlib is not None:
                given["plot"] = plot
            if distributed is not None:
                given["CLIENT"] = client = distributed.Client(processes=False, dashboard_address=None)
                self.addCleanup(client.close)
            count = 0
            for name in MODULES:
                module = importlib.import_module(name)
                for test in doctest.DocTestFinder(exclude_empty=True).find(module, extraglobs=given):
                    if test.examples:
                        count += 1
                        with self.subTest(test.name):
                            self.run_examples(test)
            self.assertGreater(count, 80)

    def test_the_page_says_what_is_so(self) -> None:
        """The blocks of docs/PYTHON.md, one after the other."""
        if networkx is None or scipy is None or distributed is None:
            self.skipTest("there is no networkx, no scipy, or no distributed")
        page = (TOP / "docs/PYTHON.md").read_text(encoding="utf-8")
        blocks = re.findall(r"```python\n(.*?)```", page, re.DOTALL)
        self.assertGreater(len(blocks), 3)
        with tempfile.TemporaryDirectory() as folder:  # where it writes its files
            before = os.getcwd()
            os.chdir(folder)
            try:
                self.run_examples(doctest.DocTestParser().get_doctest("\n".join(blocks), {}, "docs/PYTHON.md", None, 0))
            finally:
                os.chdir(before)


if __name__ == "__main__":
    unittest.main()
