#!/usr/bin/python3
"""Makes the pictures of docs/PYTHON.md, as PNG: of memplan.plot, and screenshots of the page of a plan in headless Chromium.

usage: docs/images/make.py [NAME..]      (all, if none is named)

It needs Debian's packages python3-matplotlib, python3-scipy and chromium, and the library and the program, which `make` makes. No picture
is over 150 kB.
"""
from __future__ import annotations

import os
import shutil
import subprocess
import sys
import tempfile
from pathlib import Path
from typing import Any, Callable, Dict, List

sys.dont_write_bytecode = True
HERE = Path(__file__).resolve().parent
sys.path.insert(0, str(HERE.parents[1] / "python"))

import matplotlib  # noqa: E402

matplotlib.use("Agg")
import scipy.sparse  # noqa: E402
from memplan import Graph, Plan, Tree, plot  # noqa: E402
from PIL import Image  # noqa: E402

MOST_BYTES = 150_000
PLAIN_BYTES, COLOURS = 60_000, 256
"""A greater file has so many colours, and is a third of what it was."""

FIVE = Tree([2, 5, 4, 5, 0], [1, 5, 1, 5, 0], [9, 0, 9, 0, 0], names=["a", "b", "c", "d", "top"])


def grid() -> Tree:
    """The fronts of a grid of 30 by 30, by minimum degree."""
    path = scipy.sparse.diags([[1] * 29, [2] * 30, [1] * 29], [-1, 0, 1])
    return Tree.of_matrix(scipy.sparse.kronsum(path, path), in_place=True, base=0)


def steps() -> Graph:
    """That of docs/PYTHON.md."""
    inputs: Dict[str, List[str]] = {"fetch": [], **{f"align_{k}": ["fetch"] for k in (1, 2, 3)}}
    inputs["merge"] = list(inputs)[1:]
    return Graph.of_mapping(inputs, {**dict.fromkeys(inputs, 3), "fetch": 8, "merge": 1}, dict.fromkeys(list(inputs)[1:4], 6))


def makespans(tree: Tree, plan: Plan) -> Any:
    factors = 1.0, 1.1, 1.3, 1.6, 2.0, 3.0
    runs = [tree.simulate(plan, int(factor * plan.peak), workers) for workers in (2, 4, 8) for factor in factors]
    return plot.makespans(runs, unit="entries", of="fronts of a grid of 30 by 30")


def drawn(name: str) -> Any:
    """The axes of a picture, or one of them."""
    tree = grid()
    plan = tree.plan()
    if name == "plan":
        return plan.plot(label="fronts of a grid of 30 by 30")
    if name == "orders":
        return plot.orders(FIVE, {"least peak": FIVE.plan(), "best postorder": FIVE.post()[0]}, unit="entries")[0]
    if name == "simulation":
        return tree.simulate(plan, bound=int(1.3 * plan.peak), workers=4).plot()[0]
    if name == "tree":
        return tree.plot(most=16, name="a grid of 30 by 30")
    if name == "graph":
        return steps().plot(unit="MB")
    if name == "segments":
        return FIVE.segments()["b"].plot(unit="entries", label="b")
    return makespans(tree, plan)


def draw(name: str, path: Path) -> None:
    drawn(name).get_figure().savefig(path, dpi=100, metadata={"Software": None})


WINDOWS = {"report": ("1080,1560", False), "report-dark": ("1080,980", True), "report-narrow": ("500,1500", False)}


def screenshot(name: str, path: Path) -> None:
    chromium = shutil.which("chromium") or shutil.which("chromium-browser") or sys.exit("make.py: there is no chromium")
    window, is_dark = WINDOWS[name]
    plan = grid().plan(evidence=True)
    bounds = [int(factor * plan.peak) for factor in (1.0, 1.1, 1.3, 1.6, 2.0, 3.0)]
    with tempfile.TemporaryDirectory() as folder:
        page = Path(folder) / "report.html"
        plan.report(page, bounds=bounds, workers=[2, 4], title="the fronts of a grid of 30 by 30")
        words = [chromium, "--headless=new", "--disable-gpu", "--hide-scrollbars", f"--user-data-dir={folder}/chromium"]
        words += ["--no-sandbox"] if os.geteuid() == 0 else []
        words += ["--blink-settings=preferredColorScheme=0"] if is_dark else []
        words += ["--virtual-time-budget=3000", f"--window-size={window}", f"--screenshot={path}", page.as_uri()]
        subprocess.run(words, check=True, stdin=subprocess.DEVNULL, stdout=subprocess.DEVNULL, stderr=subprocess.DEVNULL, timeout=120)


def make(name: str, how: Callable[[str, Path], None]) -> None:
    path = HERE / f"{name}.png"
    how(name, path)
    if path.stat().st_size > PLAIN_BYTES:
        few = Image.open(path).convert("RGB").quantize(COLOURS, dither=Image.Dither.NONE)
        few.save(path, optimize=True)
    size = path.stat().st_size
    print(f"{path.name}: {size // 1000} kB")
    if size > MOST_BYTES:
        sys.exit(f"make.py: {path.name} is over {MOST_BYTES // 1000} kB")


def main() -> None:
    plots = "plan", "orders", "simulation", "tree", "graph", "segments", "makespans"
    known = {**dict.fromkeys(plots, draw), **dict.fromkeys(WINDOWS, screenshot)}
    for name in sys.argv[1:] or known:
        if name not in known:
            sys.exit(f"make.py: {name} is none of {', '.join(known)}")
        make(name, known[name])


if __name__ == "__main__":
    main()
