"""The script of the orders, on a few collections that need neither pandas nor xarray."""

from __future__ import annotations

import subprocess
import sys
import tempfile
from pathlib import Path
from typing import List

from harness import run_all

HERE = Path(__file__).resolve().parent
PROGRAM = HERE.parent.parent / "prebuilt" / "Linux-x86_64" / "memplan"


def told(program: Path, *words: str, status: int = 0) -> str:
    done = subprocess.run([sys.executable, str(HERE / "orders.py"), str(program), *words], stdout=subprocess.PIPE, text=True)
    assert done.returncode == status, done
    return done.stdout


def rows_of(printed: str) -> List[List[int]]:
    """The tasks, the two peaks and the bound of each row."""
    cells = [line.strip("| ").split(" | ") for line in printed.splitlines() if line.startswith("| ")][2:]
    return [[int(row[column].replace(",", "")) for column in (1, 2, 3, 5)] for row in cells]


def no_peak_is_higher_than_along_the_order_of_dask() -> None:
    names = "deviation-of-anomaly,broadcast-scale,amounts-by-shop"
    printed = told(PROGRAM, "--effort", "10000000", "--only", names)
    rows = rows_of(printed)
    assert len(rows) == 3 and all(bound <= peak <= peak_of_dask for _, peak_of_dask, peak, bound in rows), printed
    assert "higher 0 times" in printed


def runs_keep_within_the_peak_of_the_plan() -> None:
    printed = told(PROGRAM, "--effort", "10000000", "--run", "deviation-of-anomaly,broadcast-scale")
    assert printed.count("the results are Dask's") == 2, printed


def a_higher_peak_is_told() -> None:
    with tempfile.TemporaryDirectory() as folder:
        program = Path(folder) / "program"
        program.write_text(f'#!/bin/sh\n[ "$1" = replay ] && echo "peak 0" || exec {PROGRAM} "$@"\n')
        program.chmod(0o755)
        assert "higher 1 times" in told(program, "--only", "sum-of-all", status=1)


CHECKS = [
    ("no peak is higher than along Dask's order", no_peak_is_higher_than_along_the_order_of_dask),
    ("runs keep within the peak of the plan", runs_keep_within_the_peak_of_the_plan),
    ("a higher peak is told", a_higher_peak_is_told),
]

if __name__ == "__main__":
    sys.exit(run_all(CHECKS))
