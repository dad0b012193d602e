"""The examples around the library for C: each `make test`, and the tables of CHOLMOD, MUMPS and StarPU on two small matrices. What is missing is told
by each example itself."""

import re
import subprocess
import sys
import tempfile
import unittest
from pathlib import Path
from typing import List

sys.dont_write_bytecode = True
from test_program import ROOT  # noqa: E402: so that nothing is written beside it

EXAMPLES = ROOT / "examples"
BLAS = any(Path("/usr/lib").glob("*/liblapack.so"))


def ran(*words: object) -> "subprocess.CompletedProcess[str]":
    return subprocess.run([str(it) for it in words], stdout=subprocess.PIPE, stderr=subprocess.STDOUT, text=True, timeout=300)


def rows_of(text: str) -> List[List[str]]:
    """The rows of a table in Markdown, without its head."""
    return [[cell.strip() for cell in line.strip("| ").split("|")] for line in text.splitlines() if line.startswith("| ")][1:]


class Examples(unittest.TestCase):
    def setUp(self) -> None:
        folder = tempfile.TemporaryDirectory()
        self.addCleanup(folder.cleanup)
        self.grid = Path(folder.name) / "grid12.mtx"
        self.assertEqual(ran(ROOT / "tools/make_matrices.py", "grid", 12, 12, self.grid).returncode, 0)

    def made(self, name: str, *words: object) -> str:
        """What make says of an example; a test that it cannot run is skipped with its own word."""
        done = ran("make", "-s", "--no-print-directory", "-C", EXAMPLES / name, *words)
        self.assertEqual(done.returncode, 0, done.stdout)
        missing = re.search(r"^not run: .*", done.stdout, re.M)
        if missing:
            self.skipTest(missing[0])
        return done.stdout

    def test_the_runner(self) -> None:
        self.assertEqual(self.made("runner", "test").count(": within"), 9)

    @unittest.skipUnless(BLAS, "not run: there is no LAPACK (Debian: liblapack-dev)")
    def test_the_solver(self) -> None:
        self.assertEqual(self.made("solver", "test").count("all as predicted"), 5)

    @unittest.skipUnless(BLAS, "not run: there is no LAPACK (Debian: liblapack-dev)")
    def test_starpu(self) -> None:
        self.assertEqual(self.made("starpu", "test").count(": within"), 6)
        rows = rows_of(self.made("starpu", "table", f"INPUTS=square:12 {self.grid}"))
        self.assertEqual([row[0] for row in rows], ["square:12", str(self.grid)])
        for row in rows:
            least, within, more = int(row[2]), int(row[5]), int(row[7])
            self.assertEqual(within, least)
            self.assertLessEqual(2 * more, 3 * least)

    def test_mumps(self) -> None:
        self.assertEqual(self.made("mumps", "test").count("less the expected        0\n"), 4)
        rows = rows_of(self.made("mumps", "table", f"INPUTS={ROOT / 'examples/arrow.mtx'} {self.grid}"))
        self.assertEqual([row[:2] for row in rows], [[it, kind] for it in ("arrow", "grid12") for kind in ("lu", "rows", "ldlt")])
        # The arrow, by hand: vertices 2 and 3, then 1 with 4, one after another. For L U factors of 3, 3 and 4, and 7 beside the last square;
        # of whole rows 2, 2 and 4, and 5 beside it.
        self.assertEqual([row[4:6] for row in rows[:2]], [["10", "11"], ["8", "9"]])
        self.assertEqual([int(row[6]) - max(int(row[5]), int(row[4]) + 2000) for row in rows], [int(row[7]) for row in rows])
        self.assertEqual({row[7] for row in rows if row[1] != "ldlt"}, {"0"})

    def test_cholmod(self) -> None:
        self.assertEqual(self.made("cholmod", "test").count("holds"), 8)
        done = ran(EXAMPLES / "cholmod/table", ROOT / "examples/grid.mtx", self.grid)
        self.assertEqual(done.returncode, 0, done.stdout)
        rows = rows_of(done.stdout)
        self.assertEqual([row[:2] for row in rows], [[it, order] for it in ("grid", "grid12") for order in ("amd", "metis")])
        # A square of four vertices: columns of 3, 3, 2 and 1 entries.
        self.assertEqual(rows[0][2], "9")
        for row in rows:
            self.assertLessEqual(int(row[4]), int(row[3]))


if __name__ == "__main__":
    unittest.main()
