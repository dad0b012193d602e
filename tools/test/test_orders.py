"""Orders of other tools: the graph file that METIS reads, README's lines from a matrix to an order for CHOLMOD, and the scripts that compare fill."""

import re
import shutil
import subprocess
import sys
import tempfile
import unittest
from pathlib import Path
from typing import List

sys.dont_write_bytecode = True
from test_program import PROGRAM, ROOT  # noqa: E402: so that nothing is written beside it

HAS_METIS = shutil.which("ndmetis") is not None
HAS_SCOTCH = all(shutil.which(it) for it in ("gcv", "gord"))
HAS_CHOLMOD = shutil.which("cc") is not None and Path("/usr/include/suitesparse/cholmod.h").exists()
ARROW = "4 3\n2 3 4\n1\n1\n1\n"
# What is wrong with a matrix, and what is said of it.
UNREAD = [
    ("", "is not that of a sparse matrix"),
    ("%%MatrixMarket matrix array real general\n2 2\n1\n0\n0\n1\n", "is not that of a sparse matrix"),
    ("%%MatrixMarket matrix coordinate pattern general\n", "it is cut off"),
    ("%%MatrixMarket matrix coordinate pattern general\n2 3 1\n1 2\n", "it has 2 rows and 3 columns"),
    ("%%MatrixMarket matrix coordinate pattern general\n2 2 1\n0 1\n", "an entry is in row 0 and column 1 of 2"),
    ("%%MatrixMarket matrix coordinate pattern general\n2 2 1\n1 3\n", "an entry is in row 1 and column 3 of 2"),
]


def ran(*words: object, **more: object) -> "subprocess.CompletedProcess[str]":
    return subprocess.run([str(it) for it in words], stdout=subprocess.PIPE, stderr=subprocess.STDOUT, text=True, timeout=120, **more)


class Orders(unittest.TestCase):
    def setUp(self) -> None:
        folder = tempfile.TemporaryDirectory()
        self.addCleanup(folder.cleanup)
        self.folder = Path(folder.name)
        (self.folder / "tools").symlink_to(ROOT / "tools")
        (self.folder / "memplan").symlink_to(PROGRAM)

    def graph_of(self, text: str) -> "subprocess.CompletedProcess[str]":
        matrix = self.folder / "my.mtx"
        matrix.write_text(text)
        return ran(sys.executable, ROOT / "tools/metis_graph.py", matrix)

    def printed(self, *words: object) -> str:
        done = ran(PROGRAM, *words, cwd=self.folder)
        self.assertEqual(done.returncode, 0, done.stdout)
        return done.stdout

    # ---- the graph

    def test_the_graph_of_a_matrix(self) -> None:
        self.assertEqual(self.graph_of((ROOT / "examples/arrow.mtx").read_text()).stdout, ARROW)
        # both triangles, the diagonal, an entry twice, comments, values: the same pattern
        text = "%%MatrixMarket matrix coordinate real general\n% a comment\n\n4 4 7\n1 1 9\n2 1 1\n1 2 1\n3 1 1\n3 1 1\n% another\n1 4 1\n4 4 9\n"
        self.assertEqual(self.graph_of(text).stdout, ARROW)
        # a row that nothing is joined to has an empty line
        self.assertEqual(self.graph_of("%%MatrixMarket matrix coordinate pattern symmetric\n3 3 1\n3 1\n").stdout, "3 1\n3\n\n1\n")

    def test_a_file_that_is_no_such_matrix(self) -> None:
        for text, says in UNREAD:
            with self.subTest(says):
                done = self.graph_of(text)
                self.assertEqual(done.returncode, 1)
                self.assertIn(says, done.stdout)
                self.assertEqual(done.stdout.count("\n"), 1)
        done = ran(sys.executable, ROOT / "tools/metis_graph.py", self.folder / "nofile")
        self.assertEqual((done.returncode, "No such file" in done.stdout), (1, True))

    # ---- from a matrix to an order for CHOLMOD

    def lines_of_readme(self) -> List[str]:
        blocks = re.findall(r"^```\n(\$ .*?)^```$", (ROOT / "README.md").read_text(), re.M | re.S)
        found = [block for block in blocks if "ndmetis" in block]
        self.assertEqual(len(found), 1, "README has one block from a matrix by METIS to an order")
        return [line[2:] for line in found[0].splitlines() if line.startswith("$ ")]

    @unittest.skipUnless(HAS_METIS, "there is no ndmetis")
    def test_the_lines_of_readme_from_a_matrix_to_an_order(self) -> None:
        ran(sys.executable, ROOT / "tools/make_matrices.py", "grid", 30, 30, self.folder / "my.mtx")
        lines = self.lines_of_readme()
        self.assertEqual(len(lines), 5)
        said = [ran("bash", "-c", line, cwd=self.folder) for line in lines]
        self.assertEqual([it.returncode for it in said], [0] * 5, said)
        order = [int(it) for it in (self.folder / "my.perm").read_text().split()]
        self.assertEqual(sorted(order), list(range(1, 901)))
        self.assertEqual([int(it) + 1 for it in (self.folder / "my.cholmod").read_text().split()], order)

        # the same fronts as in METIS's order, in another one; in this order they have the peak that post has told
        by_metis = self.printed("tree", "--matrix", "my.mtx", "--iperm", "my.graph.iperm").splitlines()[2:-1]
        fronts = self.printed("tree", "--matrix", "my.mtx", "--perm", "my.perm").splitlines()[2:-1]
        self.assertEqual(*(sorted(line.split()[1:] for line in it) for it in (by_metis, fronts)))
        (self.folder / "own.order").write_text("".join(f"{it}\n" for it in range(1, len(fronts) + 1)))
        peak = self.printed("replay", "--matrix", "my.mtx", "--perm", "my.perm", "--order", "own.order")
        self.assertEqual(peak, (self.folder / "my.post").read_text().splitlines(True)[0])

        # ndmetis counts the entries without the diagonal
        reported = re.search(r"Nonzeros: (\S+)", said[1].stdout)
        entries = self.entries(fronts)
        self.assertEqual(f"{entries - 900:.3e}", reported and reported[1])
        if HAS_CHOLMOD:
            self.assertEqual(self.by_cholmod("given"), f"{entries} kept\n")
            self.assertEqual(self.by_cholmod("given-post"), f"{entries} changed\n")

    @staticmethod
    def entries(fronts: List[str]) -> int:
        """Of the factor, by the lines of a tree: c columns over r further rows, whose block has r (r + 1) / 2 entries and needs the rest beside."""
        return sum(int(line.split()[2]) for line in fronts)

    def by_cholmod(self, how: str) -> str:
        program = self.folder / "orders"
        words = ["cc", "-I/usr/include/suitesparse", "-o", program, ROOT / "bench/peers/orders.c", "-lcholmod", "-lamd"]
        built = ran(*words)
        self.assertEqual(built.returncode, 0, built.stdout)
        return ran(program, how, "my.mtx", "my.perm", cwd=self.folder).stdout

    # ---- what Scotch writes

    @unittest.skipUnless(HAS_SCOTCH, "there is no gord")
    def test_what_gord_writes_is_taken_as_it_is(self) -> None:
        matrix = self.folder / "my.mtx"
        ran(sys.executable, ROOT / "tools/make_matrices.py", "grid", 30, 30, matrix)
        self.assertEqual(ran("gcv", "-im", "-os", matrix, self.folder / "from1.grf").returncode, 0)
        # the same graph from 0: the third line has the base, each row's line how many it is joined to and with which
        head, sizes, _, *lists = (self.folder / "from1.grf").read_text().splitlines()
        joined = [line.split() for line in lists]
        below = [" ".join(it[:1] + [str(int(row) - 1) for row in it[1:]]) for it in joined]
        (self.folder / "from0.grf").write_text("\n".join([head, sizes, "0\t000", *below]) + "\n")
        for base in (0, 1):
            with self.subTest(base):
                written = self.folder / f"from{base}.ord"
                self.assertEqual(ran("gord", self.folder / f"from{base}.grf", written).returncode, 0)
                pairs = [[int(it) for it in line.split()] for line in written.read_text().splitlines()[1:]]
                self.assertEqual([pair[0] for pair in pairs], list(range(base, base + 900)))
                order = sorted(range(1, 901), key=lambda row: pairs[row - 1][1])
                (self.folder / "own.perm").write_text("".join(f"{row}\n" for row in order))
                taken = self.printed("tree", "--matrix", "my.mtx", "--iperm", written.name)
                self.assertEqual(taken, self.printed("tree", "--matrix", "my.mtx", "--perm", "own.perm"))

    # ---- the scripts that compare

    @unittest.skipUnless(HAS_METIS or HAS_CHOLMOD, "there is neither ndmetis nor CHOLMOD")
    def test_the_fill_that_other_tools_report(self) -> None:
        done = ran(sys.executable, ROOT / "bench/orders.py", PROGRAM)
        self.assertEqual(done.returncode, 0, done.stdout)
        self.assertRegex(done.stdout, r"[1-9][0-9]* passed, 0 failed\n$")

    def test_what_columns_prints_given_back(self) -> None:
        source = self.folder / "source"
        source.mkdir()
        for name in ("arrow.mtx", "grid.mtx"):
            shutil.copy(ROOT / "examples" / name, source)
        done = ran(sys.executable, ROOT / "bench/columns.py", "--least", 4, PROGRAM, source)
        self.assertEqual(done.returncode, 0, done.stdout)
        self.assertRegex(done.stdout, r"2 matrices\n[1-9][0-9]* passed, 0 failed\n$")


if __name__ == "__main__":
    unittest.main()
