#!/usr/bin/python3
"""Tests of name_tasks.py: which numbers of a report are tasks, and what becomes of names that a graph has.

usage: test_names.py [-v]

With MEMPLAN_PROGRAM, the built program, names are kept from a graph over its workflow to a plan.
"""
import os
import subprocess
import sys
import tempfile
import unittest
from pathlib import Path

TOOLS = Path(__file__).resolve().parent.parent
EXAMPLES = TOOLS.parent / "examples"
PROGRAM = os.environ.get("MEMPLAN_PROGRAM")

NAMED = "# 1 fetch\n# 2 sort by key\n# 4 report\n#5 no name\n# 6\n# x y\ngraph 2\n# 3  count  \n"

# Reports, and what becomes of them where the tasks 1 to 4 have the names fetch, sort by key, count and report.
ROWS = {
    "a plan": (
        "plan 1\norder 3\n2\n1\n9\npeak 7\nclaims 1\n1 F 2 3\nend\n",
        "plan 1\norder 3\nsort by key\nfetch\n9\npeak 7\nclaims 1\n1 F 2 3\nend\n",
    ),
    "a plan with a priority": (
        "plan 2\norder 1\n1\npriority 1\n1\npeak 1\nclaims 0\nend\n",
        "plan 2\norder 1\nfetch\npriority 1\nfetch\npeak 1\nclaims 0\nend\n",
    ),
    "the best postorder": ("peak 2\norder 2\n1\n2\nend\n", "peak 2\norder 2\nfetch\nsort by key\nend\n"),
    "a run": (
        "makespan 1\nused 2\nbooked 2\nevents 3\n0 activate 1\n0 start 1\n1 finish 1\nend\n",
        "makespan 1\nused 2\nbooked 2\nevents 3\n0 activate fetch\n0 start fetch\n1 finish fetch\nend\n",
    ),
    "gaps": ("volume 5\ngaps 2\n1 2 4\n3 0 1\nend\n", "volume 5\ngaps 2\n1 sort by key 4\n3 0 1\nend\n"),
    "items": ("volume 4\nitems 1\n2 4\nend\n", "volume 4\nitems 1\n2 4\nend\n"),
    "a rest": ("refused graph rest 2\n0 1\n1 3\nend\n", "refused graph rest 2\n0 fetch\nfetch count\nend\n"),
    "uses": ("refused graph uses 2\n0 1\n1 3\nend\n", "refused graph uses 2\n0 fetch\nfetch count\nend\n"),
    "an item": ("refused graph item 3\n", "refused graph item 3\n"),
    "an order": ("3\n1\n2\n", "count\nfetch\nsort by key\n"),
    "a peak": ("peak 3\n", "peak 3\n"),
    "a fault of an order": ("no order 1 too-early\n", "no order 1 too-early\n"),
    "a workflow of a graph": ("workflow 1\npositions 1\ntask 1 1\nend\n# 1 3\n# 2 7\n", "workflow 1\npositions 1\ntask 1 1\nend\n# 1 count\n# 2 7\n"),
    "nothing": ("", ""),
}


def told(names: str, report: str) -> str:
    with tempfile.TemporaryDirectory() as folder:
        file = Path(folder) / "names"
        file.write_text(names, encoding="utf-8")
        words = [sys.executable, str(TOOLS / "name_tasks.py"), str(file)]
        return subprocess.run(words, input=report, stdout=subprocess.PIPE, check=True, text=True).stdout


def printed(*words: str) -> str:
    assert PROGRAM
    return subprocess.run([PROGRAM, *words], stdout=subprocess.PIPE, check=True, text=True).stdout


class Names(unittest.TestCase):
    def test_reports(self) -> None:
        for what, (report, wanted) in ROWS.items():
            with self.subTest(what):
                self.assertEqual(told(NAMED, report), wanted)

    def test_words_and_files_that_are_wrong(self) -> None:
        for words, status in (([], 2), (["a", "b"], 2), (["--help"], 2), (["/nowhere/at/all"], 1)):
            with self.subTest(words):
                done = subprocess.run([sys.executable, str(TOOLS / "name_tasks.py"), *words], input="", capture_output=True, text=True)
                self.assertEqual((done.returncode, done.stdout), (status, ""))
                self.assertEqual(done.stderr.count("\n"), 1)

    @unittest.skipUnless(PROGRAM, "not run: the program is not built")
    def test_names_from_a_graph_to_a_plan(self) -> None:
        graph = (EXAMPLES / "four.graph").read_text(encoding="utf-8")
        names = "# 1 fetch\n# 2 sort\n# 3 count\n# 4 report\n"
        workflow = told(names, printed("reduce", "--graph", str(EXAMPLES / "four.graph")))
        self.assertEqual(workflow.splitlines()[-4:], ["# 1 count", "# 2 sort", "# 3 report", "# 4 fetch"])
        with tempfile.TemporaryDirectory() as folder:
            (Path(folder) / "named.graph").write_text(names + graph, encoding="utf-8")
            (Path(folder) / "named.workflow").write_text(workflow, encoding="utf-8")
            self.assertEqual(printed("reduce", "--graph", f"{folder}/named.graph"), printed("reduce", "--graph", str(EXAMPLES / "four.graph")))
            plan = told(workflow, printed("plan", "--workflow", f"{folder}/named.workflow"))
        # by the page of formats: the order 4, 2, 1, 3 of the workflow is 1, 2, 3, 4 of the graph
        self.assertEqual(plan.splitlines()[2:6], ["fetch", "sort", "count", "report"])

    def test_it_ends_quietly_where_nobody_reads_on(self) -> None:
        with tempfile.TemporaryDirectory() as folder:
            report = Path(folder) / "x.run"
            report.write_text("0 start 1\n" * 200_000)
            line = f'"{sys.executable}" "{TOOLS}/name_tasks.py" "{EXAMPLES}/branches.workflow" < "{report}" | head -n 1'
            done = subprocess.run(["bash", "-c", line], capture_output=True, text=True, timeout=60)
        self.assertEqual((done.stdout, done.stderr), ("0 start 1\n", ""))


if __name__ == "__main__":
    unittest.main()
