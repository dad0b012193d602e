"""The project's files as Python reads and writes them: byte for byte, and refused where the program refuses them."""

from __future__ import annotations

import os
import tempfile
import unittest
from pathlib import Path
from random import Random
from typing import Any, Callable, Dict, List

from memplan import FormatError, Graph, Tree, Workflow, _texts
from samples import Case
from works import TOP, drawn_graph, drawn_order, drawn_tree, drawn_workflow, listed, program, works

EXAMPLES = TOP / "examples"

# What the program says of numbers that do not fit each other, and Python leaves to it.
SEMANTIC = {"parent", "cycle", "share", "arc", "item", "stack-short", "not-one-term", "task-count", "workers", "priority"}

PLANS = """plan 2
order 2
2
1
priority 0
peak 4
claims 2
1 F -3 2
4 R 3 1
end
"""
BLOCKED = """plan 3
order 3
1
2
3
peak 9
bound 4
first 2
base 1
2 3
blocker 1 0
blocker 2 2
1 3
4 -1
end
"""


def without_comments(text: str) -> str:
    return "".join(line for line in text.splitlines(True) if line[:1] not in "#%")


class Files(Case):
    def test_the_examples_are_written_as_they_were(self) -> None:
        kinds: Dict[str, Any] = {".tree": Tree, ".graph": Graph, ".workflow": Workflow}
        seen = 0
        for path in sorted(EXAMPLES.iterdir()):
            if path.suffix in kinds:
                text = without_comments(path.read_text())
                version = int(text.split()[1])
                self.assertEqual(kinds[path.suffix].read(path).text(version), text, path.name)
                seen += 1
        self.assertGreater(seen, 10)

    def test_plans_orders_and_fences_of_the_examples(self) -> None:
        tree, graph = Tree.read(EXAMPLES / "five.tree"), Graph.read(EXAMPLES / "shared.graph")
        with tempfile.TemporaryDirectory() as folder:
            path = Path(folder) / "file"
            for work, name in ((tree, "five.plan"), (graph, "shared.plan")):
                plan = work.read_plan(EXAMPLES / name)
                work.check(plan)
                work.write_plan(path, plan)
                self.assertEqual(path.read_text(), without_comments((EXAMPLES / name).read_text()))
            for work, name in ((tree, "five.fences"), (graph, "shared.fences")):
                fences = work.read_fences(EXAMPLES / name)
                work.check_fences(fences)
                work.write_fences(path, fences)
                self.assertEqual(path.read_text(), without_comments((EXAMPLES / name).read_text()))
            order = tree.read_order(EXAMPLES / "five.order")
            tree.write_order(path, order)
            self.assertEqual(path.read_text().split(), (EXAMPLES / "five.order").read_text().split())

    def test_names_stand_in_comments(self) -> None:
        text = "tree 1\nnodes 3\n3 1 2 1\n3 1 2 1\n0 0 3 2\nend\n# 1 align reads\n# 3 über alles\n"
        tree = Tree.of_text("# a tree\n" + text.replace("# 1", "  #\t1").replace("\n3 1", "\r\n\n% no\n\t3  1"))
        self.assertEqual(tree.names, ["align reads", 2, "über alles"])
        self.assertEqual(tree.text(), text)
        graph = "graph 2\ntasks 2\n1 0 1\n2 0 1\nitems 1\n5 1 2\nend\n# 1 load\n# 2 \udcff\n"
        with tempfile.TemporaryDirectory() as folder:
            path = Path(folder) / "my.graph"
            Graph.of_text(graph).write(path)
            self.assertEqual(path.read_bytes(), graph.encode("utf-8", "surrogateescape"))
            self.assertEqual(Graph.read(path).names, ["load", "\udcff"])
            self.assertEqual(Graph.read(str(path)).text(), graph)

    def test_names_that_no_file_can_hold(self) -> None:
        for name in ("", " a", "a\nb", "a "):
            tree = Tree([0], [1], [2], names=[name])
            self.assertEqual(tree.plan().peak, 3)
            self.says(ValueError, f"names[0]: {name!r} cannot stand in a file", tree.text)
        text = "tree 1\nnodes 2\n0 1 1 1\n0 1 1 1\nend\n# 1 a\n# 2 a\n"
        self.says(ValueError, "names[1]: 'a' is the name of an earlier task too", Tree.of_text, text)

    def test_versions_that_have_not_all(self) -> None:
        tree = Tree([2, 0], [4, 4], [0, 0], share=[0, 3])
        self.assertEqual(tree.text(), "tree 2\nnodes 2\n2 4 0 0 1\n0 4 0 3 1\nend\n")
        self.says(ValueError, "version: the tree cannot be told in version 1", tree.text, 1)
        self.says(ValueError, "version: the tree cannot be told in version 3", tree.text, 3)
        graph = Graph([0, 0], [(4, None, [1, 2])])
        self.says(ValueError, "version: the graph cannot be told in version 1", graph.text, version=1)

    def test_plans_of_every_version(self) -> None:
        for text, version in ((PLANS, 2), (BLOCKED, 3), (BLOCKED.split("first")[0] + "states 7\nend\n", 3)):
            self.assertEqual(_texts.plan_text(_texts.read_plan(text), version), text)

    def test_random_files(self) -> None:
        for work, drawn, _, _ in works(100):
            self.assertEqual(type(work).of_text(drawn.text).text(2), drawn.text)


Readers = Dict[str, Callable[[str], Any]]


class Broken(Case):
    """A file of which a token or a line was changed is read by Python just where the program finds nothing wrong with its form, and
    otherwise refused with the same kind and line, unless what does not fit stands in an earlier line."""

    def changed(self, text: str, draw: Random) -> str:
        lines = text.split("\n")
        at = draw.randrange(len(lines))
        tokens = lines[at].split(" ")
        where = draw.randrange(len(tokens))
        what = draw.randrange(8)
        if what == 0:
            lines.insert(draw.randrange(len(lines)), lines[at])
        elif what == 1:
            del lines[at]
        elif what == 2:
            return text[: draw.randrange(len(text) + 1)]
        elif what == 3:
            tokens.insert(where, draw.choice(["1", "x", "2"]))
        elif what == 4:
            del tokens[where]
        else:
            odd = ["-1", "+1", "1_0", "", "end", "\u0663", "1.0", "007", "1\f2", "\v", "#", "3", "9" * 5000]
            odd += [str(2**64), str(2**63), str(2**32)]
            tokens[where] = draw.choice(odd)
        if what > 2:
            lines[at] = " ".join(tokens)
        return "\n".join(lines)

    def check(self, text: str, read: Callable[[str], Any], said: str) -> None:
        """``said`` is the program's first line of this text."""
        tokens = said.split()
        refused = tokens[:2] == ["refused", "format"]
        try:
            read(text)
        except OverflowError as error:  # what no column holds, which the program refuses as a limit or objects to
            self.assertRegex(str(error), "^(amounts|claims.bound|claims.rest)")
        except FormatError as error:
            if tokens[:2] == ["refused", "limit"] or (refused and tokens[3] in SEMANTIC):
                return
            self.assertEqual(tokens[3:5] if refused else said, [error.kind, str(error.line)], text)
        else:
            if refused and tokens[3] == "number":  # a time of 0, or what is above a limit: for the library and the program to refuse
                *_, last = text.split("\n")[int(tokens[4]) - 1].split()
                self.assertTrue(last == "0" or int(last) >= 2**63, text)
            elif refused:
                self.assertIn(tokens[3], SEMANTIC, (said, text))

    def check_all(self, option: str, texts: List[str], read: Callable[[str], Any], command: List[object], **files: str) -> None:
        for seed in range(150):
            draw = Random(f"{option} {seed}")
            text = self.changed(texts[seed % len(texts)], draw)
            ended = program(str(command[0]), *command[1:], **{**files, option: text})
            self.check(text, read, ended.report.split("\n")[0])

    def test_trees(self) -> None:
        texts = [drawn_tree(Random(seed)).text for seed in range(10)]
        self.check_all("tree", [*texts, (EXAMPLES / "five.tree").read_text()], _texts.read_tree, ["post"])

    def test_graphs(self) -> None:
        texts = [drawn_graph(Random(seed)).text for seed in range(10)]
        texts += [(EXAMPLES / name).read_text() for name in ("four.graph", "bridge.graph", "shared.graph")]
        self.check_all("graph", texts, _texts.read_graph, ["bound", "--effort", 0])

    def test_workflows(self) -> None:
        texts = [drawn_workflow(Random(seed)).text for seed in range(10)]
        self.check_all("workflow", [*texts, (EXAMPLES / "branches.workflow").read_text()], _texts.read_workflow, ["segments"])

    def test_orders(self) -> None:
        drawn = drawn_tree(Random(7))
        texts = [listed(drawn_order(Random(seed), drawn.before)) for seed in range(5)]
        self.check_all("order", texts, _texts.read_order, ["replay"], tree=drawn.text)

    def read_plan(self, text: str) -> Any:
        return _texts.read_plan(text, newest=2)

    def test_plans(self) -> None:
        tree, graph = ((EXAMPLES / name).read_text() for name in ("five.tree", "shared.graph"))
        self.check_all("plan", [PLANS, (EXAMPLES / "five.plan").read_text()], self.read_plan, ["check"], tree=tree)
        self.check_all("plan", [BLOCKED, (EXAMPLES / "shared.plan").read_text()], _texts.read_plan, ["check"], graph=graph)

    def test_fences(self) -> None:
        graph, fences = ((EXAMPLES / name).read_text() for name in ("shared.graph", "shared.fences"))
        three = "graph 2\ntasks 3\n0 0 1\n3 0 1\n3 0 1\nitems 1\n4 1 2 3\nend\n"
        text = program("fence", "--bound", 8, "--workers", 2, graph=three, order="1\n2\n3\n").report
        self.check_all("fences", [fences, text], _texts.read_fences, ["check"], graph=graph)

    def test_numbers_that_no_column_holds(self) -> None:
        tree = Tree.read(EXAMPLES / "five.tree")
        with tempfile.TemporaryDirectory() as folder:
            path = Path(folder) / "file"
            path.write_text((EXAMPLES / "five.plan").read_text().replace("R 5 5", f"R 5 {2**63}"))
            self.says(OverflowError, f"claims.rest[0]: {2**63} does not fit 63 bits", tree.read_plan, path)
            fences = without_comments((EXAMPLES / "five.fences").read_text()).split("amounts")
            path.write_text(f"{fences[0]}amounts 1\n{2**64 - 1}\nend\n")
            self.says(OverflowError, f"amounts[0]: {2**64 - 1} does not fit 63 bits", tree.read_fences, path)
        self.says(OverflowError, f"extra[0]: {2**63} does not fit 63 bits", Tree.of_text, f"tree 1\nnodes 1\n0 1 {2**63} 1\nend\n")

    def test_what_is_told(self) -> None:
        with tempfile.TemporaryDirectory() as folder:
            path = os.path.join(folder, "my.tree")
            Path(path).write_text("# of one node\ntree 1\nnodes 1\n0 7 2\nend\n")
            words = f"{path}, line 4: whole numbers should stand here, as many as the format says (number)"
            self.says(FormatError, words, Tree.read, path)
            with self.assertRaises(FileNotFoundError):
                Graph.read(os.path.join(folder, "none.graph"))


if __name__ == "__main__":
    unittest.main()
