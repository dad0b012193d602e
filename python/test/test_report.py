"""The page of a plan: what it holds, and in Chromium, where that is there, what it shows and does."""

from __future__ import annotations

import base64
import html
import json
import os
import re
import shutil
import subprocess
import tempfile
import unittest
from pathlib import Path
from random import Random
from typing import Any, Dict, List

from memplan import Graph, Plan, Simulation, TaskRefused, Tree
from samples import EXTRA, FORK, FORKED, OUT, PARENT, Case
from works import drawn_tree, works

try:
    import numpy
except ImportError:
    raise unittest.SkipTest("there is no numpy") from None

from memplan import _report, _systems

NAMES = ["a", "</script><b>b", "c & d", "ü\udcff", "top"]
CHROMIUM = next(filter(None, map(shutil.which, ("chromium", "chromium-browser", "google-chrome"))), None)


def data_in(page: str) -> Dict[str, Any]:
    found = re.findall(r'<script type="application/json" id="data">(.*?)</script>', page, re.DOTALL)
    data: Dict[str, Any] = json.loads(found[0])
    return data


def column_in(data: Dict[str, Any], name: str) -> List[int]:
    kind, text = data["columns"][name]
    values: List[int] = numpy.frombuffer(base64.b64decode(text), "<" + kind).astype("int64").tolist()
    return values


class Pages(Case):
    def setUp(self) -> None:
        folder = tempfile.TemporaryDirectory()
        self.addCleanup(folder.cleanup)
        self.path = Path(folder.name) / "report.html"

    def page(self, plan: Plan, *told: Any, **more: Any) -> str:
        plan.report(self.path, *told, **more)
        return self.path.read_text(encoding="utf-8")


class Data(Pages):
    def test_columns_are_the_course(self) -> None:
        for work, drawn, order, _ in works(10):
            data = data_in(self.page(Plan(order, work.replay(order), 0), work))
            self.assertEqual(column_in(data, "tasks"), order)
            between, during = column_in(data, "between"), column_in(data, "during")
            self.assertEqual(max([*between, *during]), work.replay(order), drawn.text)
            system = _systems.system_of(work)
            self.assertEqual(column_in(data, "size"), system.sizes.tolist())
            columns = (column_in(data, name) for name in ("size", "birth", "death"))
            rows = list(zip(*columns))
            for at, level in enumerate(between):
                self.assertEqual(sum(size for size, start, end in rows if start <= at < end), level, drawn.text)

    def test_claims_stand_on_their_nodes(self) -> None:
        """What a claim says of all orders of a part is so of the least one."""
        seen = set()
        for seed in range(60):
            drawn = drawn_tree(Random(f"claims {seed}"))
            tree = Tree(**{**drawn.columns, "share": [0] * len(drawn.before)})
            plan = tree.plan(evidence=True)
            claims = data_in(self.page(plan))["claims"]
            self.assertEqual(len(claims), len(plan.evidence.position))  # type: ignore[union-attr]
            for node, part, _, bound, _ in claims:
                seen.add(part)
                self.assertGreater(self.least(tree, node, part), bound, (drawn.text, node, part))
        self.assertTrue({_report.TOGETHER, _report.TASK} <= seen)

    def least(self, tree: Tree, node: int, part: int) -> int:
        """The least peak of what a claim is on."""
        if part == _report.START:
            return 0
        if part == _report.BLOCK:
            return int(tree.out[node - 1])
        inside, parent = [], tree.parent.tolist()
        for start in range(1, len(tree) + 1):
            at = start
            while at and at != node:
                at = parent[at - 1]
            if at == node and (part == _report.TASK or start != node):
                inside.append(start)
        place = {it: number for number, it in enumerate(inside, 1)}
        above = [place.get(parent[it - 1], 0) for it in inside]
        return Tree(above, [tree.out[it - 1] for it in inside], [tree.extra[it - 1] for it in inside]).plan().peak if inside else 0

    def test_names_stand_there_as_words(self) -> None:
        tree = Tree(PARENT, OUT, EXTRA, names=NAMES)
        page = self.page(tree.plan(evidence=True), title="</title><script>[data]")
        self.assertEqual(data_in(page)["names"], NAMES)
        self.assertEqual(page.count("</script>"), 2)
        self.assertIn("<title>&lt;/title&gt;&lt;script&gt;[data]</title>", page)
        self.assertNotIn("https://", page)
        self.assertNotIn("http://", page)
        self.assertNotIn("src=", page)

    def test_runs_have_their_bounds(self) -> None:
        tree = Tree(PARENT, OUT, EXTRA)
        plan = tree.plan()
        data = data_in(self.page(plan, bounds=[11, 22], workers=[1, 2], simulations=[tree.simulate(plan, 30, 3)]))
        self.assertEqual([(it["bound"], it["workers"]) for it in data["runs"]], [(30, 3), (11, 1), (22, 1), (11, 2), (22, 2)])
        self.assertEqual([it["makespan"] for it in data["runs"]], [3, 5, 5, 5, 3])
        told = "simulations: one was made by hand, and has no bound"
        self.says(ValueError, told, plan.report, self.path, simulations=[Simulation(1, 1, 1, [], [], [])])  # type: ignore[arg-type]

    def test_what_is_no_plan_is_refused(self) -> None:
        tree = Tree(PARENT, OUT, EXTRA)
        plan = tree.plan(evidence=True)
        told = "plan: its peak is 10, and along its order it is 11"
        self.says(ValueError, told, plan._replace(peak=10).report, self.path)
        claims = plan.evidence._replace(bound=[0] * 4)  # type: ignore[union-attr]
        with self.assertRaises(TaskRefused):
            plan._replace(evidence=claims).report(self.path)
        with self.assertRaises(TaskRefused):
            plan._replace(order=[2, 1, 3, 4, 5]).report(self.path)
        self.assertFalse(self.path.exists())

    def test_each_kind_of_evidence_is_told(self) -> None:
        graph = Graph(FORK, FORKED)
        proof = data_in(self.page(graph.plan(evidence=True)))["proof"]
        self.assertIn("The evidence is", proof[1])
        self.assertIn("plan(evidence=True)", data_in(self.page(graph.plan()))["proof"][0])


# What a reader does, each followed by what is then on the page.
READER = """
<script>
const told = [];
const frames = () => new Promise((go) => requestAnimationFrame(() => requestAnimationFrame(go)));
const words = (id) => document.getElementById(id).textContent;
const tell = async () => { await frames(); told.push([words("moment"), words("node"), view.from, view.to, view.kept]); };
const point = (kind, step) => {
  const box = find("curve").getBoundingClientRect(), x = box.left + seen.x(step + 0.5);
  find("curve").dispatchEvent(new PointerEvent(kind, { clientX: x, clientY: box.top + 60, bubbles: true, pointerId: 1 }));
};
find("curve").setPointerCapture = () => {};
const press = (id, key) => find(id).dispatchEvent(new KeyboardEvent("keydown", { key, bubbles: true, cancelable: true }));
async function read() {
  await tell();
  point("pointermove", 3); await tell();
  press("curve", "ArrowRight"); await tell();
  press("curve", "Escape"); press("curve", "+"); await tell();
  press("curve", "0"); point("pointerdown", 0); point("pointerup", 0); await tell();
  if (parent) { press("tree", "ArrowDown"); await tell(); find("to-step").click(); await tell(); }
  let wrong = 0;
  for (let state = 0; state <= count; state += Math.ceil((count + 1) / 300)) if (heldAt(state).all !== between[state]) wrong += 1;
  const wide = document.documentElement.scrollWidth <= window.innerWidth;
  const found = { told, wrong, wide, faults, held: words("held"), proof: words("proof"), runs: words("runs"), boxes: tree.boxes.length };
  document.body.insertAdjacentHTML("beforeend", '<pre id="found"></pre>');
  document.getElementById("found").textContent = JSON.stringify(found);
}
read();
</script>
</body>
"""
# Without a window no frame comes by itself.
FAULTS = """<script>
const faults = [];
window.addEventListener("error", (it) => faults.push(it.message));
window.requestAnimationFrame = (call) => setTimeout(call, 1);
</script>
<title>"""


@unittest.skipUnless(CHROMIUM, "there is no chromium")
class Reading(Pages):
    def read(self, plan: Plan, window: str = "1100,900", **more: Any) -> Dict[str, Any]:
        page = self.page(plan, **more).replace("<title>", FAULTS, 1).replace("</body>", READER)
        self.path.write_text(page, encoding="utf-8")
        assert CHROMIUM is not None
        words = [CHROMIUM, "--headless=new", "--disable-gpu", f"--window-size={window}", f"--user-data-dir={self.path.parent}/chromium"]
        if os.geteuid() == 0:
            words.append("--no-sandbox")
        words += ["--virtual-time-budget=20000", "--dump-dom", self.path.as_uri()]
        done = subprocess.run(words, stdin=subprocess.DEVNULL, stdout=subprocess.PIPE, stderr=subprocess.DEVNULL, timeout=120)
        found = re.findall(r'<pre id="found">({.*?)</pre>', done.stdout.decode("utf-8", "replace"), re.DOTALL)
        self.assertTrue(found, "the page came to no end")
        data: Dict[str, Any] = json.loads(html.unescape(found[0]))
        self.assertEqual((data["faults"], data["wrong"], data["wide"]), ([], 0, True))
        return data

    def test_a_reader_points_presses_and_clicks(self) -> None:
        tree = Tree(PARENT, OUT, EXTRA, names=["a", "</script><b>b", "c", "d", "top"])
        plan = tree.plan(evidence=True)
        order, peak = list(plan.order), 1 + EXTRA[0] + OUT[0]
        found = self.read(plan, bounds=[11, 15], workers=[2])
        moments = [it[0] for it in found["told"]]
        self.assertIn(f"Step 2 of 5: task {order[1]} runs, and memory goes from 1 to {peak} units — the peak", moments[0])
        self.assertIn(f"Step 4 of 5: task {order[3]} runs", moments[1])
        self.assertIn(f"Step 5 of 5: task {order[4]} runs, and memory goes from 10 to 10 units; then it is 0", moments[2])
        self.assertEqual([it[4] for it in found["told"]], [False, False, True, False, True, True, True])
        self.assertLess(found["told"][3][3] - found["told"][3][2], 5)
        self.assertEqual(found["told"][4][2:4], [0, 5])
        self.assertIn(f"Step 1 of 5: task {order[0]} runs", moments[4])
        self.assertIn("All 5 tasks", found["told"][4][1])
        self.assertIn("Task top: memory 0 units", found["told"][5][1])
        self.assertIn("no order of it has a peak of at most", found["told"][5][1])
        self.assertIn(f"Task {order[0]}: memory 10 units", found["told"][6][1])
        self.assertIn("4 claims", found["proof"])
        self.assertIn("2115112154", found["runs"])

    def test_a_small_window_and_a_graph(self) -> None:
        found = self.read(Graph(FORK, FORKED).plan(evidence=True), window="500,700")
        self.assertIn("of 4: task", found["told"][0][0])
        self.assertEqual(found["boxes"], 0)

    def test_nothing_is_shown(self) -> None:
        self.assertIn("There is no task", self.read(Graph([], []).plan())["told"][0][0])

    def test_100_000_steps(self) -> None:
        count = 100_000
        draw = numpy.random.default_rng(1)
        parent = numpy.minimum(numpy.arange(1, count + 1) + draw.integers(1, 10, count), count)
        parent[-1] = 0
        tree = Tree(parent, draw.integers(0, 100, count), draw.integers(0, 100, count))
        found = self.read(tree.plan(evidence=True))
        self.assertIn("of 100,000: task", found["told"][0][0])
        self.assertGreater(found["boxes"], 2)
        self.assertLess(self.path.stat().st_size, 8_000_000)


if __name__ == "__main__":
    unittest.main()
