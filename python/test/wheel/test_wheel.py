"""The wheel: made, installed where nothing else is, called, checked by mypy where that is there, and removed."""

from __future__ import annotations

import base64
import hashlib
import importlib.util
import os
import re
import subprocess
import sys
import tempfile
import unittest
import zipfile
from pathlib import Path
from typing import Dict, List, Set

TOP = Path(__file__).resolve().parents[3]
VERSION = re.findall(r'MEMPLAN_VERSION "(.*)"', (TOP / "c/memplan.h").read_text(encoding="utf-8"))[0]
LIBRARY = Path(os.environ.get("MEMPLAN_LIBRARY") or TOP / "c/build/libmemplan.so")
PROGRAM = Path(os.environ.get("MEMPLAN_PROGRAM") or TOP / "prebuilt/Linux-x86_64/memplan")
INSIDE, RUN = Path("memplan/libmemplan.so.1"), Path("memplan/memplan")
MYPY = importlib.util.find_spec("mypy") is not None

CALLER = """
import memplan, memplan.admission
from importlib.metadata import version

order, peak = memplan.plan([2, 5, 4, 5, 0], [1, 5, 1, 5, 0], [9, 0, 9, 0, 0])
mapped = {line.split()[-1] for line in open("/proc/self/maps") if "libmemplan" in line}
print(peak, sorted(order), memplan.__version__, version("memplan"), *mapped)
"""

RUNNER = """
from memplan import Tree, _program

tree = Tree([2, 0, 2], [5, 0, 5], [5, 0, 5], names=["down", "top", "up"])
plan = tree.plan(evidence=True)
tree.check(plan)
ran = tree.simulate(plan, bound=15, workers=1)
print(_program.find("simulate"), plan.peak, ran.makespan, ran.used)
"""

# What a checker has to refuse, and nothing else, is told at the ends of lines.
TYPED = """
from typing import List, Tuple

import memplan
from memplan import Certificate, Core, Fences, Graph as Tasks, Plan, Simulation, Tree, Workflow
from memplan.admission import Admission, BoundTooLow, ResultGraph

parent, out, extra = [2, 5, 4, 5, 0], (1, 5, 1, 5, 0), range(5)
order, peak = memplan.plan(parent, out, extra)
replayed: int = memplan.replay(parent, out, extra, order)
certificate: Certificate = memplan.certify(parent, out, extra)
memplan.check(parent, out, extra, certificate._replace(order=[1, 2, 3, 4, 5]))
claims: List[Tuple[int, int, int, int]] = certificate.claims
fronts = memplan.fronts(([0, 3, 3], [1, 2, 3]), shape="square", zeros=4)
memplan.plan(fronts.parent, fronts.out, fronts.extra, fronts.share)
core = Core.of_tree(parent, out, extra, order, peak, 4)
started: bool = core.start(core.activate())
admission = Admission(ResultGraph([(), {0}], [1, 2], [0, 0]), 3)
tasks: List[int] = admission.ready()
version: str = memplan.__version__
tree = Tree(parent, out, extra, base=1, names=["a", "b", "c", "d", "e"])
planned: Plan = tree.plan(evidence=True)
tree.check(planned._replace(order=["a", "b", "c", "d", "e"]))
ran: Simulation = tree.simulate(planned, bound=11, workers=2)
spans: List[Tuple[object, int, int]] = ran.spans()
graph = Tasks([0, 0], [(10, None, {1, 2}), (3, 1, [2])])
fences: Fences = graph.fence([1, 2], bound=13, workers=None)
workflow: Workflow = graph.reduce()
mapped = Tasks.of_mapping({"load": [], "count": ["load"]}, size={"load": 3, "count": 4})
of_dask: Tasks = Tasks.from_dask({"load": 1}, sizes=lambda key: (3, 1))
planned.plot(by="time", bound=15).figure.savefig("plan.png")
above, below = ran.plot(unit="MB")
tree.plot(most=7)
planned.report("report.html", bounds=[11, 15], workers=(2, 4))
planned.plot(by="hours")  # refused
planned.report()  # refused
Tasks.from_dask({"load": 1}, sizes=3)  # refused
Tree.of_mapping({"load": None}, out={"load": 3.5})  # refused
Tree([0], out=[1])  # refused
graph.fence([1, 2])  # refused
planned.orders  # refused
tree.parent = [1]  # refused
memplan.plan([0.5], [1], [2])  # refused
memplan.plan("0", [1], [2])  # refused
memplan.plan({0}, [1], [2])  # refused
memplan.plan(0, [1], [2])  # refused
memplan.replay_system([0], [(1.5, 0, 1)], [1])  # refused
memplan.fronts([[0, 1], [1, 0]])  # refused
memplan.fronts(([0], [1]), shape="round")  # refused
core.start(1.5)  # refused
peak.append(1)  # refused
memplan.spilled  # refused
"""

# With numpy, what comes back is its arrays.
TYPED_ARRAYS = """
import numpy

zeros: "numpy.ndarray[Any, numpy.dtype[numpy.int32]]" = numpy.zeros(3, "int32")
order, peak = memplan.plan(zeros, zeros, zeros)
memplan.replay_system(zeros, numpy.zeros((0, 3), "int64"), order)
core.start(zeros[0])
places: "numpy.ndarray[Any, numpy.dtype[numpy.int64]]" = order - 1
order.append(1)  # refused
numpy.asarray(certificate.order)
"""


def run(*words: object, where: Path = TOP, status: int = 0) -> str:
    """What a command writes, with no variable of this process."""
    environment = {"PATH": "/usr/bin:/bin", "PIP_DISABLE_PIP_VERSION_CHECK": "1", "PYTHONDONTWRITEBYTECODE": "1"}
    done = subprocess.run(
        [str(word) for word in words],
        cwd=where,
        env=environment,
        stdin=subprocess.DEVNULL,
        stdout=subprocess.PIPE,
        stderr=subprocess.PIPE,
        text=True,
    )
    if done.returncode != status:
        raise AssertionError(f"{words}: {done.returncode}: {done.stdout}{done.stderr}")
    return done.stdout


def pip() -> List[str]:
    """Python's own pip, or the one that Debian has for virtual environments."""
    if importlib.util.find_spec("pip"):
        return [sys.executable, "-m", "pip"]
    return [sys.executable, *(f"{it}/pip" for it in Path("/usr/share/python-wheels").glob("pip-*.whl"))]


class Wheel(unittest.TestCase):
    folder: Path
    wheel: Path
    python: Path

    @classmethod
    def setUpClass(cls) -> None:
        folder = tempfile.TemporaryDirectory()
        cls.addClassCleanup(folder.cleanup)
        cls.folder = Path(folder.name)
        cls.wheel = Path(run(sys.executable, TOP / "python/make_wheel.py", cls.folder / "dist", LIBRARY, PROGRAM).rstrip())
        run(sys.executable, "-m", "venv", "--without-pip", cls.folder / "fresh")
        cls.python = cls.folder / "fresh/bin/python"
        cls.bare = cls.installed()
        cls.pip("install", cls.wheel)

    @classmethod
    def pip(cls, verb: str, *words: object) -> str:
        index = [] if verb == "uninstall" else ["--no-index"]
        return run(*pip(), "--quiet", "--python", cls.python, verb, *index, *words, where=cls.folder)

    @classmethod
    def installed(cls) -> Set[Path]:
        return {it for it in (cls.folder / "fresh").rglob("*") if it.name != "__pycache__"}

    def files(self) -> Dict[str, bytes]:
        with zipfile.ZipFile(self.wheel) as wheel:
            return {name: wheel.read(name) for name in wheel.namelist()}

    def test_it_runs_with_nothing_but_python(self) -> None:
        written = run(self.python, "-c", CALLER, where=self.folder).split()
        (library,) = self.folder.glob(f"fresh/lib/python*/site-packages/{INSIDE}")
        self.assertEqual(" ".join(written), f"11 [1, 2, 3, 4, 5] {VERSION} {VERSION} {library}")

    def test_the_lines_of_its_page_run(self) -> None:
        (lines,) = re.findall(r"```python\n(.*?)```", (TOP / "python/README.md").read_text(encoding="utf-8"), re.DOTALL)
        self.assertEqual(run(self.python, "-c", lines, where=self.folder), f"{VERSION} 11\n")

    def test_it_runs_the_program_inside(self) -> None:
        written = run(self.python, "-c", RUNNER, where=self.folder).split()
        (program,) = self.folder.glob(f"fresh/lib/python*/site-packages/{RUN}")
        self.assertEqual(written, [str(program), "15", "3", "15"])

    def test_it_has_the_packages_the_library_and_the_program(self) -> None:
        files = self.files()
        whole = [(above, it) for above in (TOP / "python", TOP / "integrations/dask") for it in above.glob("memplan*/**/*")]
        wanted = {it.relative_to(above).as_posix(): it.read_bytes() for above, it in whole if it.is_file()}
        wanted[str(INSIDE)], wanted[str(RUN)] = LIBRARY.read_bytes(), PROGRAM.read_bytes()
        noted = f"memplan-{VERSION}.dist-info/"
        self.assertEqual({name: it for name, it in files.items() if not name.startswith(noted)}, wanted)
        self.assertEqual(set(files) - set(wanted), {noted + name for name in ("METADATA", "WHEEL", "RECORD")})
        self.assertIn(f"Tag: {self.wheel.stem.split('-', 2)[2]}\n", files[f"{noted}WHEEL"].decode())

    def test_its_record_is_of_its_files(self) -> None:
        files, record = self.files(), f"memplan-{VERSION}.dist-info/RECORD"
        sums = {name: base64.urlsafe_b64encode(hashlib.sha256(it).digest()).decode().rstrip("=") for name, it in files.items()}
        lines = [f"{name},sha256={sums[name]},{len(it)}" for name, it in files.items() if name != record]
        self.assertEqual(files[record].decode().splitlines(), [*lines, f"{record},,"])

    def test_the_extras_are_what_was_tried(self) -> None:
        runner = (TOP / "python/memplan/dask/versions.py").read_text(encoding="utf-8")
        (tried,) = re.findall(r'^TRIED = "(.*)"$', runner, re.MULTILINE)
        lines = self.files()[f"memplan-{VERSION}.dist-info/METADATA"].decode().splitlines()
        self.assertEqual([it for it in lines if it.startswith("Provides-Extra:")], ["Provides-Extra: dask", "Provides-Extra: plot"])
        asked = [it for it in lines if it.startswith("Requires-Dist:")]
        wanted = [f"Requires-Dist: {name} == {tried} ; extra == 'dask'" for name in ("dask", "distributed")]
        wanted += [f"Requires-Dist: {name} ; extra == 'plot'" for name in ("matplotlib >= 3.6", "numpy >= 1.20")]
        self.assertEqual(asked, wanted)

    def test_it_is_removed_whole(self) -> None:
        self.pip("uninstall", "--yes", "memplan")
        self.addCleanup(self.pip, "install", self.wheel)
        self.assertEqual(self.installed(), self.bare)

    @unittest.skipUnless(MYPY, "there is no mypy")
    def test_its_types_refuse_what_the_calls_refuse(self) -> None:
        self.check_types(TYPED, "--python-executable", str(self.python))

    @unittest.skipUnless(MYPY and importlib.util.find_spec("numpy"), "there is no mypy, or no numpy")
    def test_its_types_know_arrays_of_numpy(self) -> None:
        run("cp", "-r", *self.folder.glob("fresh/lib/python*/site-packages/memplan"), self.folder)
        self.check_types(TYPED.replace("import List", "import Any, List") + TYPED_ARRAYS)

    @unittest.skipUnless(MYPY, "there is no mypy")
    def test_its_own_types_are_complete(self) -> None:
        self.mypy("--config-file", TOP / "python/pyproject.toml", TOP / "python/memplan", status=0)

    def check_types(self, caller: str, *words: str) -> None:
        (self.folder / "caller.py").write_text(caller)
        written = self.mypy("--strict", *words, "caller.py", status=1)
        lines = caller.splitlines()
        wanted = {at for at, line in enumerate(lines, 1) if line.endswith("# refused")}
        self.assertEqual({int(at) for at in re.findall(r"^caller\.py:(\d+): error", written, re.MULTILINE)}, wanted, written)

    def mypy(self, *words: object, status: int) -> str:
        return run(sys.executable, "-m", "mypy", "--cache-dir", self.folder / "cache", *words, where=self.folder, status=status)


if __name__ == "__main__":
    unittest.main()
