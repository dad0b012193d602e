"""What the program writes, by hand: the rows of reports/*.toml, whose runs are compared to the byte.

A file of rows says in its first line what they show. It has tables of these kinds, in any order:

- `[[row]]`: `runs`, each of which is the program's words, cut at blanks, where '' stands for an empty word; the `files` that each of them
  finds, and no others; the `status` of each; what it `prints` to standard output, or how that `ends`, where all print the same; and what it
  `says` to standard error, nothing if that is left out.
- `[[cut]]`: the same for runs that end with status 0, where one `file` is cut off before each of its lines, and without its last two bytes.
  It is then refused as a `kind` of file: at a line for the reason that `starts` has for it, or for all, and at the end for the `last` one.
  Without its last line feed it is read as it is.
- `[[plan]]`: an `input`, as words, and the `peak` of its plan, which is accepted with it and replayed to it. `made` are files that runs print.
- `[[graph_plan]]`: `words` after `plan`, with the graph as file `g`; the `peak` of the plan and its `bound`, and the word of its `evidence`.
  `check` of it says that the peak is least, or above the bound, and the JSON of it says the same.
- `[[fenced]]`: an `input`, and what is `asked` of `fence` beside it, as words; the `bound` and the `workers` of the file that it prints. `check`
  of that says yes.
- `[texts]` and `[runs]`: texts and lists of runs by their names. A string that begins with `@` names one; those of shared.toml are known
  to all files.

A file's text is a string, or a list of strings and of tables of so many `lines`, made by `of`: the first braces of a line stand for the first
number of `from`, which is greater by its `step`, or by 1, from line to line.

The program is that of the environment's MEMPLAN_PROGRAM, or else of prebuilt/.
"""

import json
import subprocess
import sys
import tempfile
import unittest
from collections.abc import Iterator
from pathlib import Path
from typing import Any, NamedTuple, Optional

sys.dont_write_bytecode = True
from test_program import PROGRAM  # noqa: E402: so that nothing is written beside it

try:
    import tomllib
except ImportError:
    print("not run: test_reports.py: Python 3.11 is the first that reads its rows", file=sys.stderr)
    sys.exit(0)

sys.path.append(str(Path(__file__).resolve().parents[1]))
from commands import COMMANDS  # noqa: E402

FOLDER = Path(__file__).resolve().parent / "reports"
SHARED = FOLDER / "shared.toml"
SECONDS = 120

# A file's text, or the pieces that it is made of when it is wanted: some are long.
File = str | list[Any]


class Fault(ValueError):
    """A file of rows is not as it has to be."""


class Row(NamedTuple):
    """Runs that end alike over the same files."""

    runs: list[str]
    files: dict[str, File]
    status: int
    prints: str
    says: str = ""
    is_end: bool = False


class Plan(NamedTuple):
    """An input whose plan has this peak."""

    input: str
    files: dict[str, File]
    made: dict[str, str]
    peak: int


class GraphPlan(NamedTuple):
    """Words that ask for the plan of a graph, and what it has."""

    words: str
    files: dict[str, File]
    peak: int
    bound: int
    evidence: str


class Fenced(NamedTuple):
    """An input, what is asked of `fence` beside it, and the bound and the workers of what it prints."""

    input: str
    asked: str
    files: dict[str, File]
    bound: int
    workers: int


Test = Row | Plan | GraphPlan | Fenced


class Ran(NamedTuple):
    """How a run ended, and what it wrote."""

    status: int
    prints: bytes
    says: bytes


# ---- files of rows


class Names:
    """The texts and runs that strings name."""

    def __init__(self, texts: dict[str, str], runs: dict[str, list[str]]) -> None:
        self.texts, self.runs = texts, runs

    def and_those_of(self, tables: dict[str, Any]) -> "Names":
        texts, runs = tables.get("texts", {}), tables.get("runs", {})
        if twice := self.texts.keys() & texts.keys() | self.runs.keys() & runs.keys():
            raise Fault(f"named twice: {', '.join(sorted(twice))}")
        return Names({**self.texts, **texts}, {**self.runs, **runs})

    def text(self, told: str) -> str:
        return named(self.texts, told) if told.startswith("@") else told

    def runs_of(self, told: Any) -> list[str]:
        found = named(self.runs, told) if isinstance(told, str) else told
        if not found:
            raise Fault("there are no runs")
        return found

    def files_of(self, told: dict[str, Any]) -> dict[str, File]:
        return {name: self.text(it) if isinstance(it, str) else it for name, it in told.items()}


def named(found: dict[str, Any], name: str) -> Any:
    if name[1:] not in found:
        raise Fault(f"nothing is named {name}")
    return found[name[1:]]


def check_keys(told: dict[str, Any], needed: str, allowed: str = "") -> None:
    """A table has what it needs, and nothing that would not be looked at."""
    wanted, known = set(needed.split()), {*needed.split(), *allowed.split()}
    if wrong := (wanted - told.keys()) | (told.keys() - known):
        raise Fault(f"missing or unknown: {', '.join(sorted(wrong))}")


def piece_of(told: Any) -> str:
    """A string, or lines that are made."""
    if isinstance(told, str):
        return told
    check_keys(told, "lines of", "from step")
    count, line, firsts = told["lines"], told["of"], told.get("from", [])
    if not firsts:
        return line * count
    steps = told.get("step", [1] * len(firsts))
    numbers = [range(first, first + step * count, step) for first, step in zip(firsts, steps, strict=True)]
    return "".join(line.format(*each) for each in zip(*numbers, strict=True))


def text_of(file: File) -> str:
    return file if isinstance(file, str) else "".join(map(piece_of, file))


def row_of(told: dict[str, Any], names: Names) -> Row:
    is_end = "ends" in told
    check_keys(told, "runs status ends" if is_end else "runs status prints", "files says")
    prints = names.text(told["ends" if is_end else "prints"])
    return Row(names.runs_of(told["runs"]), names.files_of(told.get("files", {})), told["status"], prints, told.get("says", ""), is_end)


def rows_of_cut(told: dict[str, Any], names: Names) -> Iterator[Row]:
    check_keys(told, "runs files file kind prints starts last")
    runs, files, file = names.runs_of(told["runs"]), names.files_of(told["files"]), told["file"]
    text, whole = text_of(files[file]), names.text(told["prints"])
    lines = text.splitlines(keepends=True)
    kinds = [told["starts"]] * len(lines) if isinstance(told["starts"], str) else told["starts"]
    for before, kind in zip(range(len(lines)), kinds, strict=True):
        start = {**files, file: "".join(lines[:before])}
        yield Row(runs, start, 3, f"refused format {told['kind']} {kind} {before + 1}\n")
    yield Row(runs, files, 0, whole)
    yield Row(runs, {**files, file: text[:-1]}, 0, whole)
    yield Row(runs, {**files, file: text[:-2]}, 3, f"refused format {told['kind']} {told['last']}\n")


def plan_of(told: dict[str, Any], names: Names) -> Plan:
    check_keys(told, "input peak", "files made")
    return Plan(told["input"], names.files_of(told.get("files", {})), told.get("made", {}), told["peak"])


def graph_plan_of(told: dict[str, Any], names: Names) -> GraphPlan:
    check_keys(told, "words files peak bound evidence")
    return GraphPlan(told["words"], names.files_of(told["files"]), told["peak"], told["bound"], told["evidence"])


def fenced_of(told: dict[str, Any], names: Names) -> Fenced:
    check_keys(told, "input asked files bound", "workers")
    return Fenced(told["input"], told["asked"], names.files_of(told["files"]), told["bound"], told.get("workers", 0))


def read(text: str, shared: str) -> Iterator[tuple[str, Test]]:
    """What a file of rows has, each with a name: its kind and its number, and for those of a cut a further number."""
    tables = tomllib.loads(text)
    check_keys(tables, "", "row cut plan graph_plan fenced texts runs")
    names = Names({}, {}).and_those_of(tomllib.loads(shared)).and_those_of(tables)
    for number, told in enumerate(tables.get("row", []), 1):
        yield f"row {number}", row_of(told, names)
    for number, told in enumerate(tables.get("cut", []), 1):
        for part, row in enumerate(rows_of_cut(told, names), 1):
            yield f"cut {number}.{part}", row
    for number, told in enumerate(tables.get("plan", []), 1):
        yield f"plan {number}", plan_of(told, names)
    for number, told in enumerate(tables.get("graph_plan", []), 1):
        yield f"graph_plan {number}", graph_plan_of(told, names)
    for number, told in enumerate(tables.get("fenced", []), 1):
        yield f"fenced {number}", fenced_of(told, names)


def all_rows() -> Iterator[tuple[str, Test]]:
    """What all files have."""
    shared = SHARED.read_text(encoding="utf-8")
    for file in sorted(set(FOLDER.glob("*.toml")) - {SHARED}):
        is_empty = True
        for name, row in read(file.read_text(encoding="utf-8"), shared):
            is_empty = False
            yield f"{file.name}, {name}", row
        if is_empty:
            raise Fault(f"{file.name} has no row")


# ---- runs


class Place:
    """A folder in which the program runs, with these files."""

    def __init__(self, folder: str, files: dict[str, File]) -> None:
        self.folder = Path(folder)
        for name, file in files.items():
            self.put(name, text_of(file).encode())

    def put(self, name: str, text: bytes) -> None:
        (self.folder / name).write_bytes(text)

    def run(self, words: str) -> Ran:
        cut = ["" if word == "''" else word for word in words.split()]
        ended = subprocess.run([PROGRAM, *cut], cwd=self.folder, stdin=subprocess.DEVNULL, capture_output=True, timeout=SECONDS)
        return Ran(ended.returncode, ended.stdout, ended.stderr)


class RowTest(unittest.TestCase):
    """A row is as the program has it."""

    def __init__(self, name: str = "", row: Optional[Test] = None) -> None:
        super().__init__("check")
        self.name, self.row = name, row

    def __str__(self) -> str:
        return self.name

    def check(self) -> None:
        with tempfile.TemporaryDirectory() as folder:
            place = Place(folder, self.row.files)
            if isinstance(self.row, Plan):
                self.check_plan(self.row, place)
            elif isinstance(self.row, GraphPlan):
                self.check_graph_plan(self.row, place)
            elif isinstance(self.row, Fenced):
                self.check_fenced(self.row, place)
            else:
                self.check_runs(self.row, place)

    def check_runs(self, row: Row, place: Place) -> None:
        found = [place.run(words) for words in row.runs]
        printed = found[0].prints if row.is_end else row.prints.encode()
        self.assertTrue(printed.endswith(row.prints.encode()), f"{row.runs[0]}: it ends otherwise")
        for words, ran in zip(row.runs, found):
            self.assertEqual(ran, Ran(row.status, printed, row.says.encode()), f"memplan {words}")

    def printed(self, place: Place, words: str) -> bytes:
        ran = place.run(words)
        self.assertEqual((ran.status, ran.says), (0, b""), f"memplan {words}")
        return ran.prints

    def check_plan(self, plan: Plan, place: Place) -> None:
        for name, words in plan.made.items():
            place.put(name, self.printed(place, words))
        text = self.printed(place, f"plan {plan.input}")
        peaks = [line for line in text.split(b"\n") if line.startswith(b"peak ")]
        self.assertEqual(peaks, [f"peak {plan.peak}".encode()], f"memplan plan {plan.input}")
        place.put("made", text)
        self.assertEqual(self.printed(place, f"check {plan.input} --plan made"), f"yes {plan.peak}\n".encode())
        self.assertEqual(self.printed(place, f"replay {plan.input} --plan made"), f"peak {plan.peak}\n".encode())

    def check_graph_plan(self, plan: GraphPlan, place: Place) -> None:
        text = self.printed(place, f"plan {plan.words}")
        place.put("made", text)
        lines = text.decode().split("\n")
        order = lines[2 : 2 + int(lines[1].removeprefix("order "))]
        peak, bound, evidence = lines[2 + len(order) : 5 + len(order)]
        self.assertEqual((lines[0], peak, bound), ("plan 3", f"peak {plan.peak}", f"bound {plan.bound}"), f"memplan plan {plan.words}")
        self.assertEqual(evidence.split()[0], plan.evidence, f"memplan plan {plan.words}")
        verdict = f"yes {plan.peak} least\n" if plan.peak == plan.bound else f"yes {plan.peak} above {plan.bound}\n"
        self.assertEqual(self.printed(place, "check --graph g --plan made"), verdict.encode())
        place.put("order", "".join(f"{task}\n" for task in order).encode())
        self.assertEqual(self.printed(place, "replay --graph g --order order"), f"peak {plan.peak}\n".encode())
        told = json.loads(self.printed(place, f"plan {plan.words} --print json"))
        self.assertEqual([told["order"], told["peak"], told["bound"]], [[int(task) for task in order], plan.peak, plan.bound])
        self.assertEqual(list(told["evidence"]), [plan.evidence])

    def check_fenced(self, row: Fenced, place: Place) -> None:
        words = f"fence {row.input} {row.asked}"
        text = self.printed(place, words)
        head = f"fences 1\nbound {row.bound}\nworkers {row.workers}\n"
        self.assertTrue(text.startswith(head.encode()), f"memplan {words}: it does not begin with {head!r}")
        place.put("made", text)
        self.assertEqual(self.printed(place, f"check {row.input} --fences made"), f"yes {row.bound}\n".encode())


# ---- whether a wrong row is found

ONE = {"t": "tree 1\nnodes 1\n0 7 2 1\nend\n", "o": "1\n"}
RIGHT = Row(["replay --tree t --order o", "replay --order=o --tree=t"], ONE, 0, "peak 9\n")
UNASKED = Row(["replay"], {}, 2, "", "memplan: usage\n")
PLANNED = Plan("--tree t", ONE, {}, 9)
GRAPH = {"g": "graph 1\ntasks 1\n7 0 1\narcs 1\n1 0 2\nend\n"}
GRAPH_PLANNED = GraphPlan("--graph g", GRAPH, 9, 9, "claims")
FENCED = Fenced("--tree t", "--order o --bound 12", ONE, 12, 0)
TWICE = Row(["demo --seed 1 --tasks 9"] * 2, {}, 0, "\ncheck yes\nend\n", is_end=True)

ROWS = """
[texts]
one = "tree 1\\nnodes 1\\n0 7 2 1\\nend\\n"

[[row]]
runs = ["replay --tree t --order o"]
files = { t = "@one", o = "1\\n" }
status = 0
prints = "peak 9\\n"
"""


class WrongRows(unittest.TestCase):
    def check_refused(self, row: Test) -> None:
        with self.assertRaises(AssertionError):
            RowTest("", row).debug()

    def test_right_ones_pass(self) -> None:
        for row in (RIGHT, UNASKED, PLANNED, GRAPH_PLANNED, FENCED, TWICE):
            RowTest("", row).debug()

    def test_another_status(self) -> None:
        self.check_refused(RIGHT._replace(status=1))
        self.check_refused(UNASKED._replace(status=0))

    def test_another_text_on_either_side(self) -> None:
        for text in ("", "peak 8\n", "peak 9", "peak 9\n\n", "Peak 9\n"):
            self.check_refused(RIGHT._replace(prints=text))
        for text in ("", "memplan: usage", "memplan: read fault\n"):
            self.check_refused(UNASKED._replace(says=text))
        self.check_refused(RIGHT._replace(says="memplan: usage\n"))
        self.check_refused(UNASKED._replace(prints="memplan: usage\n"))

    def test_one_run_of_several(self) -> None:
        self.check_refused(RIGHT._replace(runs=[*RIGHT.runs, "replay --tree t --order t"]))
        self.check_refused(RIGHT._replace(runs=[*RIGHT.runs, "replay"]))

    def test_another_end_and_two_that_differ(self) -> None:
        self.check_refused(TWICE._replace(prints="\ncheck no\nend\n"))
        self.check_refused(TWICE._replace(runs=[*TWICE.runs, "demo --seed 2 --tasks 9"]))

    def test_files_that_are_another_or_not_there(self) -> None:
        self.check_refused(RIGHT._replace(files={**ONE, "o": "1 1\n"}))
        self.check_refused(RIGHT._replace(files={"t": ONE["t"]}))

    def test_another_peak(self) -> None:
        self.check_refused(PLANNED._replace(peak=8))
        self.check_refused(PLANNED._replace(files={"t": "tree 1\n"}))
        self.check_refused(PLANNED._replace(made={"t": "replay"}))
        self.check_refused(GRAPH_PLANNED._replace(peak=8))
        self.check_refused(GRAPH_PLANNED._replace(bound=8))
        self.check_refused(GRAPH_PLANNED._replace(evidence="need"))

    def test_another_bound_and_other_workers(self) -> None:
        self.check_refused(FENCED._replace(bound=11))
        self.check_refused(FENCED._replace(workers=2))
        self.check_refused(FENCED._replace(asked="--order o --bound 8"))
        self.check_refused(FENCED._replace(input="--graph t"))


class FilesOfRows(unittest.TestCase):
    def check_refused(self, text: str, word: str) -> None:
        with self.assertRaisesRegex(Fault, word):
            list(read(text, ""))

    def test_they_are_read_as_they_stand(self) -> None:
        self.assertEqual(list(read(ROWS, "")), [("row 1", RIGHT._replace(runs=RIGHT.runs[:1]))])

    def test_what_would_not_be_looked_at_is_refused(self) -> None:
        self.check_refused(ROWS.replace("[[row]]", "[[rows]]"), "unknown: rows")
        self.check_refused(ROWS.replace("files =", "file ="), "unknown: file")
        self.check_refused(ROWS.replace("prints =", "ends = ''\nprints ="), "unknown: prints")
        self.check_refused(ROWS.replace("status = 0\n", ""), "missing or unknown: status")

    def test_names_are_known_and_named_once(self) -> None:
        self.check_refused(ROWS.replace("@one", "@two"), "nothing is named @two")
        self.check_refused(ROWS.replace('["replay --tree t --order o"]', '"@two"'), "nothing is named @two")
        self.check_refused(ROWS.replace('["replay --tree t --order o"]', "[]"), "no runs")
        with self.assertRaisesRegex(Fault, "named twice: one"):
            list(read(ROWS, "[texts]\none = ''\n"))

    def test_lines_are_made(self) -> None:
        self.assertEqual(piece_of({"lines": 2, "of": "0 1\n"}), "0 1\n0 1\n")
        self.assertEqual(piece_of({"lines": 3, "of": "{} {}\n", "from": [2, 9], "step": [1, -3]}), "2 9\n3 6\n4 3\n")

    def test_a_file_is_cut_before_each_line_and_at_its_end(self) -> None:
        told = {"runs": ["r"], "files": {"f": "a\nbc\n"}, "file": "f", "kind": "k", "prints": "p\n", "starts": ["x", "y"], "last": "z 2"}
        cuts = [(row.files["f"], row.status, row.prints) for row in rows_of_cut(told, Names({}, {}))]
        refused = [("", "x 1"), ("a\n", "y 2"), ("a\nb", "z 2")]
        wanted = [(text, 3, f"refused format k {why}\n") for text, why in refused]
        self.assertEqual(cuts, [*wanted[:2], ("a\nbc\n", 0, "p\n"), ("a\nbc", 0, "p\n"), wanted[2]])

    def test_each_command_and_each_status_is_reached(self) -> None:
        rows = [row for _, row in all_rows() if isinstance(row, Row)]
        answered = {words.split()[0] for row in rows if row.status == 0 for words in row.runs}
        self.assertEqual(answered, {command.name for command in COMMANDS})
        # 7 and 8 want a sink or a memory that fails: reports_tests has them
        self.assertEqual({row.status for row in rows}, {0, 1, 2, 3, 4, 5, 6, 9, 10})


def load_tests(loader: unittest.TestLoader, tests: unittest.TestSuite, pattern: Optional[str]) -> unittest.TestSuite:
    """The tests of this file, and one of each row."""
    own = [loader.loadTestsFromTestCase(case) for case in (WrongRows, FilesOfRows)]
    return unittest.TestSuite([*own, *(RowTest(name, row) for name, row in all_rows())])


if __name__ == "__main__":
    unittest.main()
