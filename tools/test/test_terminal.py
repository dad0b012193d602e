"""What ./memplan adds at a terminal: below wrong words and refused files, by hand; and that the program's own bytes and status stay as they are."""

import gzip
import os
import shutil
import signal
import subprocess
import sys
import tempfile
import threading
import time
import unittest
from pathlib import Path
from typing import Dict, List, NamedTuple, Optional, Sequence, Tuple, Union

sys.dont_write_bytecode = True
from test_program import PROGRAM, ROOT, SYSTEM, Repository  # noqa: E402: so that nothing is written beside it

SCRIPTS = ["tools/terminal.sh", "tools/help.sh", "tools/explain", "tools/commands.py", *(f"tools/explaining/{it}.py" for it in ("__init__", "files", "formats", "judged", "objections")), "c/memplan.h"]
Text = Union[str, bytes]


class Ran(NamedTuple):
    """How a run ended, what it wrote to standard output, and what to standard error."""

    status: int
    out: bytes
    said: bytes


def run_at_terminal(words: Sequence[str], where: Path, environment: Dict[str, str], out_too: bool = False, **more: object) -> Ran:
    """Runs words with a terminal as standard error, and as standard output too if that is asked for."""
    ours, theirs = os.openpty()
    out = theirs if out_too else subprocess.PIPE
    run = subprocess.Popen(words, cwd=where, env=environment, stdin=more.pop("stdin", subprocess.DEVNULL), stdout=out, stderr=theirs, **more)
    os.close(theirs)
    said: List[bytes] = []

    def read() -> None:
        try:
            while text := os.read(ours, 65536):
                said.append(text)
        except OSError:  # that is how a terminal says that nobody writes to it any more
            pass

    reader = threading.Thread(target=read)
    reader.start()
    printed = b"" if out_too else run.stdout.read()
    status = run.wait(timeout=60)
    reader.join()
    os.close(ours)
    if run.stdout:
        run.stdout.close()
    return Ran(status, printed, b"".join(said).replace(b"\r\n", b"\n"))


class TerminalTest(unittest.TestCase):
    @classmethod
    def setUpClass(cls) -> None:
        folder = tempfile.TemporaryDirectory()
        cls.addClassCleanup(folder.cleanup)
        cls.repository = Repository(Path(folder.name))
        cls.top = cls.repository.top
        for name in SCRIPTS:
            (cls.top / name).parent.mkdir(exist_ok=True)
            shutil.copy(ROOT / name, cls.top / name)
        shutil.copytree(ROOT / "examples", cls.top / "examples", dirs_exist_ok=True)
        cls.environment = cls.repository.environment(False)
        cls.where = cls.top / "examples"

    def run_bare(self, words: Sequence[str], program: Optional[Path] = None, **more: object) -> Ran:
        environment = more.pop("environment", self.environment)
        done = subprocess.run([program or self.top / "prebuilt/Linux-x86_64/memplan", *words], cwd=self.where, env=environment, stdin=subprocess.DEVNULL, capture_output=True, timeout=60, **more)
        return Ran(done.returncode, done.stdout, done.stderr)

    def at_terminal(self, words: Sequence[str], **more: object) -> Ran:
        environment = more.pop("environment", self.environment)
        return run_at_terminal([str(self.top / "memplan"), *words], self.where, environment, **more)

    def check(self, words: Sequence[str], status: int, printed: str, *added: str, **more: object) -> str:
        """The program's status and line, the same bytes by the wrapper, and the words that are added at a terminal; what is added comes back."""
        bare = self.run_bare(words, **more)
        self.assertEqual((bare.status, (bare.out + bare.said).decode().partition("\n")[0]), (status, printed))
        self.assertEqual(self.run_bare(words, self.top / "memplan", **more), bare)
        ran = self.at_terminal(words, **more)
        self.assertEqual((ran.status, ran.out, ran.said[: len(bare.said)]), (bare.status, bare.out, bare.said))
        rest = ran.said[len(bare.said) :].decode()
        for word in added:
            self.assertIn(word, rest)
        self.assertNotRegex(rest, "Traceback|line [0-9]+: .*(command|unbound|syntax)")
        return rest


# ---- wrong words

TREE, MATRIX, WORKFLOW, GRAPH = "--tree five.tree", "--matrix arrow.mtx", "--workflow branches.workflow", "--graph four.graph"
ORDER, PLAN, PERM = "--order five.order", "--plan five.plan", "--perm arrow.perm"
# The words, and what is said of them.
WRONG: List[Tuple[str, List[str]]] = [
    ("", ["usage: memplan COMMAND OPTIONS", "plan      an order of least peak", "demo ", "help plan"]),
    ("--help", ["usage: memplan COMMAND OPTIONS"]),
    ("-h", ["usage: memplan COMMAND OPTIONS"]),
    ("help", ["usage: memplan COMMAND OPTIONS"]),
    ("help plan", ["usage: memplan plan [--print text|json] (INPUT | --graph FILE [--order FILE]", "--ordering natural|mindeg", "certificate"]),
    ("help plna", ["usage: memplan COMMAND OPTIONS", "memplan: there is no command plna; do you mean plan?"]),
    ("help me", ["usage: memplan COMMAND OPTIONS", "memplan: there is no command me\n"]),
    ("help plan", ["\nINPUT is TREE, or --workflow FILE\n", "\nTREE is --tree FILE, or MATRIX\n"]),
    ("plan --help", ["usage: memplan plan [--print text|json] (INPUT | --graph FILE [--order FILE]"]),
    (f"fronts {MATRIX} -h", ["usage: memplan fronts --matrix FILE", "--workers W"]),
    ("--version", ["memplan 1."]),
    (f"paln {TREE}", ["there is no command paln; do you mean plan?"]),
    (f"PLAN {TREE}", ["there is no command PLAN; do you mean plan?"]),
    (f"order {TREE}", ["there is no command order", "'memplan help'"]),
    (f"{TREE} plan", ["the command comes first, then its options: memplan plan --tree"]),
    ("five.tree", ["there is no command five.tree"]),
    ("plan five.tree", ["five.tree stands where an option is expected", "--tree five.tree"]),
    ("plan --tre five.tree", ["there is no option --tre of plan; do you mean --tree?"]),
    ("plan --martix arrow.mtx", ["there is no option --martix of plan; do you mean --matrix?"]),
    ("plan -tree five.tree", ["-tree: an option begins with two hyphens, as --tree"]),
    (f"segments {GRAPH}", ["--graph is no option of segments, but of plan, check, replay, simulate, fence, spill, reduce, bound, upgrade"]),
    (f"plan {TREE} --effort 9", ["--effort goes with --graph, which is not given"]),
    (f"post {WORKFLOW}", ["--workflow is no option of post, but of plan, check"]),
    (f"tree {TREE}", ["--tree is no option of tree, but of plan"]),
    ("plan --tree", ["--tree has no value; it is --tree FILE"]),
    ("plan --tree --print json", ["--tree has no value, and --print comes next"]),
    ("plan --tree=", ["--tree has an empty value"]),
    ("plan --tree -", ["- is no file", "/dev/stdin"]),
    (f"plan {TREE} {TREE}", ["--tree is given twice"]),
    ("plan", ["plan wants --tree, --workflow, --matrix or --graph"]),
    (f"plan {TREE} {WORKFLOW}", ["of --tree, --workflow, --matrix and --graph one alone is given"]),
    (f"plan {TREE} --ordering mindeg", ["--ordering goes with --matrix, which is not given"]),
    (f"plan {MATRIX} --ordering amd", ["amd is no value of --ordering; it is --ordering natural|mindeg"]),
    (f"plan {MATRIX} --ordering MINDEG", ["MINDEG is no value of --ordering", "natural|mindeg"]),
    (f"plan {MATRIX} {PERM} --ordering mindeg", ["of --perm, --iperm and --ordering one alone is given"]),
    (f"tree {MATRIX} {PERM} --iperm arrow.iperm", ["of --perm, --iperm and --ordering one alone is given"]),
    (f"fronts {MATRIX} --iperm arrow.iperm --ordering mindeg --bound 4 --workers 1", ["of --perm, --iperm and --ordering one alone is given"]),
    (f"post {TREE} --iperm arrow.iperm", ["--iperm goes with --matrix, which is not given"]),
    ("columns --help", ["usage: memplan columns MATRIX [--order FILE | --plan FILE] [--print text|perm]", "--iperm FILE"]),
    (f"column {MATRIX}", ["there is no command column; do you mean columns?"]),
    ("columns", ["columns wants --matrix"]),
    (f"columns {TREE}", ["--tree is no option of columns, but of plan"]),
    (f"columns {MATRIX} {ORDER} {PLAN}", ["of --order and --plan one alone is given"]),
    (f"columns {MATRIX} --print json", ["json is no value of --print; it is --print text|perm"]),
    (f"columns {MATRIX} --print", ["--print has no value; it is --print text|perm"]),
    (f"plan {MATRIX} --print perm", ["perm is no value of --print; it is --print text|json"]),
    (f"plan {MATRIX} --inplace", ["--inplace has no value; it is --inplace no|yes"]),
    (f"plan {MATRIX} --inplace true", ["true is no value of --inplace; it is --inplace no|yes"]),
    (f"plan {MATRIX} --shape full", ["full is no value of --shape", "triangle|square"]),
    (f"plan {MATRIX} --amalgamate -1", ["--amalgamate -1: a value does not begin with a hyphen"]),
    (f"plan {MATRIX} --amalgamate 10%", ["10% is no whole number"]),
    (f"plan {MATRIX} --amalgamate 1099511627777", ["a number from 0 to 1099511627776"]),
    (f"plan {TREE} --print yaml", ["yaml is no value of --print; it is --print text|json"]),
    (f"replay {TREE}", ["replay wants --order or --plan"]),
    (f"replay {TREE} {ORDER} {PLAN}", ["of --order and --plan one alone is given"]),
    (f"check {TREE}", ["check wants --plan or --fences"]),
    (f"check {TREE} {PLAN} --fences five.fences", ["of --plan and --fences one alone is given"]),
    (f"check {TREE} --fences five.fences --workers 2", ["--workers goes with --plan, which is not given"]),
    (f"check {TREE} {PLAN} --workers 0", ["--workers 0: it is a number from 1 to 4096"]),
    (f"check {TREE} {PLAN} --workers 5000", ["--workers 5000: it is a number from 1 to 4096"]),
    (f"simulate {TREE} {ORDER} --workers 2", ["simulate wants --bound"]),
    (f"simulate {TREE} {ORDER} --bound 1GB --workers 2", ["--bound 1GB: 1GB is no whole number"]),
    (f"spill {TREE} {ORDER} --bound 18446744073709551616", ["a number from 0 to 18446744073709551615"]),
    (f"simulate {GRAPH} {TREE} {ORDER} --bound 16 --workers 2", ["of --tree, --workflow, --matrix and --graph one alone is given"]),
    (f"simulate {GRAPH} {PERM} {ORDER} --bound 16 --workers 2", ["--perm goes with --matrix, which is not given"]),
    (f"simulate {GRAPH} {ORDER} --bound 16", ["simulate wants --workers"]),
    (f"spill {ORDER} --bound 16", ["spill wants --tree, --workflow, --matrix or --graph"]),
    (f"spill {GRAPH} {ORDER}", ["spill wants --bound"]),
    (f"spill {GRAPH} {ORDER} --bound 16 --workers 2", ["--workers is no option of spill, but of check, fronts, simulate, fence"]),
    (f"fence {TREE} {ORDER}", ["--order goes with --bound, which is not given"]),
    (f"fence {TREE} {PLAN} --workers 2", ["--plan goes with --bound, which is not given"]),
    ("fence --bound 16", ["fence wants --tree, --workflow, --matrix or --graph"]),
    (f"fence {TREE} {ORDER} {PLAN} --bound 16", ["of --order and --plan one alone is given"]),
    (f"fence {ORDER} --bound 16", ["fence wants --tree, --workflow, --matrix or --graph"]),
    (f"fence {TREE} {ORDER} --bound 11 --workers 5000", ["--workers 5000: it is a number from 1 to 4096"]),
    (f"fronts {MATRIX} --bound 4", ["fronts wants --workers"]),
    (f"fence {TREE} --fewest yes", ["--fewest goes with --bound, which is not given"]),
    (f"fence {TREE} --bound 16 --fewest", ["--fewest has no value; it is --fewest no|yes"]),
    (f"fence {TREE} --bound 16 --fewest true", ["true is no value of --fewest; it is --fewest no|yes"]),
    (f"plan {TREE} --fewest yes", ["--fewest is no option of plan, but of fence"]),
    (f"reduce {WORKFLOW}", ["--workflow is no option of reduce"]),
    (f"reduce {ORDER}", ["reduce wants --graph"]),
    (f"reduce {GRAPH} {ORDER} {PLAN}", ["of --order and --plan one alone is given"]),
    (f"upgrade {TREE} --priority four.priority", ["--priority goes with --plan, which is not given"]),
    ("demo", ["demo wants --seed or --rows"]),
    ("demo --seed 1", ["--seed goes with --tasks, which is not given"]),
    ("demo --seed 1 --tasks 0", ["--tasks 0: it is a number from 1 to 1000000"]),
    ("demo --kind cube --seed 1 --tasks 3", ["cube is no value of --kind; it is --kind tree|workflow|grid"]),
    ("demo --kind grid --seed 1 --tasks 3", ["--kind grid goes with --rows, which is not given"]),
    ("demo --rows 2 --cols 2", ["--rows goes with --kind grid, which is not given"]),
    ("demo --kind grid --rows 1000 --cols 1000", ["do not go together", "help demo"]),
    (f"plan -- {TREE}", ["-- names no option"]),
]


class Words(TerminalTest):
    def test_each_wrong_line_is_told_what_is_wrong_with_it(self) -> None:
        self.assertGreaterEqual(len(WRONG), 45)
        for line, added in WRONG:
            with self.subTest(line):
                self.check(line.split(), 2, "memplan: usage", *added)

    def test_words_that_are_empty_or_not_utf_8(self) -> None:
        self.check(["plan", "--tree", ""], 2, "memplan: usage", "--tree has an empty value")
        self.check([""], 2, "memplan: usage", "usage: memplan COMMAND OPTIONS")
        self.check([os.fsdecode(b"plan"), "--tree", os.fsdecode(b"\xff.tree")], 2, "memplan: usage", "not UTF-8")
        self.check(["plan", "*"], 2, "memplan: usage", "* stands where an option is expected")


# ---- broken files


def example(name: str) -> str:
    return (ROOT / "examples" / name).read_text()


def put(text: str, line: int, *other: str) -> str:
    """A text with another line, or none, in place of a line."""
    lines = text.splitlines()
    return "".join(f"{it}\n" for it in [*lines[: line - 1], *other, *lines[line:]])


def alter(text: str, old: str, new: str) -> str:
    assert old in text
    return text.replace(old, new, 1)


EXAMPLES = ("five.tree", "five.plan", "arrow.mtx", "branches.workflow", "four.graph", "shared.graph")
FIVE, FIVE_PLAN, ARROW, BRANCHES, FOUR, SHARED = (example(it) for it in EXAMPLES)
GRAPH_PLAN, FENCES = example("shared.plan"), example("five.fences")
POST = "peak 15\norder 5\n1\n2\n3\n4\n5\nend\n"
SCOTCH = "4\n1\t3\n2\t1\n3\t2\n4\t4\n"
JSON = '{"claims":[],"order":[1],"peak":9}\n'
FROM_0 = "1 1 9 1", "4 5 0 1", "3 1 9 1", "4 5 0 1"
SHARE = "tree 2\nnodes 2\n2 3 0 0 1\n0 9 9 5 1\nend\n"
LONG = "%%MatrixMarket matrix coordinate pattern symmetric\n1000 1000 1\n2 1\n"
LONG_PERM = " ".join(str(it if it != 369 else 0) for it in range(1, 1001)) + "\n"
MEANT = {
    "tree": f"plan --tree my.tree",
    "workflow": "plan --workflow my.workflow",
    "graph": "reduce --graph my.graph",
    "matrix": "tree --matrix my.matrix",
    "perm": f"tree {MATRIX} --perm my.perm",
    "iperm": f"tree {MATRIX} --iperm my.iperm",
    "order": f"replay {TREE} --order my.order",
    "plan": f"check {TREE} --plan my.plan",
    "priority": f"simulate {TREE} {ORDER} --bound 11 --workers 2 --priority my.priority",
    "fences": f"check {TREE} --fences my.fences",
}
# What is broken, the kind of file, what it holds, what the program says, and which words say what is wrong.
BROKEN: List[Tuple[str, str, Text, str, List[str]]] = [
    ("end is forgotten", "tree", put(FIVE, 8), "refused format tree no-end 8", ["ends after line 7", "`end`, is not there"]),
    ("nodes 4 for 5", "tree", put(FIVE, 2, "nodes 4"), "refused format tree parent 4", ["line 4: 5 5 0 1", "`nodes 4` above, and the file has 5 lines for nodes"]),
    ("nodes 6 for 5", "tree", put(FIVE, 2, "nodes 6"), "refused format tree count 8", ["line 8: end", "`nodes 6` above, and the file has 5 lines"]),
    ("no nodes", "tree", "tree 1\nnodes 0\nend\n", "refused format tree count 2", ["one node at least"]),
    ("a root of -1", "tree", put(FIVE, 7, "-1 0 0 1"), "refused format tree number 7", ["`-1` has a sign", "the parent of a root is 0"]),
    ("a size of -5", "tree", put(FIVE, 4, "5 -5 0 1"), "refused format tree number 4", ["line 4: 5 -5 0 1", "`-5` has a sign"]),
    ("a size of +5", "tree", put(FIVE, 4, "5 +5 0 1"), "refused format tree number 4", ["`+5` has a sign"]),
    ("parents from 0", "tree", "".join(f"{it}\n" for it in ("tree 1", "nodes 5", *FROM_0, "-1 0 0 1", "end")), "refused format tree number 7", ["count from 0?"]),
    ("parents from 0, a root of 0", "tree", "".join(f"{it}\n" for it in ("tree 1", "nodes 5", *FROM_0, "0 0 0 1", "end")), "refused format tree cycle 3", ["Node 1 is its own parent", "count from 0?"]),
    ("a parent of 7", "tree", put(FIVE, 5, "7 1 9 1"), "refused format tree parent 5", ["The parent is 7, and there are 5 nodes"]),
    ("1.5", "tree", put(FIVE, 5, "4 1.5 9 1"), "refused format tree number 5", ["my.tree, line 5: 4 1.5 9 1", "`1.5` has a point", "parent out extra time"]),
    ("1e6", "tree", put(FIVE, 5, "4 1e6 9 1"), "refused format tree number 5", ["`1e6` has an exponent"]),
    ("commas", "tree", put(FIVE, 5, "4,1,9,1"), "refused format tree number 5", ["`4,1,9,1` has a comma"]),
    ("a word", "tree", put(FIVE, 5, "4 1 9 fast"), "refused format tree number 5", ["`fast` is no number"]),
    ("2^64", "tree", put(FIVE, 5, "4 18446744073709551616 9 1"), "refused format tree number 5", ["is 2^64 or more"]),
    ("the time is left out", "tree", put(FIVE, 5, "4 1 9"), "refused format tree number 5", ["has 3 numbers, and 4 numbers are wanted"]),
    ("time 0", "tree", put(FIVE, 5, "4 1 9 0"), "refused format tree number 5", ["The time is 0: it is 1 at least"]),
    ("a comment behind a line", "tree", put(FIVE, 5, "4 1 9 1 # leaf"), "refused format tree number 5", ["A comment stands on a line of its own"]),
    ("five columns of tree 1", "tree", put(FIVE, 5, "4 1 9 0 1"), "refused format tree number 5", ["Five are those of `tree 2`"]),
    ("four columns of tree 2", "tree", put(FIVE, 1, "tree 2"), "refused format tree number 3", ["Four are those of `tree 1`"]),
    ("the first line is forgotten", "tree", put(FIVE, 1), "refused format tree header 1", ["The first line, `tree 1`, is not there"]),
    ("tree 3", "tree", put(FIVE, 1, "tree 3"), "refused format tree header 1", ["the versions 1 and 2"]),
    ("a plan", "tree", FIVE_PLAN, "refused format tree header 1", ["is a plan file, which `plan` does not take"]),
    ("a matrix", "tree", ARROW, "refused format tree header 2", ["is a matrix file, which is given by `--matrix`"]),
    ("compressed", "tree", gzip.compress(FIVE.encode(), mtime=0), "refused format tree header 1", ["compressed by gzip", "`gunzip` it first"]),
    ("a byte order mark", "tree", b"\xef\xbb\xbf" + FIVE.encode(), "refused format tree header 1", ["byte order mark", "tail -c +4"]),
    ("UTF-16", "tree", FIVE.encode("utf-16"), "refused format tree header 1", ["UTF-16", "iconv"]),
    ("UTF-16 without a mark", "tree", FIVE.encode("utf-16-le"), "refused format tree header 1", ["UTF-16"]),
    ("line ends of CR", "tree", FIVE.replace("\n", "\r"), "refused format tree header 1", ["carriage return alone", "tr '\\r' '\\n'"]),
    ("an own parent", "tree", put(FIVE, 5, "3 1 9 1"), "refused format tree cycle 5", ["line 5: 3 1 9 1", "Node 3 is its own parent"]),
    ("two parents of each other", "tree", put(FIVE, 4, "1 5 0 1"), "refused format tree cycle 3", ["round in a ring and to no root: 1, 2, 1"]),
    ("too great a share", "tree", SHARE, "refused format tree share 4", ["The share of node 2 is 5, and the blocks of its children are 3"]),
    ("text after end", "tree", f"{FIVE}more\n", "refused format tree count 9", ["Nothing comes after `end`"]),
    ("a size of 2^41", "tree", put(FIVE, 4, "5 2199023255552 0 1"), "refused limit tree size", ["my.tree, line 4: 5 2199023255552 0 1", "more than 2^40"]),
    ("all sizes together", "tree", "tree 1\nnodes 600000\n" + "600000 1099511627776 1099511627776 1\n" * 600000, "refused limit tree total", ["line 524291:", "pass 2^60"]),
    ("too many nodes", "tree", "tree 1\nnodes 1000001\n", "refused limit tree tasks", ["line 2: nodes 1000001", "1,000,000"]),
    ("an empty file", "tree", "", "refused format tree no-end 1", ["my.tree is empty"]),
    ("a web page", "matrix", "<!DOCTYPE html>\n<html>\n", "refused format matrix banner 1", ["is a web page"]),
    ("compressed", "matrix", gzip.compress(ARROW.encode(), mtime=0), "refused format matrix banner 1", ["`gunzip` it first"]),
    ("one percent sign", "matrix", ARROW[1:], "refused format matrix banner 1", ["two percent signs"]),
    ("no banner", "matrix", put(ARROW, 1), "refused format matrix banner 1", ["line 1: 4 4 3", "`%%MatrixMarket matrix coordinate pattern symmetric`"]),
    ("a tree", "matrix", FIVE, "refused format matrix banner 1", ["is a tree file, which `tree` does not take"]),
    ("a dense matrix", "matrix", alter(ARROW, "coordinate", "array"), "refused format matrix array-format 1", ["dense"]),
    ("a rectangle", "matrix", alter(ARROW, "4 4 3", "4 5 3"), "refused format matrix not-square 2", ["line 2: 4 5 3", "not square"]),
    ("symetric", "matrix", alter(ARROW, "symmetric", "symetric"), "refused format matrix symmetry 1", ["`symmetric`, `hermitian`"]),
    ("float", "matrix", alter(ARROW, "pattern", "float"), "refused format matrix field 1", ["`real`, `double`"]),
    ("an index of 0", "matrix", alter(ARROW, "2 1\n", "0 1\n"), "refused format matrix index 3", ["line 3: 0 1", "numbered from 1 to 4", "count from 0?"]),
    ("an index of 5", "matrix", alter(ARROW, "4 1\n", "5 1\n"), "refused format matrix index 5", ["row 5 and column 1, and the matrix has 4"]),
    ("an entry too many", "matrix", f"{ARROW}4 3\n", "refused format matrix too-many 6", ["says 3 entries, and the file has 4"]),
    ("an entry too few", "matrix", alter(ARROW, "4 4 3", "4 4 4"), "refused format matrix too-few 6", ["says 4 entries, and the file has 3"]),
    ("no values", "matrix", alter(ARROW, "pattern", "real"), "refused format matrix entry 3", ["`real` matrix is its row, its column and 1 value"]),
    ("values of a pattern", "matrix", alter(ARROW, "2 1\n", "2 1 0.5\n"), "refused format matrix entry 3", ["`pattern` matrix is its row, its column and 0 values"]),
    ("a comment by #", "matrix", alter(ARROW, "4 4 3", "# rows\n4 4 3"), "refused format matrix size-line 2", ["begins with `%`"]),
    ("two numbers of size", "matrix", alter(ARROW, "4 4 3", "4 3"), "refused format matrix size-line 2", ["`ROWS COLUMNS ENTRIES`"]),
    ("too many rows", "matrix", alter(ARROW, "4 4 3", "1000001 1000001 3"), "refused limit matrix order", ["line 2: 1000001 1000001 3", "1,000,000"]),
    ("as METIS writes it", "perm", "2\n3\n0\n1\n", "refused format perm range 3", ["line 3: 0", "counts from 0", "METIS writes is the inverse", "by `--iperm`, as it is"]),
    ("as Scotch writes it", "perm", SCOTCH, "refused format perm count 3", ["line 3: 2 1", "Number 2 of line 3 is 1", "by `--iperm`, as it is"]),
    ("a number twice", "perm", "2 3 2 4\n", "refused format perm repeated 1", ["Number 3 of line 1 is 2, which stood before"]),
    ("five numbers for four", "perm", "2 3 1 4 5\n", "refused format perm count 1", ["Number 5 of line 1 is 5", "one more than the 4"]),
    ("commas", "perm", "2, 3, 1, 4\n", "refused format perm number 1", ["`2,` has a comma"]),
    ("one too few", "perm", "2 3 1\n", "refused format perm count 2", ["3 numbers, and 4 are wanted; 4 is missing"]),
    ("too great a number", "perm", "2 3 1 7\n", "refused format perm range 1", ["Number 4 of line 1 is 7, and they are from 1 to 4"]),
    ("Scotch's of another matrix", "iperm", f"{SCOTCH}5\t5\n".replace("4\n", "5\n", 1), "refused format iperm range 1", ["line 1: 5", "wrote it for 5 rows", "another matrix?"]),
    ("another head", "iperm", SCOTCH.replace("4\n", "3\n", 1), "refused format iperm count 1", ["line 1: 3", "first number is 3, and the matrix has 4 rows"]),
    ("a row passed over", "iperm", alter(SCOTCH, "2\t1", "3\t1"), "refused format iperm range 3", ["line 3: 3 1", "Row 3 stands where row 2 is the next one"]),
    ("a place of no row", "iperm", alter(SCOTCH, "3\t2", "3\t0"), "refused format iperm range 4", ["line 4: 3 0", "Row 3 has the place 0, and they are from 1 to 4"]),
    ("a place of two rows", "iperm", alter(SCOTCH, "4\t4", "4\t3"), "refused format iperm repeated 5", ["line 5: 4 3", "Row 4 has the place 3, which stood before"]),
    ("a place twice", "iperm", "3\n1\n2\n2\n", "refused format iperm repeated 4", ["line 4: 2", "Number 1 of line 4 is 2, which stood before"]),
    ("too great a place, from 0", "iperm", "2 0 1 4\n", "refused format iperm range 1", ["is 4, and they are from 0 to 3, as a 0 stands among them"]),
    ("too great a place, from 1", "iperm", "3 1 2 5\n", "refused format iperm range 1", ["is 5, and they are from 1 to 4."]),
    ("five places for four", "iperm", "2 0 1 3 4\n", "refused format iperm count 1", ["Number 5 of line 1 is 4", "one more than the 4"]),
    ("commas", "iperm", "2, 0, 1, 3\n", "refused format iperm number 1", ["`2,` has a comma"]),
    ("one too few", "iperm", "2\n0\n1\n", "refused format iperm count 4", ["3 numbers, and 4 are wanted; 3 is missing", "place of each row"]),
    ("a matrix", "iperm", ARROW, "refused format iperm range 2", ["is a matrix file, which is given by `--matrix`"]),
    ("a priority from 0", "priority", "0 1 2 3 4\n", "refused format priority range 1", ["counts from 0: add 1"]),
    ("from 0", "order", "0 1 2 3 4\n", "no order 1 unknown", ["Place 1 of the order has 0", "count from 0?"]),
    ("a task of another input", "order", "1 2 3 4 6\n", "no order 5 unknown", ["Place 5 of the order has 6", "another input?"]),
    ("a parent first", "order", "5\n1\n2\n3\n4\n", "no order 1 too-early", ["my.order, line 1: 5", "task 2 comes first", "after its children"]),
    ("one missing", "order", "1 2 3 4\n", "no order 5 missing", ["ends after 4 places, and task 5 is missing"]),
    ("one twice", "order", "1 2 1 4 5\n", "no order 3 repeated", ["Place 3 of the order has task 1, which stood before"]),
    ("a plan", "order", FIVE_PLAN, "refused format order number 1", ["is a plan file, which is given by `--plan`"]),
    ("a report of replay", "order", "peak 15\n", "refused format order no-end 2", ["ends after line 1", "The report of `replay` tells a peak and no order"]),
    ("a report without end", "order", put(POST, 8), "refused format order no-end 8", ["ends after line 7", "`end`, is not there"]),
    ("a report of too few tasks", "order", put(POST, 2, "order 6"), "refused format order count 8", ["line 8: end", "`order 6` above, and the file has 5 numbers"]),
    ("a report of too many tasks", "order", put(POST, 2, "order 4"), "refused format order count 7", ["line 7: 5", "`order 4` above, and the file has 5 numbers"]),
    ("a report and more", "order", f"{POST}more\n", "refused format order count 9", ["Nothing comes after `end`"]),
    ("a report without its order", "order", put(POST, 2), "refused format order header 2", ["line 2: 1", "begins with `peak P` and `order N`"]),
    ("a report with a sign", "order", put(POST, 4, "+2"), "refused format order number 4", ["line 4: +2", "`+2` has a sign"]),
    ("a report with a parent first", "order", "peak 15\norder 5\n2 1\n3 4 5\nend\n", "no order 1 too-early", ["my.order, line 3: 2 1", "task 1 comes first"]),
    ("a report of columns", "order", "columns 1\n1 2 3 4\nend\n", "refused format order number 1", ["is the report of `columns`"]),
    ("commas", "order", "1,2,3,4,5\n", "refused format order number 1", ["`1,2,3,4,5` has a comma"]),
    ("another peak", "plan", alter(FIVE_PLAN, "peak 11", "peak 10"), "no peak 11 10", ["has the peak 11, and the plan says 10"]),
    ("another order", "plan", alter(FIVE_PLAN, "1\n3\n2\n4\n5\n", "1\n3\n2\n5\n4\n"), "no order 4 too-early", ["my.plan, line 6: 5", "task 4 comes first"]),
    ("the last claim is gone", "plan", put(FIVE_PLAN, 13), "refused format plan claim 13", ["line 13: end", "number behind `claims`"]),
    ("the last claim is gone, and counted", "plan", alter(put(FIVE_PLAN, 13), "claims 4", "claims 3"), "no root 13", ["No claim at position 13", "last claim is lost"]),
    ("the first claim is gone", "plan", alter(put(FIVE_PLAN, 10), "claims 4", "claims 3"), "no claim 11 par", ["my.plan, line 11: 11 R 10 10", "by the rules of `par`"]),
    ("cut off", "plan", "".join(FIVE_PLAN.splitlines(True)[:6]), "refused format plan no-end 7", ["ends after line 6", "cut off?"]),
    ("JSON", "plan", JSON, "refused format plan header 1", ["is JSON"]),
    ("a report of post", "plan", POST, "refused format plan header 1", ["the report of `post`"]),
    ("a refusal", "plan", "refused format matrix banner 1\n", "refused format plan header 1", ["a refusal, which an earlier run wrote"]),
    ("tasks 3 for 4", "workflow", put(BRANCHES, 2, "tasks 3"), "refused format workflow task-count 12", ["`tasks 3` above, and the lines for tasks are 4"]),
    ("par is forgotten", "workflow", put(BRANCHES, 13), "refused format workflow not-one-term 13", ["a `par` is missing"]),
    ("par 3 of 2", "workflow", put(BRANCHES, 13, "par 3"), "refused format workflow stack-short 13", ["line 13: par 3", "too few terms"]),
    ("par 1", "workflow", put(BRANCHES, 13, "par 1"), "refused format workflow number 13", ["two terms or more"]),
    ("data is forgotten", "workflow", put(BRANCHES, 3), "refused format workflow stack-short 4", ["such as a `data`, is missing"]),
    ("Task", "workflow", put(BRANCHES, 5, "Task 0 1"), "refused format workflow word 5", ["line 5: Task 0 1", "small letters"]),
    ("the line of tasks is gone", "workflow", put(BRANCHES, 2), "refused format workflow header 2", ["line 2: data 4", "This line is not `tasks N`"]),
    ("time 0", "workflow", put(BRANCHES, 5, "task 0 0"), "refused format workflow number 5", ["The time is 0"]),
    ("an arc to 9", "graph", put(FOUR, 11, "3 9 2"), "refused format graph arc 11", ["leads from 3 to 9, and there are 4 tasks"]),
    ("the line of arcs is gone", "graph", put(FOUR, 7), "refused format graph section 7", ["`arcs M`"]),
    ("an arc to itself", "graph", put(FOUR, 11, "3 3 2"), "refused format graph arc 11", ["from task 3 to itself"]),
    ("a ring", "graph", put(FOUR, 11, "4 1 2"), "refused format graph cycle 3", ["ring waits for the next one: 1, 4, 2, 1"]),
    ("names", "graph", put(FOUR, 8, "load sort 5"), "refused format graph number 8", ["`load` is no number"]),
    ("a workflow", "graph", BRANCHES, "refused format graph header 1", ["is a workflow file, which `reduce` does not take"]),
    ("version 3", "graph", put(FOUR, 1, "graph 3"), "refused format graph header 1", ["versions 1 and 2"]),
    ("arcs in version 2", "graph", put(FOUR, 1, "graph 2"), "refused format graph section 7", ["Line 1 says `graph 2`, whose section is `items M`; `arcs` is that of `graph 1`"]),
    ("items in version 1", "graph", put(SHARED, 2, "graph 1"), "refused format graph section 9", ["Line 1 says `graph 1`, whose section is `arcs M`; `items` is that of `graph 2`"]),
    ("items 3 for 4", "graph", alter(SHARED, "items 4", "items 3"), "refused format graph section 13", ["line 13: 2 4 5", "`items 3` above, and the file has 4 lines for items: is that"]),
    ("items 5 for 4", "graph", alter(SHARED, "items 4", "items 5"), "refused format graph number 14", ["`end` comes after 4 items, and there is `items 5`"]),
    ("arcs 3 for 4", "graph", put(FOUR, 7, "arcs 3"), "refused format graph section 11", ["`arcs 3` above, and the file has 4 lines for arcs: is that"]),
    ("tasks 4 for 5", "graph", put(SHARED, 3, "tasks 4"), "refused format graph section 8", ["`tasks 4` above, and the file has 5 lines for tasks: is that"]),
    ("tasks 6 for 5", "graph", put(SHARED, 3, "tasks 6"), "refused format graph number 9", ["`tasks 6` above, and the file has 5 lines for tasks: is that"]),
    ("the line of items is gone", "graph", put(SHARED, 9), "refused format graph section 9", ["`tasks 5` above, and the file has 9 lines for tasks: was a line `items M` between them left out?"]),
    ("version 3 for a tree", "plan", GRAPH_PLAN, "refused format plan header 3", ["Version 3 is that of a task graph"]),
    ("a join", "fences", put(FENCES, 6, "joins 1", "1"), "no joins items", ["line 6: joins 1", "one for each item that several tasks read"]),
    ("room for three", "fences", put(put(FENCES, 4, "workers 3"), 5, "room 6"), "no workers room", ["line 5: room 6", "more than the bound 16: 3 of them with 6 each"]),
    ("a fence to task 6", "fences", put(FENCES, 8, "1 6"), "no fence 1 join", ["line 8: 1 6", "Fence 1 has a join wait", "there are 5 tasks"]),
    ("a fence from task 6", "fences", put(FENCES, 8, "6 1"), "no fence 1 tasks", ["line 8: 6 1", "neither a task nor a join: there are 5 tasks, and joins: 0"]),
    ("a fence to itself", "fences", put(FENCES, 8, "3 3"), "no fence 1 apart", ["line 8: 3 3", "wait for itself"]),
    ("a fence turned round", "fences", put(FENCES, 8, "4 3"), "no fences cycle 3", ["line 7: fences 1", "task or join 3 waits for itself"]),
    ("an amount is gone", "fences", alter(put(FENCES, 15), "amounts 6", "amounts 5"), "no amounts count", ["line 9: amounts 5", "The file has 5 amounts"]),
    ("an amount of 4", "fences", put(FENCES, 11, "4"), "no amount 2 size", ["line 11: 4", "Amount 2, 4, is less than the size of its item"]),
    ("an amount above 2^60", "fences", put(FENCES, 12, str(2**60 + 1)), "no amount 3 limit", ["line 12: 1152921504606846977", "above the limit `total`, which is 2^60"]),
    ("amounts above 2^62", "fences", "".join(f"{it}\n" for it in [*FENCES.splitlines()[:9], *[2**60] * 4, 1, 0, "end"]), "no amounts total", ["line 9: amounts 6", "together are above 2^62"]),
    ("a lower bound", "fences", put(FENCES, 3, "bound 15"), "no bound 16", ["line 3: bound 15", "The amounts certify 16, and the file says bound 15", "Was `bound` lowered"]),
    ("arcs 5 for 4", "graph", put(FOUR, 7, "arcs 5"), "refused format graph number 12", ["`end` comes after 4 arcs, and there is `arcs 5`"]),
]
STATUS = {"refused format": 3, "refused limit": 4}


class FilesTest(TerminalTest):
    def setUp(self) -> None:
        folder = tempfile.TemporaryDirectory()
        self.addCleanup(folder.cleanup)
        self.where = Path(folder.name)
        self.where.chmod(0o755)
        for name in ("five.tree", "five.order", "five.plan", "five.postorder", "arrow.mtx", "arrow.perm", "bridge.graph"):
            shutil.copy(ROOT / "examples" / name, self.where)

    def write(self, name: str, text: Text) -> None:
        (self.where / name).write_bytes(text if isinstance(text, bytes) else text.encode())


class Files(FilesTest):
    def test_each_broken_file_is_told_what_is_wrong_with_it(self) -> None:
        self.assertGreaterEqual(len(BROKEN), 80)
        for what, kind, text, printed, added in BROKEN:
            with self.subTest(f"{kind}: {what}"):
                self.write(f"my.{kind}", text)
                status = STATUS.get(" ".join(printed.split()[:2]), 1)
                rest = self.check(MEANT[kind].split(), status, printed, *added)
                # the line that went into a file, and three lines at most
                self.assertIn(f"memplan: refused, status {status}; in place of a report there is the line: {printed}\n", rest)
                self.assertLessEqual(rest.count("\n"), 4)

    def test_the_token_of_a_permutation_in_one_line(self) -> None:
        self.write("my.mtx", LONG)
        self.write("my.perm", LONG_PERM)
        self.check("tree --matrix my.mtx --perm my.perm".split(), 3, "refused format perm range 1", "Number 369 of line 1 is 0, and they are from 1 to 1000")

    def test_orders_of_other_tools_are_taken_as_their_refusal_says(self) -> None:
        # rows 2, 3, 1, 4 go first to last; so row 1 goes third, row 2 first, row 3 second, row 4 fourth
        taken = self.run_bare(f"tree {MATRIX} {PERM}".split())
        self.write("my.perm", "2\n0\n1\n3\n")
        self.check(f"tree {MATRIX} --perm my.perm".split(), 3, "refused format perm range 2", "give it by `--iperm`, as it is")
        self.assertEqual(self.run_bare(f"tree {MATRIX} --iperm my.perm".split()), taken)
        self.write("my.perm", SCOTCH)
        self.check(f"tree {MATRIX} --perm my.perm".split(), 3, "refused format perm count 3", "give the file by `--iperm`, as it is")
        self.assertEqual(self.run_bare(f"tree {MATRIX} --iperm my.perm".split()), taken)

    def test_a_command_that_takes_no_plan_does_not_name_its_option(self) -> None:
        shutil.copy(ROOT / "examples" / "shared.graph", self.where)
        shutil.copy(ROOT / "examples" / "shared.plan", self.where)
        words = "bound --graph shared.graph --order shared.plan".split()
        rest = self.check(words, 3, "refused format order number 3", "`bound` takes an order alone", "between its lines `order N` and `peak P`")
        self.assertNotIn("--plan", rest)
        words = "post --tree shared.graph".split()
        self.check(words, 3, "refused format tree header 2", "is a graph file, which `post` does not take")

    def test_orders_of_fronts_and_of_workflows(self) -> None:
        # by minimum degree rows 2 and 3 are fronts 1 and 2, whose parent is front 3
        self.write("my.order", "3\n1\n2\n")
        run = f"columns {MATRIX} --ordering mindeg --order my.order".split()
        self.check(run, 1, "no order 1 too-early", "my.order, line 1: 3", "A node comes after its children")
        self.write("my.order", "1 2\n")
        self.check(run, 1, "no order 3 missing", "ends after 2 places")
        # task 1 of the workflow is task 3 of the graph, which waits for task 1, task 4 of the workflow
        self.write("my.graph", FOUR)
        self.write("my.order", "1 2 3 4\n")
        run = "reduce --graph my.graph --order my.order".split()
        rest = self.check(run, 1, "no order 1 too-early", "my.order, line 1: 1 2 3 4", "The order is one of the workflow that `reduce` prints")
        self.assertNotIn("comes first", rest)
        self.write("my.order", "peak 14\norder 4\n4\n1\n1\n3\nend\n")
        self.check(run, 1, "no order 3 repeated", "my.order, line 5: 1", "Place 3 of the order has task 1, which stood before")

    def test_bounds_and_graphs_that_are_refused(self) -> None:
        run = f"{TREE} --order five.postorder --bound"
        self.check(f"simulate {run} 11 --workers 2".split(), 5, "refused bound 11 15", "its peak is 15", "--bound 15 or more, or another order: that of `plan` has the least")
        no_other = ("--bound 11 or more: no order that is known fits within 10. `spill` tells what must go to disk",)
        rest = self.check(f"simulate {TREE} --plan five.plan --bound 10 --workers 2".split(), 5, "refused bound 10 11", "the order of the plan cannot run: its peak is 11", *no_other)
        self.assertNotIn("another order", rest)
        self.check(f"fence {TREE} --bound 10".split(), 5, "refused bound 10 11", "the order that `fence` planned cannot run: its peak is 11", *no_other)
        self.check(f"fronts {MATRIX} --bound 1 --workers 1".split(), 5, "refused bound 1 4", "the fronts cannot be made by their numbers", "--bound 4 or more.")
        self.check(f"spill {run} 9".split(), 10, "refused working-set 1 10 9", "place 1 of the order needs 10 by itself", "10 or more")
        self.check("reduce --graph bridge.graph".split(), 9, "refused graph rest 7", "not series-parallel: 7 arcs are left", "`simulate` and `spill` take any graph")

    def test_graphs_of_version_2_without_a_term(self) -> None:
        # tasks 2 and 3 read the second item side by side
        self.write("my.graph", "graph 2\ntasks 3\n0 0 1\n0 0 1\n0 0 1\nitems 2\n4 1\n6 1 2 3\nend\n")
        run = "reduce --graph my.graph".split()
        self.check(run, 9, "refused graph item 2", "my.graph, line 8: 6 1 2 3", "none of them comes after all the others", "`simulate` and `spill` take any graph")
        # task 4 waits for tasks 1 and 2, and task 3 for task 1 alone
        self.write("my.graph", "graph 2\ntasks 4\n0 0 1\n0 0 1\n0 0 1\n0 0 1\nitems 2\n1 1 3 4\n1 2 4\nend\n")
        self.check(run, 9, "refused graph uses 5", "an arc for each reader of an item", "5 arcs are left")

    def test_orders_and_items_of_graphs(self) -> None:
        # tasks 2, 3 and 4 read what task 1 makes, and task 5 what they make
        self.write("my.graph", SHARED)
        self.write("my.order", "1 2 5 3 4\n")
        run = "--graph my.graph --order my.order"
        early = "Place 3 of the order has task 5, before a task whose data it takes up: task 3 comes first"
        for words in (f"replay {run}", f"simulate {run} --bound 16 --workers 2", f"spill {run} --bound 12"):
            self.check(words.split(), 1, "no order 3 too-early", early, "A task comes after those that make what it reads")
        self.write("my.order", "1 2 3 5\n")
        self.check(f"replay {run}".split(), 1, "no order 4 too-early", "task 4 comes first")
        self.write("my.order", "1 2 3 4\n")
        self.check(f"replay {run}".split(), 1, "no order 5 missing", "task 5 is missing")
        self.write("my.order", "1 2 3 4 5\n")
        self.check(f"simulate {run} --bound 15 --workers 2".split(), 5, "refused bound 15 16", "its peak is 16", "--bound 16 or more, or another order: `plan --graph FILE --order FILE`")
        self.check(f"spill {run} --bound 11".split(), 10, "refused working-set 2 12 11", "place 2 of the order needs 12 by itself", "12 or more")
        self.write("my.graph", put(SHARED, 10, "10 1 2 4 3"))
        self.check(f"spill {run} --bound 12".split(), 3, "refused format graph item 10", "The readers of an item rise")

    def test_evidence_of_a_plan_of_a_graph(self) -> None:
        """Of examples/shared.plan, in which the blockers stand on lines 17, 20 and 23, and its evidence begins at line 12; there are six uses."""
        self.write("my.graph", SHARED)
        claims = "plan 3\norder 5\n1\n2\n3\n4\n5\npeak 16\nbound 16\nclaims 0\nend\n"
        for what, text, printed, added in [
            ("a bound that was raised", alter(GRAPH_PLAN, "bound 16", "bound 17"), "no blocker 1 level", ["line 17: blocker 2 2", "does not show the bound 17", "come to less", "Was `bound` raised?"]),
            ("a set without tasks", GRAPH_PLAN.split("last 3")[0] + "last 0\nbase 0\nend\n", "no set empty", ["line 12: last 0", "there is none in it"]),
            ("a use too many", alter(GRAPH_PLAN, "6 2\n", "7 2\n"), "no set base", ["line 13: base 3", "that the graph has not: there are 6 uses"]),
            ("no task", alter(GRAPH_PLAN, "blocker 4", "blocker 6"), "no blocker 3 task", ["line 23: blocker 6 2", "Blocker 3 is no task of the graph: there are 5 tasks"]),
            ("a task again", alter(GRAPH_PLAN, "blocker 4", "blocker 3"), "no blocker 3 rising", ["line 23: blocker 3 2", "Blocker 3 does not come after the one before"]),
            ("a use of a blocker", alter(GRAPH_PLAN, "6 0\n", "7 0\n"), "no blocker 3 amounts", ["line 23: blocker 4 2", "that the graph has not: there are 6 uses"]),
            ("more than the size", alter(GRAPH_PLAN, "3 10\n", "3 11\n"), "no blocker 3 sizes", ["line 23: blocker 4 2", "more than its size together"]),
            ("an end too low", alter(GRAPH_PLAN, "2 10\n", "2 9\n"), "no blocker 2 level", ["line 20: blocker 3 2", "does not show the bound 16"]),
            ("no task 6", alter(claims, "claims 0", "need 6"), "no need task", ["line 10: need 6", "has no such task: there are 5 tasks"]),
            ("a need too low", alter(claims, "claims 0", "need 2"), "no need low", ["line 10: need 2", "the bound 16: what task 2 reads and needs is less"]),
            ("the start", alter(claims, "claims 0", "need 0"), "no need low", ["what is there before any task has run is less"]),
            ("no states", alter(claims, "claims 0", "states 0"), "no states many", ["line 10: states 0", "More than 0 states were looked at"]),
            ("an order", alter(alter(claims, "bound 16", "bound 17"), "claims 0", "states 99"), "no states order", ["line 10: states 99", "below the bound 17 was found", "Was `bound` raised?"]),
            ("too many states", alter(claims, "claims 0", "states 4000000000"), "no states room", ["line 10: states 4000000000", "more memory than a check may"]),
            ("another peak", alter(claims, "peak 16", "peak 15"), "no peak 16 15", ["has the peak 16, and the plan says 15", "made of another graph?"]),
            ("a plan of a tree", FIVE_PLAN, "refused format plan header 1", ["`check --graph` takes plans of version 3"]),
        ]:
            with self.subTest(what):
                self.write("my.plan", text)
                rest = self.check("check --graph my.graph --plan my.plan".split(), 3 if "refused" in printed else 1, printed, *added)
                self.assertNotIn("no refusal", rest)
        # the tasks 1 and 2 read what is there at the start, and none comes after the other
        self.write("my.graph", "graph 2\ntasks 2\n0 0 1\n0 0 1\nitems 1\n7 0 1 2\nend\n")
        self.write("my.plan", "plan 3\norder 2\n1\n2\npeak 7\nbound 7\nclaims 0\nend\n")
        self.check("check --graph my.graph --plan my.plan".split(), 1, "no term", "my.plan, line 7: claims 0", "`reduce --graph FILE` says why")
        # a task that reads 4, makes 7 and needs 5 beside: the last of three positions
        self.write("my.graph", "graph 2\ntasks 1\n5 0 1\nitems 2\n4 0 1\n7 1\nend\n")
        self.write("my.plan", "plan 3\norder 1\n1\npeak 16\nbound 16\nclaims 1\n3 R 14 7\nend\n")
        self.check("check --graph my.graph --plan my.plan".split(), 1, "no root 3", "my.plan, line 5: bound 16", "The claims do not come to the bound 16 that the plan states", "is a claim lost?")

    def test_a_line_that_is_not_known_is_looked_up(self) -> None:
        for words, added in (("no such objection 5", "docs/REPORTS.md, 'Reports and statuses', says what `no such objection 5` means."), ("refused anew", "says what `refused anew` means")):
            said = subprocess.run([self.top / "tools/explain", *words.split()], capture_output=True, text=True, timeout=60)
            self.assertEqual((said.returncode, said.stderr), (0, ""))
            self.assertIn(added, said.stdout)

    def test_an_order_of_other_options_of_a_matrix(self) -> None:
        # by minimum degree there are three fronts, and without it one
        self.write("my.plan", "plan 1\norder 3\n1\n2\n3\npeak 5\nclaims 0\nend\n")
        asked = "were the options of the matrix (`--perm`, `--iperm`, `--ordering`, `--amalgamate`, ..) those of the run that made it?"
        self.check(f"replay {MATRIX} --plan my.plan".split(), 1, "no order 2 unknown", f"The plan is one of 3 fronts; {asked}")
        self.write("my.order", "1\n")
        self.check(f"replay {MATRIX} --ordering mindeg --order my.order".split(), 1, "no order 2 missing", asked)
        self.write("my.order", "3\n1\n2\n")
        self.check(f"replay {MATRIX} --ordering mindeg --order my.order".split(), 1, "no order 1 too-early", f"A node comes after its children. {asked[0].upper()}{asked[1:]}")

    def test_files_that_cannot_be_read(self) -> None:
        fault = "memplan: read fault"
        self.check("plan --tree my.tree".split(), 6, fault, "there is no file my.tree")
        self.check("replay --tree five.tree --order=my.order".split(), 6, fault, "there is no file my.order")
        self.check("plan --tree .".split(), 6, fault, "--tree . is a folder")
        ours, theirs = os.pipe()
        self.check(f"plan --tree /dev/fd/{ours}".split(), 6, fault, f"--tree /dev/fd/{ours} is a pipe", "write it to a file first", pass_fds=(ours,))
        os.close(ours)
        os.close(theirs)
        self.write("my.mtx.gz", gzip.compress(ARROW.encode()))
        self.check("plan --matrix my.mtx".split(), 6, fault, "there is my.mtx.gz", "gunzip it first")

    @unittest.skipUnless(os.geteuid() or shutil.which("setpriv", path=SYSTEM), "setpriv")
    def test_a_file_that_is_not_readable(self) -> None:
        self.write("my.tree", FIVE)
        (self.where / "my.tree").chmod(0)
        as_nobody = {"user": 65534, "group": 65534, "extra_groups": []} if os.geteuid() == 0 else {}
        self.repository.scratch.chmod(0o777)
        self.check("plan --tree my.tree".split(), 6, "memplan: read fault", "--tree my.tree is not readable for you", **as_nobody)

    def test_an_empty_device(self) -> None:
        self.check("plan --tree /dev/null".split(), 3, "refused format tree no-end 1", "/dev/null is empty")

    def test_a_file_that_was_written_over_by_its_own_report(self) -> None:
        self.write("my.tree", FIVE)
        line = f"{self.top}/memplan upgrade --tree my.tree > my.tree"
        ran = run_at_terminal(["bash", "-c", line], self.where, self.environment)
        self.assertEqual((ran.status, (self.where / "my.tree").read_text()), (3, "refused format tree no-end 1\n"))
        self.assertIn(b"write over the input?", ran.said)


class Running(FilesTest):
    """What is not added, and that the program's end comes through."""

    def test_nothing_is_added_where_all_is_well(self) -> None:
        self.assertEqual(self.check("replay --tree five.tree --order five.order".split(), 0, "peak 11"), "")
        self.write("my.order", POST)
        self.assertEqual(self.check("replay --tree five.tree --order my.order".split(), 0, "peak 15"), "")
        # an inverse permutation that counts from 1 is a permutation too: nothing can be said
        self.write("my.perm", "3\n1\n2\n4\n")
        self.assertEqual(self.check(f"tree {MATRIX} --perm my.perm".split(), 0, "tree 1"), "")

    def test_the_line_stands_once_where_all_goes_to_the_terminal(self) -> None:
        ran = self.at_terminal("check --tree my.tree --plan five.plan".split(), out_too=True)
        self.assertEqual((ran.status, ran.said), (6, b"memplan: read fault\nmemplan: there is no file my.tree\n"))
        self.write("my.tree", put(FIVE, 5, "4 1.5 9 1"))
        ran = self.at_terminal("check --tree my.tree --plan five.plan".split(), out_too=True)
        self.assertTrue(ran.said.startswith(b"refused format tree number 5\nmy.tree, line 5: 4 1.5 9 1\n"), ran.said)
        self.assertEqual(ran.said.count(b"refused"), 1)

    def test_without_python_the_line_is_still_told(self) -> None:
        tools = self.where / "bin"
        tools.mkdir()
        for name in ("bash", "env", "readlink", "dirname", "uname", "stat", "cat", "find", "head", "mkdir", "sha256sum", "cut", "mv", "rm", "iconv"):
            (tools / name).symlink_to(shutil.which(name, path=SYSTEM))
        self.write("my.tree", put(FIVE, 8))
        environment = {**self.environment, "PATH": str(tools)}
        ran = self.at_terminal("plan --tree my.tree".split(), environment=environment)
        self.assertEqual((ran.status, ran.out), (3, b"refused format tree no-end 8\n"))
        self.assertIn(b"there is the line: refused format tree no-end 8\nmemplan: docs/REPORTS.md", ran.said)
        self.assertEqual(self.at_terminal(["paln"], environment=environment).said.count(b"\n"), 3)

    def test_standard_input_is_kept(self) -> None:
        with open(self.where / "five.tree", "rb") as file:
            ran = self.at_terminal("post --tree /dev/stdin".split(), stdin=file)
        self.assertEqual((ran.status, ran.out.decode()), (0, POST))
        line = f"{self.top}/memplan post --tree five.tree <&-"
        ran = run_at_terminal(["bash", "-c", line], self.where, self.environment)
        self.assertEqual((ran.status, ran.out.decode(), ran.said), (0, POST, b""))

    def test_a_pipe_that_closes_gets_no_complaint_of_the_wrapper(self) -> None:
        nodes = 200000
        self.write("my.tree", f"tree 1\nnodes {nodes}\n" + f"{nodes} 1 1 1\n" * (nodes - 1) + "0 1 1 1\nend\n")
        program, wrapper = (f"{it} upgrade --tree my.tree | head -n 1; echo ${{PIPESTATUS[0]}}" for it in (PROGRAM, self.top / "memplan"))
        bare = run_at_terminal(["bash", "-c", program], self.where, self.environment)
        self.assertEqual(bare.out, b"tree 2\n7\n")
        self.assertEqual(run_at_terminal(["bash", "-c", wrapper], self.where, self.environment), bare)

    def runs_program(self, wrapper: int) -> bool:
        try:
            children = Path(f"/proc/{wrapper}/task/{wrapper}/children").read_text().split()
            return any(os.readlink(f"/proc/{it}/exe").endswith("/prebuilt/Linux-x86_64/memplan") for it in children)
        except FileNotFoundError:  # a child that has just ended
            return False

    def check_none_is_left(self, group: int) -> None:
        """That all processes of a group end soon."""
        for _ in range(500):
            try:
                os.killpg(group, 0)
            except ProcessLookupError:
                return
            time.sleep(0.02)
        self.fail("a process is left")

    def end_by(self, number: int, to_all: bool) -> Tuple[int, bytes]:
        """How the wrapper ends where a signal comes, to it alone or to its program too, as from a keyboard; no process may be left."""
        ours, theirs = os.openpty()
        words = [str(self.top / "memplan"), "demo", "--seed", "1", "--tasks", "1000000"]
        run = subprocess.Popen(words, env=self.environment, stdout=subprocess.DEVNULL, stderr=theirs, stdin=subprocess.DEVNULL, start_new_session=True)
        os.close(theirs)
        while not self.runs_program(run.pid):
            time.sleep(0.02)
        (os.killpg if to_all else os.kill)(run.pid, number)
        status = run.wait(timeout=20)
        self.check_none_is_left(run.pid)
        try:
            said = os.read(ours, 1000)
        except OSError:
            said = b""
        os.close(ours)
        return status, said

    def test_signals_come_through(self) -> None:
        for number in (signal.SIGINT, signal.SIGTERM, signal.SIGHUP, signal.SIGQUIT):
            for to_all in (True, False):
                with self.subTest(number.name, to_all=to_all):
                    status, said = self.end_by(number, to_all)
                    # bash itself ignores SIGQUIT, and ends with the status that a shell gives it
                    self.assertEqual((status, said), (128 + number if number == signal.SIGQUIT else -number, b""))


if __name__ == "__main__":
    try:
        for end in os.openpty():
            os.close(end)
    except OSError as error:
        print(f"not run: test_terminal.py: there is no pseudo-terminal: {error.strerror}")
        sys.exit(0)
    unittest.main()
