"""That a fact which is told otherwise in one place is found: in copies of the files, each with one number, word or line changed."""

import re
import shutil
import subprocess
import sys
import tempfile
import unittest
from pathlib import Path

ROOT = Path(__file__).resolve().parents[2]
SCRIPT = ROOT / "tools/check_facts.py"
FOLDERS = ["tools", "python/memplan", *(f"crates/{it}" for it in ("judging", "requests", "limits", "c_calls"))]
FOLDERS += [f"crates/{it}_files" for it in ("tree", "workflow", "graph", "matrix", "plan", "fence")]
FILES = ["c/memplan.h", "fortran/memplan.f90", "docs/FORMATS.md", "docs/PLANS.md", "docs/REPORTS.md"]

JUDGING, CALLS, REQUESTS, LIMITS = "crates/judging", "crates/c_calls", "crates/requests/src", "crates/limits"
HEADER, ADMISSION, FUZZ = "c/memplan.h", "python/memplan/admission.py", "tools/fuzz/formats.py"
PAGE, PLANS, REPORTS = "docs/FORMATS.md", "docs/PLANS.md", "docs/REPORTS.md"
# A file, what is changed in it, and what is then said.
STATUSES = [
    (f"{JUDGING}/src/status.rt", r"Status::WorkingSet => 10,", "Status::WorkingSet => 11,", "WORKING_SET is 10 and not 11"),
    (f"{JUDGING}/src/status.rt", r'Some\("memplan: usage"\)', 'Some("memplan: unknown words")', "2 is usage and not unknown words"),
    (f"{JUDGING}/specs/Statuses.antt", r"exit_code_of Limit = 4", "exit_code_of Limit = 5", "LIMIT is 5 and not 4"),
    (f"{CALLS}/src/statuses.rt", r"BOUND: u32 = 5", "BOUND: u32 = 6", f"{CALLS}/src/statuses.rt: BOUND is 6 and not 5"),
    (f"{CALLS}/specs/Statuses.antt", r"\nno_memory = 8", "\nno_memory = 7", "NO_MEMORY is 7 and not 8"),
    (HEADER, r"MEMPLAN_BOUND = 5", "MEMPLAN_BOUND = 6", "BOUND is 6 and not 5"),
    ("fortran/memplan.f90", r"memplan_no_memory = 8", "memplan_no_memory = 7", "NO_MEMORY is 7 and not 8"),
    (REPORTS, r"\n\| 7 \| [^\n]*", "", "7 is missing and not 7"),
    ("tools/check_repository.py", r'6: "read fault"', '6: "load fault"', "6 is load fault and not read fault"),
]
FAULTS = [
    (HEADER, r"MEMPLAN_KIND_SHARE = 18", "MEMPLAN_KIND_SHARE = 19", "SHARE is 19 and not 18"),
    (HEADER, r"enum memplan_kind \{", "enum memplan_fault_kind {", "faults in c/memplan.h: there is none"),
    ("python/memplan/__init__.py", r'\n    72: "[^\n]*', "", "72 is missing and not 72"),
    ("fortran/memplan.f90", r"memplan_kind_row = 66", "memplan_kind_row = 67", "ROW is 67 and not 66"),
    (f"{CALLS}/specs/FaultKinds.antt", r"\nworking_set = 31", "\nworking_set = 32", "WORKING_SET is 32 and not 31"),
    (f"{CALLS}/specs/Faults.antt", r"kinds\.node_room", "kinds.room", "NODE_ROOM is missing and not there"),
]
REFUSALS = [
    ("crates/tree_files/src/kind.rt", r'=> "cycle"', '=> "ring"', "crates/tree_files/specs/Kinds.antt: Cycle is cycle and not ring"),
    ("crates/tree_files/specs/Kinds.antt", r'codes "count"', 'codes "counts"', "Count is counts and not count"),
    ("crates/workflow_files/src/kind.rt", r'WorkflowKind::Word => "word"', 'WorkflowKind::Words => "word"', "Words is missing and not word"),
    ("crates/graph_files/specs/Kinds.antt", r"\nword_of kinds\.Arc = [^\n]*", "", "Arc is missing and not arc"),
    ("crates/matrix_files/src/kind.rt", r'=> "too-few"', '=> "few"', "crates/matrix_files/specs/Kinds.antt: TooFew is too-few and not few"),
    ("crates/matrix_files/specs/OrderKinds.antt", r'order_file_word order_files.Number = codes "number"', 'order_file_word order_files.Number = codes "no"', "Number is no and not number"),
    ("crates/matrix_files/specs/OrderKinds.antt", r'perm_word perms.Range = codes "range"', 'perm_word perms.Range = codes "ranges"', "Range is ranges and not range"),
    ("crates/plan_files/specs/Kinds.antt", r"word_of Claim", "word_of Claims", "Claim is missing and not claim, Claims is claim and not there"),
    ("crates/fence_files/specs/Kinds.antt", r"word_of Join", "word_of Joins", "Join is missing and not join, Joins is join and not there"),
    (PAGE, r"\| the parents of each node lead to a root \| `cycle` \|", "| the parents of each node lead to a root | `ring` |", "'Tree files': cycle is missing and not tree, ring is tree and not there"),
    (PAGE, r"\| `stack-short` \|", "| |", "'Workflow files': stack-short is missing"),
    (PAGE, r"\n\| \| the share of each task is[^\n]*", "", "'Task graph files': share is missing"),
    (PAGE, r"\| as many entries as stated \| `too-few` \|", "| as many entries as stated | limit `entries` |", "'Matrix files': too-few is missing"),
    (PAGE, r"## Permutation files", "## Files of permutations", "'Permutation files': there is none"),
    (PAGE, r"\| a number below 2\^32 \| `number` \|", "| a number below 2^32 | `range` |", "'Order files': number is missing"),
    (PLANS, r"\| claim \| four tokens, the second is `F` or `R` \| `claim` \|", "| claim | four tokens | `section`, `token` |", "'Plan files': token is plan and not there"),
    (PLANS, r"\| fence \| two numbers \| `fence` \|", "| fence | two numbers | `join` |", "'Fence files': fence is missing and not fences"),
    *(
        ("tools/explaining/formats.py", rf'"{kind} {word}"', f'"{kind} 0"', f"tools/explaining/formats.py, {kind}: 0 is {kind} and not there, {word} is missing")
        for kind, word in (("tree", "parent"), ("workflow", "word"), ("graph", "arc"), ("matrix", "banner"), ("order", "number"), ("plan", "claim"), ("fences", "join"))
    ),
    ("tools/explaining/formats.py", r'"number", "count", "range", "repeated"', '"number", "count", "range"', "tools/explaining/formats.py, perm: repeated is missing"),
    ("tools/explaining/formats.py", r'\("perm", "priority"\)', '("perm",)', "tools/explaining/formats.py, priority: there is none"),
    *(
        ("tools/fuzz/judge.py", rf'("{kind}": "[^"]*)\b{word}\b', r"\g<1>0", f"tools/fuzz/judge.py, {kind}: 0 is {same} and not there, {word} is missing")
        for kind, word, same in (
            ("tree", "count", "tree"),
            ("workflow", "share", "workflow"),
            ("graph", "cycle", "graph"),
            ("matrix", "entry", "matrix"),
            ("perm", "count", "perm"),
            ("iperm", "range", "perm"),
            ("order", "number", "order"),
            ("plan", "claim", "plan"),
            ("fences", "amount", "fences"),
            ("priority", "count", "perm"),
        )
    ),
]
OF_LIMITS = [
    (f"{LIMITS}/src/lib.rt", r"MOST_WORKERS: u32 = 4_096", "MOST_WORKERS: u32 = 8_192", "WORKERS is 4096 and not 8192"),
    (f"{LIMITS}/src/lib.rt", r"MOST_ENTRIES: u64 = 10_000_000", "MOST_ENTRIES: u64 = 20_000_000", f"{PAGE}: ENTRIES is 10000000 and not 20000000"),
    (f"{LIMITS}/src/lib.rt", r"MOST_POSITIONS: u64 = [^;]*", "MOST_POSITIONS: u64 = 5 * MOST_ORDER + 1", "POSITIONS is 4000001 and not 5000001"),
    (f"{LIMITS}/specs/Limits.antt", r"most_total = 2 \^ 60", "most_total = 2 ^ 62", f"TOTAL is {2**62} and not {2**60}"),
    (PAGE, r"\| `order` \| 1,000,000 ", "| `order` | 900,000 ", "ORDER is 900000 and not 1000000"),
    (REPORTS, r"N is from 1 to the limit `tasks`", "N is from 1 to 1,000,000", "which states each once: 1000000 is 3 and not 2"),
    (HEADER, r"more than 50,000 columns are not", "more than 60,000 columns are not", "DEGREE is 60000 and not 50000"),
    (HEADER, r"/\* not from 1 to 4,096 \*/", "", "WORKERS is missing and not 4096"),
    (HEADER, r"at most 2\^40 each and", "at most 2^41 each and", f"at most N each and is {2**41} and not {2**40}"),
    (HEADER, r"than 50,000 columns\n", "than 51,000 columns\n", "takes no more than N columns is 51000 and not 50000"),
    (HEADER, r"/\* How many bytes a core takes\. \*/", "/* How many bytes a core takes, at most 100,000. */", "c/memplan.h, which states no limit elsewhere: numbers is"),
    ("python/memplan/__init__.py", r"more than 4,000,001 claims", "more than 4,000,000 claims", "MANY_CLAIMS is 4000000 and not 4000001"),
    ("python/memplan/__init__.py", r'"""A call was refused\.', '"""A call was refused, of more than 1,000,000 tasks.', "python/memplan/__init__.py, which states no limit elsewhere"),
    (ADMISSION, r"is greater than 2\^40", "is greater than 2^41", f"ITEM_SIZE is {2**41} and not {2**40}, SIZE is {2**41} and not {2**40}"),
    (ADMISSION, r"are over 10,000,000 ", "are over 10,000,001 ", "MANY_USES of its table is 10000001 and not 10000000"),
    (ADMISSION, r"MOST_RUNNING = 4096", "MOST_RUNNING = 4095", "RUNNING is 4095 and not 4096"),
    (ADMISSION, r'10: "there is no task"', '10: "there is no task, of 1,000,000 that there may be"', "NO_NODE is 1000000 and not there"),
    (ADMISSION, r"\n_FORMAT = 3", "\n_FORMAT = 3  # of 2^40", f"{ADMISSION}, which states no limit elsewhere"),
    ("python/memplan/_numbers.py", r"at most 2\^60 together", "at most 2^62 together", f"sizes are at most N together is {2**62} and not {2**60}"),
    ("python/memplan/_numbers.py", r"U32 = Width", "# of 1,000,000 tasks\nU32 = Width", "python/memplan/_numbers.py, which states no limit elsewhere"),
    ("python/memplan/_types.py", r"Matrix = Union", "# of 1,000,000 tasks\nMatrix = Union", "whose other files state no limit: _types.py is 1 and not 0"),
    (FUZZ, r"MOST_ARCS = 2_000_001", "MOST_ARCS = 2_000_000", "ARCS is 2000000 and not 2000001"),
    (f"{REQUESTS}/request.rt", r"zeros <= (1 << 40|MOST_ZEROS)", "zeros <= 1 << 41", f"ZEROS is {2**40} and not {2**41}"),
    ("tools/explaining/judged.py", r'"arcs": 2_000_001', '"arcs": 2_000_000', "ARCS is 2000000 and not 2000001"),
    ("tools/drawing/system.py", r"TASK_LIMIT = 1_000_000", "TASK_LIMIT = 2_000_000", "TASK is 2000000 and not 1000000"),
    ("tools/drawing/system.py", r"= 2\*\*40, 2\*\*60, 2\*\*40", "= 2**40, 2**61, 2**40", f"TOTAL is {2**61} and not {2**60}"),
]
COMMANDS = [
    (f"{REQUESTS}/commands.rt", r'"bound", "workers", "matrix"', '"bound", "threads", "matrix"', "fronts is bound iperm matrix ordering perm workers and not bound iperm matrix ordering perm threads"),
    (f"{REQUESTS}/commands.rt", r"TREE, MATRIX_OPTIONS", "MATRIX, MATRIX_OPTIONS", "shape tree and not amalgamate inplace iperm matrix ordering perm shape"),
    (f"{REQUESTS}/request.rt", r'"amalgamate",', '"merge",', "tree is amalgamate inplace iperm matrix ordering perm shape and not inplace iperm matrix merge ordering perm shape"),
    (f"{REQUESTS}/commands.rt", r'name: "spill"', 'name: "disk"', "disk is missing and not"),
    (f"{REQUESTS}/commands/plan.rt", r'"text", "json"', '"text", "yaml"', "plan print is text|json and not text|yaml"),
    (f"{REQUESTS}/commands/columns.rt", r'"text", "perm"', '"text", "order"', "columns print is text|perm and not text|order"),
    (f"{REQUESTS}/commands/fence.rt", r'"no", "yes"', '"no", "few"', "fence fewest is no|yes and not no|few"),
    (f"{REQUESTS}/commands/demo.rt", r'"workflow" =>', '"flow" =>', "kind is tree|workflow|grid and not tree|flow|grid"),
    (f"{REQUESTS}/commands/spill.rt", r'line\.value\("bound"\)', 'line.value("room")', "room is missing and not 0 to 18446744073709551615"),
    (f"{REQUESTS}/request.rt", r'"mindeg" =>', '"amd" =>', "ordering is natural|mindeg and not natural|amd"),
    ("tools/commands.py", r'(name="reduce",[^)]*?)GRAPH,', r"\1GRAPH, TREE,", "reduce is graph order plan tree and not graph order plan"),
    ("tools/commands.py", r'"triangle\|square"', '"square|triangle"', "shape is square|triangle and not triangle|square"),
    ("tools/commands.py", r"0, 2\*\*40\)", "0, 2**41)", "amalgamate is 0 to 2199023255552 and not 0 to 1099511627776"),
    ("tools/commands.py", r"    10: .*\n", "", "10 is missing and not 10"),
    (FUZZ, r'"matrix", "graph"\}, \[\{"order", "plan"\}, \{"bound"\}\]', '"matrix"}, [{"order", "plan"}, {"bound"}]', "spill is amalgamate bound inplace"),
    (FUZZ, r'"seed": \(0, ', '"seed": (1, ', "seed is 1 to 18446744073709551615 and not 0 to 18446744073709551615"),
]
EFFORTS = [
    ("crates/requests/specs/Request.antt", r"default_effort = 1000000000", "default_effort = 1", "Request.antt: EFFORT is 1 and not 1000000000"),
    (HEADER, r"MEMPLAN_EFFORT 1000000000", "MEMPLAN_EFFORT 100000000", "EFFORT is 100000000 and not 1000000000"),
    ("fortran/memplan.f90", r"memplan_effort = 1000000000_", "memplan_effort = 100000000_", "EFFORT is 100000000 and not 1000000000"),
    ("python/memplan/__init__.py", r"EFFORT = 1_000_000_000", "EFFORT = 10_000_000", "EFFORT is 10000000 and not 1000000000"),
]
CHANGES = [*STATUSES, *FAULTS, *REFUSALS, *OF_LIMITS, *EFFORTS, *COMMANDS]
# Says what is compared, and where.
COMPARED = """
import sys
from pathlib import Path
from check_facts import Facts
facts = Facts(Path(sys.argv[1]))
for what in ("statuses", "complaints", "faults", "refusals", "limits", "efforts", "commands"):
    for place, _, _ in getattr(facts, what)():
        print(f"{what} in {place}")
"""


class Facts(unittest.TestCase):
    @classmethod
    def setUpClass(cls) -> None:
        cls.folder = tempfile.TemporaryDirectory()
        cls.top = Path(cls.folder.name)
        for name in FOLDERS:
            shutil.copytree(ROOT / name, cls.top / name, ignore=shutil.ignore_patterns("out", "proofs", "must-fail", "test", "__pycache__"))
        for name in FILES:
            (cls.top / name).parent.mkdir(parents=True, exist_ok=True)
            shutil.copy(ROOT / name, cls.top / name)

    @classmethod
    def tearDownClass(cls) -> None:
        cls.folder.cleanup()

    def said(self, *words: str) -> str:
        done = subprocess.run([sys.executable, "-B", *words, str(self.top)], cwd=SCRIPT.parent, stdout=subprocess.PIPE, stderr=subprocess.STDOUT, text=True)
        return done.stdout

    def test_they_are_the_same(self) -> None:
        self.assertRegex(self.said(str(SCRIPT)), r"^\d+ passed, 0 failed\n$")

    def test_each_change_is_found_and_each_comparison_can_fail(self) -> None:
        compared = set(self.said("-c", COMPARED).splitlines())
        for name, pattern, put, complaint in CHANGES:
            with self.subTest(name, put=put):
                file = self.top / name
                kept = file.read_text(encoding="utf-8")
                changed, count = re.subn(pattern, put, kept)
                self.assertGreaterEqual(count, 1)
                file.write_text(changed, encoding="utf-8")
                said = self.said(str(SCRIPT))
                file.write_text(kept, encoding="utf-8")
                self.assertIn(complaint, said)
                self.assertRegex(said, r"\n\d+ passed, [1-9]\d* failed\n$")
                compared = {it for it in compared if f"FAILED: {it}: " not in said}
        self.assertEqual(compared, set())


if __name__ == "__main__":
    unittest.main()
