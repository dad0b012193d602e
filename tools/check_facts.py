#!/usr/bin/env python3
"""Checks that a fact which stands in several places is the same in all of them.

usage: check_facts.py [FOLDER]      (the repository; the one that this script is in, if nothing else is said)

- The numbers of the statuses: the program and its specification, the calls for C and theirs, the header for C, the module for Fortran,
  docs/FORMATS.md; and what the program says on standard error, as tools/check_repository.py takes it.
- The numbers of the kinds of faults: the calls for C and their specification, the header, and the Python package.
- The words of the kinds of refusals, format by format: the code and the specification of each crate of files, docs/FORMATS.md, what
  tools/explain explains, and what tools/fuzz expects.
- The limits: the constants, their definitions, the table of docs/FORMATS.md, and each number that is stated in the header, in the Python
  package, in tools/fuzz/formats.py, tools/explaining and tools/drawing. The page, the header and the package state no limit elsewhere.
- How many steps a search may take where nothing else is said: the program and its specification, the header, the module for Fortran, and the
  Python package.
- The commands with their options, the words and the numbers that these take, and the statuses: tools/commands.py, of which help and pages are
  made; the commands that take graphs of both versions, as tools/explain names them; and the options and the numbers that tools/fuzz takes.

The last line is 'N passed, M failed', and the status is 0 where none failed.
"""
import ast
import importlib
import math
import re
import sys
from collections import Counter
from pathlib import Path
from types import ModuleType
from typing import Any, Dict, Iterator, List, NamedTuple, Tuple

Numbers = Dict[str, int]
Finding = Tuple[str, dict, dict]  # a place, what stands there, and what has to

STATUS_CODE, STATUS_SPECS = "crates/judging/src/status.rt", "crates/judging/specs/Statuses.antt"
LIMIT_CODE, LIMIT_SPECS = "crates/limits/src/lib.rt", "crates/limits/specs/Limits.antt"
HEADER, FORTRAN = "c/memplan.h", "fortran/memplan.f90"
# The pages: of files, with the limits; of plans and fences; of reports, with the statuses.
PAGE, PLANS, REPORTS = "docs/FORMATS.md", "docs/PLANS.md", "docs/REPORTS.md"
PACKAGE, ADMISSION = "python/memplan/__init__.py", "python/memplan/admission.py"


class Format(NamedTuple):
    """A format: its name in refusals; the crate of its files, where that names its kinds, in code and in its specification; its section."""

    name: str
    code: str
    kinds: str
    specs: str
    word: str
    section: str


FILES = (
    Format("tree", "crates/tree_files/src/kind.rt", "TreeKind", "crates/tree_files/specs/Kinds.antt", "word_of", "Tree files"),
    Format("workflow", "crates/workflow_files/src/kind.rt", "WorkflowKind", "crates/workflow_files/specs/Kinds.antt", "word_of", "Workflow files"),
    Format("graph", "crates/graph_files/src/kind.rt", "GraphKind", "crates/graph_files/specs/Kinds.antt", "word_of", "Task graph files"),
    Format("matrix", "crates/matrix_files/src/kind.rt", "MatrixKind", "crates/matrix_files/specs/Kinds.antt", "word_of", "Matrix files"),
    Format("perm", "crates/matrix_files/src/perm_file.rt", "PermKind", "crates/matrix_files/specs/OrderKinds.antt", "perm_word", "Permutation files"),
    Format("order", "crates/matrix_files/src/order_file.rt", "OrderFileKind", "crates/matrix_files/specs/OrderKinds.antt", "order_file_word", "Order files"),
    Format("plan", "crates/plan_files/src/kind.rt", "PlanKind", "crates/plan_files/specs/Kinds.antt", "word_of", "Plan files"),
    Format("fences", "crates/fence_files/src/kind.rt", "FenceKind", "crates/fence_files/specs/Kinds.antt", "word_of", "Fence files"),
)
# A priority file is judged as a permutation file, and so is one of the inverse.
SAME_KINDS = {"priority": "perm", "iperm": "perm"}

# How a limit is written, and the numbers so written that are widths of C's types and no limits.
WRITTEN = re.compile(r"(?<![\w,])(?:\d{1,3}(?:,\d{3})+|2\^\d+)(?![\w,]\d)")
WIDTHS = {2**31, 2**32, 2**63, 2**64}
# The limit that is passed where a fault has one of these kinds.
LIMITS_OF_KINDS = {
    "WORKERS": "WORKERS",
    "MANY_TASKS": "TASKS",
    "SIZE": "SIZE",
    "LONG_TIME": "TIME",
    "TOTAL": "TOTAL",
    "LONG_ORDER": "TASKS",
    "GREAT_PEAK": "TOTAL",
    "MANY_CLAIMS": "POSITIONS",
    "MANY_ITEMS": "POSITIONS",
    "ITEM_SIZE": "SIZE",
    "MANY_USES": "USES",
    "MANY_COLUMNS": "ORDER",
    "MANY_ENTRIES": "ENTRIES",
    "DEGREE": "MINDEG",
}
# Where else the header and the package state a limit: sentences in which N is its number.
SENTENCES = {
    HEADER: {
        "at most N each and": "SIZE",
        "each and N together": "TOTAL",
        "there are at most N tasks": "TASKS",
        "how long it runs, 1 to N;": "TIME",
        "/* from -N to N */": "TOTAL",
        "/* at most N */": "TOTAL",
        "takes no more than N columns": "MINDEG",
    },
    "python/memplan/_numbers.py": {"sizes are at most N together": "TOTAL"},
}


def factor_of(text: str, known: Numbers) -> int:
    """`1_000`, `1,000`, `2 ^ 40`, `1 << 40`, or a name that is known, as a number."""
    base, power, exponent = text.partition("^")
    one, shift, count = text.partition("<<")
    if power or shift:
        return factor_of(base, known) ** factor_of(exponent, known) if power else factor_of(one, known) << factor_of(count, known)
    return known.get(text.strip()) or int(re.sub(r"[_,]", "", text))


def number_of(text: str, known: Numbers = {}) -> int:
    """A number, a sum of products, as `4 * MOST_TASKS + 1`, or the greater of two: `if A < B { B } else { A }`, `max (A) (B)`."""
    choice = re.fullmatch(r"if ([^<{]+) < ([^{]+) \{\s*\2\s*\} else \{\s*\1\s*\}|max \(([^()]+)\) \(([^()]+)\)", text.strip())
    if choice:
        return max(number_of(part, known) for part in choice.groups() if part)
    terms = text.replace("**", "^").split("+")
    return sum(math.prod(factor_of(factor, known) for factor in term.split("*")) for term in terms)


def numbers_in(text: str, pattern: str) -> Numbers:
    """The names and numbers that a pattern with these two groups finds; a number may be told by the names before it."""
    found: Numbers = {}
    for name, number in re.findall(pattern, text, re.M):
        found[name] = number_of(number, found)
    return found


def short(numbers: Numbers) -> Numbers:
    """`MOST_TASKS` and `most_tasks` as `TASKS`."""
    return {name[len("most_") :].upper(): number for name, number in numbers.items()}


def written_in(text: str) -> List[int]:
    return [it for it in map(number_of, WRITTEN.findall(text)) if it not in WIDTHS]


def numbers_of_sentence(sentence: str, text: str) -> List[int]:
    """The numbers that stand where a sentence has N, in a text whose comments may break it into lines."""
    flat = re.sub(r"\s*\n \*\s*", " ", text)
    pattern = re.escape(sentence).replace("N", r"((?:2\^)?\d[\d,]*)")
    return [number_of(it) for found in re.finditer(pattern, flat) for it in found.groups()]


def as_constant(name: str) -> str:
    """`NotSeriesParallel` as `NOT_SERIES_PARALLEL`."""
    return re.sub(r"(?<!^)(?=[A-Z])", "_", name).upper()


def part_of(text: str, begin: str, end: str) -> str:
    """What stands between two texts; nothing where the first is missing, so that nothing is found there."""
    _, found, rest = text.partition(begin)
    return rest.partition(end)[0] if found else ""


def upper(numbers: Numbers) -> Numbers:
    return {name.upper(): number for name, number in numbers.items()}


class Facts:
    def __init__(self, top: Path) -> None:
        self.top = top
        sys.dont_write_bytecode = True
        sys.path.insert(0, str(top / "tools"))
        self.said = {as_constant(name): number for name, number in numbers_in(self.code_of_statuses(), r"Status::(\w+) => (\d+)").items()}
        constants = numbers_in(self.text(LIMIT_CODE), r"^(?:pub )?const (\w+): u\d+ = ([^;]+);")
        self.most = short({name: number for name, number in constants.items() if name.startswith("MOST_")})
        self.fault_kinds = numbers_in(self.text("crates/c_calls/src/kinds.rt"), r"^pub const (\w+): u32 = (\d+);")

    def text(self, name: str) -> str:
        return (self.top / name).read_text(encoding="utf-8")

    def code_of_statuses(self) -> str:
        return part_of(self.text(STATUS_CODE), "pub fn code_of", "\n}")

    def literal(self, file: str, name: str) -> Any:
        """What a module of Python sets a name to; nothing where it does not."""
        for line in ast.parse(self.text(file)).body:
            if isinstance(line, ast.Assign) and [it.id for it in line.targets if isinstance(it, ast.Name)] == [name]:
                return ast.literal_eval(line.value)
        return {}

    @staticmethod
    def module(name: str) -> ModuleType:
        """A module of the tools, loaded from where it stands."""
        return importlib.import_module(name)

    # ---- statuses, and kinds of faults

    def statuses(self) -> Iterator[Finding]:
        said = self.said
        specified = numbers_in(self.text(STATUS_SPECS), r"^exit_code_of (\w+) = (\d+)")
        yield STATUS_SPECS, {as_constant(name): number for name, number in specified.items()}, said
        calls = numbers_in(self.text("crates/c_calls/src/statuses.rt"), r"^pub const (\w+): u32 = (\d+);")
        yield "crates/c_calls/src/statuses.rt", calls, {name: said[name] for name in calls if name in said}
        yield "crates/c_calls/specs/Statuses.antt", upper(numbers_in(self.text("crates/c_calls/specs/Statuses.antt"), r"^(\w+) = (\d+)$")), calls
        header = numbers_in(part_of(self.text(HEADER), "enum memplan_status {", "}"), r"MEMPLAN_(\w+) = (\d+)")
        # the library has those of its calls alone
        yield HEADER, header, {"DONE": said["DONE"], **calls}
        module = part_of(self.text(FORTRAN), "! Statuses.", "! Shapes.")
        yield FORTRAN, upper(numbers_in(module, r"memplan_(\w+) = (\d+)")), header
        table = re.findall(r"^\| (\d+) \|", part_of(self.text(REPORTS), "| status | when |", "\n\n"), re.M)
        yield REPORTS, {number: int(number) for number in table}, {str(number): number for number in said.values()}

    def complaints(self) -> Iterator[Finding]:
        said = re.findall(r'Status::(\w+) => Some\("memplan: ([^"]*)"\)', part_of(self.text(STATUS_CODE), "pub fn complaint", "\n}"))
        place = "tools/check_repository.py"
        yield place, self.literal(place, "COMPLAINTS"), {self.said[as_constant(name)]: complaint for name, complaint in said}

    def faults(self) -> Iterator[Finding]:
        kinds = self.fault_kinds
        yield HEADER, numbers_in(part_of(self.text(HEADER), "enum memplan_kind {", "};"), r"MEMPLAN_KIND_(\w+) = (\d+)"), kinds
        plain = {number: number for number in kinds.values()}
        yield PACKAGE, {number: number for number in self.literal(PACKAGE, "_KINDS")}, plain
        yield FORTRAN, upper(numbers_in(self.text(FORTRAN), r"\bmemplan_kind_(\w+) = (\d+)$")), kinds
        specs = "crates/c_calls/specs/FaultKinds.antt"
        yield specs, upper(numbers_in(self.text(specs), r"^(\w+) = (\d+)$")), kinds
        # each kind is that of some refusal
        used = re.findall(r"\bkinds\.(\w+)", self.text("crates/c_calls/specs/Faults.antt"))
        yield "crates/c_calls/specs/Faults.antt", {name.upper(): "there" for name in used}, {name: "there" for name in kinds}

    # ---- kinds of refusals

    def page_of(self, section: str) -> str:
        """The page that has the section of a format."""
        return PLANS if f"\n## {section}\n" in self.text(PLANS) else PAGE

    def words_on_page(self, section: str) -> List[str]:
        """What stands in the last column of the tables of tests of a section, but for limits."""
        text = self.text(self.page_of(section)) + "\n## "
        tables = re.findall(r"^\|[^\n]*\| else \|\n((?:\|[^\n]*\n)+)", part_of(text, f"\n## {section}\n", "\n## "), re.M)
        cells = [row.strip("| ").rpartition("|")[2].strip() for table in tables for row in table.splitlines()]
        return [word for cell in cells if not cell.startswith("limit") for word in re.findall(r"`([^`]+)`", cell)]

    def refusals(self) -> Iterator[Finding]:
        explained = [key.split() for key in self.module("explaining.formats").MEANINGS]
        expected = self.literal("tools/fuzz/judge.py", "KINDS")
        for it in FILES:
            code = dict(re.findall(rf'\b{it.kinds}::(\w+) => "([^"]+)"', self.text(it.code)))
            yield it.specs, dict(re.findall(rf'^{it.word} (?:\w+\.)?(\w+) = codes "([^"]+)"', self.text(it.specs), re.M)), code
            words = {word: it.name for word in code.values()}
            yield f"{self.page_of(it.section)}, '{it.section}'", {word: it.name for word in self.words_on_page(it.section)}, words
            for name in (it.name, *(other for other, same in SAME_KINDS.items() if same == it.name)):
                yield f"tools/explaining/formats.py, {name}", {word: it.name for kind, word in explained if kind == name}, words
                yield f"tools/fuzz/judge.py, {name}", {word: it.name for word in expected.get(name, "").split()}, words

    # ---- limits

    def limits(self) -> Iterator[Finding]:
        most = self.most
        yield LIMIT_SPECS, short(numbers_in(self.text(LIMIT_SPECS), r"^(most_\w+) = (.+)$")), most
        refused = {name.upper() for name in re.findall(r"^most \w+ = most_(\w+)$", self.text(LIMIT_SPECS), re.M)}
        yield "tools/explaining/judged.py", upper(self.literal("tools/explaining/judged.py", "LIMITS")), {name: most[name] for name in refused}
        of_fuzz = {name[5:]: number for name, number in vars(self.module("fuzz.formats")).items() if name.startswith("MOST_")}
        yield "tools/fuzz/formats.py", of_fuzz, {name: number for name, number in {**most, "ZEROS": self.most_zeros()}.items() if name in of_fuzz}
        drawn = numbers_in(self.text("tools/drawing/system.py"), r"^(TASK)_LIMIT = (.+)$")
        names, values = re.search(r"^((?:\w+_LIMIT, )+\w+_LIMIT) = (.+)$", self.text("tools/drawing/system.py"), re.M).groups()
        drawn.update(zip(re.findall(r"(\w+)_LIMIT", names), map(number_of, values.split(", "))))
        yield "tools/drawing/system.py", drawn, {name: most[{"TASK": "TASKS"}.get(name, name)] for name in drawn}
        yield from self.limits_on_page()
        yield from self.limits_of_calls()

    def most_zeros(self) -> int:
        """How many zeros a merge may add: a constant, or the number that the code compares with."""
        bound = part_of(part_of(self.text("crates/requests/src/request.rt"), "fn zeros_of", "\n}"), "zeros <= ", " {")
        return self.most[bound[5:]] if bound.startswith("MOST_") else number_of(bound or "0")

    def limits_on_page(self) -> Iterator[Finding]:
        wanted = {**self.most, "ZEROS": self.most_zeros()}
        table = part_of(self.text(PAGE), "| name | number | of |", "\n\n")
        yield PAGE, upper(numbers_in(table, r"^\| `(\w+)` \| ([^|]+) \|")), wanted
        pages = "\n".join(self.text(page) for page in (PAGE, PLANS, REPORTS))
        written = Counter(number for number in written_in(pages) if number in wanted.values())
        yield f"{PAGE}, which states each once", dict(written), dict(Counter(wanted.values()))

    def limits_of_calls(self) -> Iterator[Finding]:
        """In the header and in the package each limit stands beside the kind of fault that tells of it, or in a sentence that is known."""
        names = {number: name for name, number in self.fault_kinds.items()}
        in_header = re.findall(r"MEMPLAN_KIND_(\w+) = \d+,?\s*/\* ([^\n]*) \*/", self.text(HEADER))
        rows = re.findall(r"^    (\d+)(?:, \d+)* +(\S[^\n]*)", part_of(self.text(ADMISSION), '"""A graph or an order', '"""'), re.M)
        in_package = [(names[number], text) for number, text in self.literal(PACKAGE, "_KINDS").items()]
        in_words = [(names[number], text) for number, text in self.literal(ADMISSION, "_WORDS").items()]
        yield from self.limits_beside(HEADER, in_header)
        yield from self.limits_beside(PACKAGE, in_package)
        yield from self.limits_beside(ADMISSION, [*in_words, *((f"{names[int(number)]} of its table", text) for number, text in rows)])
        others = {}
        for file in sorted((self.top / "python/memplan").glob("*.py")):
            name = f"python/memplan/{file.name}"
            if name in SENTENCES:
                yield from self.limits_beside(name, [])
            elif name not in (PACKAGE, ADMISSION):
                others[file.name] = len(written_in(self.text(name)))
        yield "python/memplan, whose other files state no limit", others, dict.fromkeys(others, 0)
        running = numbers_in(self.text(ADMISSION), r"^MOST_(RUNNING) = (\d+)$")
        yield ADMISSION, running, {"RUNNING": self.most["WORKERS"]}

    def limits_beside(self, place: str, texts: List[Tuple[str, str]]) -> Iterator[Finding]:
        """Of each text that stands at a kind, and of each known sentence of the file, the limit; and there is no other in the file."""
        text = self.text(place)
        found = {kind: number for kind, words in texts for number in written_in(words)}
        wanted = {kind: self.most[LIMITS_OF_KINDS[kind.split()[0]]] for kind in found if kind.split()[0] in LIMITS_OF_KINDS}
        if place in (HEADER, PACKAGE):
            wanted = {kind: self.most[limit] for kind, limit in LIMITS_OF_KINDS.items()}
        known = sum(len(written_in(words)) for _, words in texts)
        for sentence, limit in SENTENCES.get(place, {}).items():
            numbers = numbers_of_sentence(sentence, text)
            known += len(numbers)
            wanted[sentence] = self.most[limit]
            found[sentence] = next((it for it in numbers if it != self.most[limit]), numbers[0] if numbers else "missing")
        if found or wanted:
            yield place, found, wanted
        yield f"{place}, which states no limit elsewhere", {"numbers": len(written_in(text))}, {"numbers": known}

    # ---- efforts

    def efforts(self) -> Iterator[Finding]:
        """How many steps a search may take where nothing else is said."""
        wanted = numbers_in(self.text("crates/requests/src/request.rt"), r"^pub const DEFAULT_(EFFORT): u64 = ([\d_]+);")
        specs = "crates/requests/specs/Request.antt"
        yield specs, upper(numbers_in(self.text(specs), r"^default_(effort) = (\d+)$")), wanted
        yield HEADER, numbers_in(self.text(HEADER), r"^#define MEMPLAN_(EFFORT) (\d+)$"), wanted
        yield FORTRAN, upper(numbers_in(self.text(FORTRAN), r"\bmemplan_(effort) = (\d+)_")), wanted
        yield PACKAGE, numbers_in(self.text(PACKAGE), r"^(EFFORT) = ([\d_]+)$"), wanted

    # ---- commands

    def values(self) -> Dict[str, str]:
        """What options take, as the program reads them: `a|b`, or `LEAST to MOST`. Of two words in the file of a command by its name too: `plan print`."""
        files = [self.top / "crates/requests/src/request.rt", *sorted((self.top / "crates/requests/src/commands").glob("*.rt"))]
        codes = {file: file.read_text(encoding="utf-8") for file in files}
        code = "".join(codes.values())
        said = {}
        for file, text in codes.items():
            of = "" if file.stem == "request" else f"{file.stem} "
            for name, first, second in re.findall(r'is_second\(line\.value\("(\w+)"\), "(\w+)", "(\w+)"\)', text):
                said[f"{of}{name}"] = f"{first}|{second}"
        for option, function in (("ordering", "fn ordering_named"), ("kind", "fn made_of")):
            said[option] = "|".join(re.findall(r'^ +"(\w+)" =>', part_of(code, function, "\n}"), re.M))
        for limit, option in re.findall(r'number_up_to\(MOST_(\w+), line\.value\("(\w+)"\)\)', code):
            said[option] = f"1 to {self.most[limit]}"
        said["workers"] = f"1 to {self.most[part_of(part_of(code, 'pub fn workers_of', chr(10) + '}'), 'u64::from(MOST_', ')')]}"
        said["amalgamate"] = f"0 to {self.most_zeros()}"
        return {**said, **{option: f"0 to {2**64 - 1}" for option in re.findall(r'(?:number_given|effort_of)\(line\.value\("(\w+)"\)\)', code)}}

    def commands(self) -> Iterator[Finding]:
        place, table = "tools/commands.py", self.module("commands")
        listed = part_of(self.text("crates/requests/src/commands.rt"), "static COMMANDS", "];")
        for shared, options in re.findall(r"const (\w+): &\[&str\] = &\[([^\]]*)\];", self.text("crates/requests/src/request.rt")):
            listed = re.sub(rf"\b{shared}\b", options, listed)
        shapes = re.findall(r'name: "(\w+)",\s*options: ([^}]*)\}', listed)
        wanted = {name: " ".join(sorted(re.findall(r'"(\w+)"', options))) for name, options in shapes}
        yield place, {command.name: " ".join(sorted(option.name for option in command.options)) for command in table.COMMANDS}, wanted
        values = self.values()
        found = {}
        for command in table.COMMANDS:
            for option in command.options:
                name = f"{command.name} {option.name}"
                if option.value != table.FILE:
                    found[name if name in values else option.name] = option.value if option.words() else f"{option.least} to {option.most}"
        yield place, found, values
        ranges = self.module("fuzz.formats").RANGES
        yield "tools/fuzz/formats.py", {name: f"{least} to {most}" for name, (least, most) in ranges.items()}, {name: it for name, it in values.items() if " to " in it}
        yield place, {number: number for number in table.STATUSES}, {number: number for number in self.said.values()}
        yield "tools/fuzz/formats.py, options", dict(self.options_of_fuzz()), wanted

    def options_of_fuzz(self) -> Iterator[Tuple[str, str]]:
        """The commands that tools/fuzz knows, each with its options."""
        fuzz = self.module("fuzz.formats")
        for name, (inputs, needed, further) in fuzz.COMMANDS.items():
            of_matrix = fuzz.MATRIX_OPTIONS if "matrix" in inputs and name not in fuzz.WITHOUT_FRONT_OPTIONS else set()
            yield name, " ".join(sorted(inputs.union(*needed, further, of_matrix)))


def difference(found: dict, wanted: dict) -> str:
    """What is told otherwise than it has to be; nothing where all is the same. Where nothing was found there is nothing to compare."""
    if not found or not wanted:
        return "there is none"
    odd = sorted((key for key in {*found, *wanted} if found.get(key) != wanted.get(key)), key=str)
    return ", ".join(f"{key} is {found.get(key, 'missing')} and not {wanted.get(key, 'there')}" for key in odd)


def main() -> int:
    facts = Facts(Path(sys.argv[1]) if sys.argv[1:] else Path(__file__).resolve().parent.parent)
    passed = failed = 0
    for what in ("statuses", "complaints", "faults", "refusals", "limits", "efforts", "commands"):
        for place, found, wanted in getattr(facts, what)():
            fault = difference(found, wanted)
            passed, failed = passed + (not fault), failed + bool(fault)
            if fault:
                print(f"FAILED: {what} in {place}: {fault}")
    print(f"{passed} passed, {failed} failed")
    return 1 if failed else 0


if __name__ == "__main__":
    sys.exit(main())
