#!/usr/bin/env python3
"""Checks that what the repository's pages say of it is so.

usage: check_repository.py [PROGRAM]

- Each console block (a fence whose first line begins with `$ `) of each page is run, one command
  after the other, and each row of a table `words | prints | status`: what the program writes and
  its status are compared to the byte. A block that cannot be run here has a comment
  `<!-- not run: REASON -->` on the line before it.
- Each file or folder that a page names, in a link or as code, is in the repository; of other
  blocks each that stands in tools/, bench/, docs/ or examples/.
- No page is longer or wider than MOST_LINES, MOST_LINES_OF_README and MOST_COLUMNS say, but for tables and
  listings.
- README's figures are those of the pages that have them (FIGURES), and some page runs each command.
- No page says a word of the last column of docs/WORDS.md, outside listings and code.
- docs/PROVED.md and docs/PROVED_CRATES.md name what is proved: each function and each clause stands in
  a public contract of the crate; the table of a function has every clause of it, the list of a
  definition every line of it with the words that the line cites, and the list of crates every crate of
  crates.txt but those of tests.
- docs/ARCHITECTURE.md lists the crates of each section of crates.txt, but those of tests, in their
  order, under a heading with the section's name.
- docs/DEFINITIONS.md: each quoted block (```antt) stands in a file of specs/ as it is; the tables of
  DEFINITION_TABLES have exactly what the contract of the top call reaches, and the examples that they name are
  computed in specs/.

PROGRAM is the built program, crates/memplan/out/memplan if nothing else is said. It is there after
`rt ci`, which builds and runs it, and after the first `./memplan`. Nothing is written into the
repository. The last line is 'N passed, M failed', and the status is 0 where none failed.
"""
import os
import re
import subprocess
import sys
import tempfile
from collections.abc import Iterator
from pathlib import Path
from typing import NamedTuple, Optional

sys.dont_write_bytecode = True
from commands import COMMANDS  # noqa: E402: so that nothing is written beside it
from make_crates import Listed  # noqa: E402
from reached_specs import TOP_CALL, reached_by  # noqa: E402

ROOT = Path(__file__).resolve().parent.parent
SECONDS = 60

PROVED, PROVED_CRATES = "docs/PROVED.md", "docs/PROVED_CRATES.md"
DEFINITIONS = "docs/DEFINITIONS.md"
# The tables of files of definitions.
DEFINITION_TABLES = ("docs/DEFINITION_FILES.md", "docs/PROGRAM_FILES.md")
ARCHITECTURE = "docs/ARCHITECTURE.md"
WORDS = "docs/WORDS.md"

COMPLAINTS = {2: "usage", 6: "read fault", 7: "write fault", 8: "no memory"}
# How many lines a page has at most, and how many columns its lines, but for tables and listings.
MOST_LINES, MOST_LINES_OF_README = 400, 140
MOST_COLUMNS = 120
# What README states that another page has in a table or a sentence: the words of both, with the same names for the same numbers.
FIGURES = (
    (
        r"Of (?P<patterns>\d+) patterns.* least peak for (?P<best>\d+), and at most (?P<lost>[\d.]+) percent more.* up to (?P<natural>\d+) percent",
        "docs/GAINS.md",
        r"\| minimum degree, out of place \| (?P<patterns>\d+) \| \d+ \| (?P<best>\d+) \| (?P<natural>[\d.]+) % \S+ \| (?P<lost>[\d.]+) %",
    ),
    (
        r"Of (?P<shapes>\d+) shapes of workflows with a thousand tasks the plan of (?P<near>\d+) was within 3 percent",
        "docs/GRAPH_BENCHMARKS.md",
        r"The bound is within 3 percent of the peak for (?P<near>\d+) of (?P<shapes>\d+)",
    ),
    *(
        (rf"(?P<most>\d[\d,^]*) {words}|{words} (?P<most_>\d[\d,^]*)", "docs/FORMATS.md", rf"\| `{name}` \| (?P<most>[\d,^]+) \|")
        for words, name in (("tasks, ", "tasks"), ("entries of a matrix", "entries"), ("bytes,", "bytes"), ("sizes of", "size"))
    ),
)
# What a name as code must end with to be taken for a file.
ENDINGS = tuple(
    ".md .rt .antt .py .txt .c .h .cpp .hpp .f90 .edit .tree .workflow .graph .mtx .perm .order "
    ".postorder .plan .fences .priority .svg .png .toml".split()
)
SPAN = re.compile(r"`([^`]+)`")
LINK = re.compile(r"\]\(([^)\s]+)\)")


class Finding(NamedTuple):
    """What came out of one check: where, and what is wrong, if anything is."""

    place: str
    fault: Optional[str]


# Pages


class Fence(NamedTuple):
    """A block of code: the number of its first line, its lines, and why it is not run, if so."""

    number: int
    lines: list[str]
    excuse: Optional[str]


class Table(NamedTuple):
    """A table: the text before it, its head, and its rows with their line numbers."""

    before: str
    head: list[str]
    rows: list[tuple[int, list[str]]]


def files_of_repository() -> list[str]:
    """The repository's files, without what was built or measured."""
    found = []
    for above, folders, names in os.walk(ROOT):
        folders[:] = [it for it in folders if it not in (".git", "out", "build", "dist", "__pycache__")]
        found += [str((Path(above) / name).relative_to(ROOT)) for name in names]
    return sorted(found)


def prose(page: list[str]) -> Iterator[tuple[int, str]]:
    """The lines outside fences, numbered from 1."""
    inside = False
    for number, line in enumerate(page, 1):
        if line.lstrip().startswith("```"):
            inside = not inside
        elif not inside:
            yield number, line


def fences(page: list[str]) -> Iterator[Fence]:
    start = None
    for at, line in enumerate(page):
        if not line.lstrip().startswith("```"):
            continue
        if start is None:
            start = at
            continue
        before = page[start - 1] if start else ""
        excuse = re.fullmatch(r"<!-- not run: (.+) -->", before.strip())
        yield Fence(start + 2, page[start + 1 : at], excuse and excuse[1])
        start = None


def tables(page: list[str]) -> Iterator[Table]:
    before, rows = "", []
    for number, line in [*prose(page), (0, "")]:
        if line.startswith("|"):
            rows.append((number, [cell.strip() for cell in line.strip().strip("|").split("|")]))
            continue
        if len(rows) > 2:
            yield Table(before, rows[0][1], rows[2:])
        rows = []
        before = line or before


# What the program prints


def shell(command: str, folder: Path, status: int) -> tuple[str, int]:
    """Runs a line in the folder, where `$?` is the status of the line before."""
    words = ["bash", "-c", f"(exit {status}); {command}"]
    done = subprocess.run(
        words,
        cwd=folder,
        stdin=subprocess.DEVNULL,
        stdout=subprocess.PIPE,
        stderr=subprocess.STDOUT,
        timeout=SECONDS,
        text=True,
    )
    return done.stdout, done.returncode


def told_apart(said: str, printed: str) -> Optional[str]:
    """The first line in which what is said differs from what is printed."""
    if said == printed:
        return None
    one, other = said.split("\n"), printed.split("\n")
    for at in range(max(len(one), len(other))):
        says = one[at] if at < len(one) else "nothing"
        prints = other[at] if at < len(other) else "nothing"
        if says != prints:
            return f"line {at + 1} of its output is {prints!r} and not {says!r}"
    return "its output differs"


def session(fence: Fence) -> Iterator[tuple[int, str, str]]:
    """The commands of a console block, with their line numbers and what they print."""
    number, command, said, goes_on = 0, None, [], False
    for at, line in enumerate(fence.lines):
        if goes_on:
            command, goes_on = f"{command}\n{line}", line.endswith("\\")
        elif line.startswith("$ "):
            if command:
                yield number, command, "".join(said)
            number, command, said = fence.number + at, line[2:], []
            goes_on = line.endswith("\\")
        else:
            said.append(f"{line}\n")
    if command:
        yield number, command, "".join(said)


def check_sessions(name: str, page: list[str], folder: Path) -> Iterator[Finding]:
    for fence in fences(page):
        if not fence.lines or not fence.lines[0].startswith("$ "):
            continue
        if fence.excuse:
            print(f"not run: {name}:{fence.number}: {fence.excuse}")
            continue
        status = 0
        for number, command, said in session(fence):
            printed, status = shell(command, folder, status)
            yield Finding(f"{name}:{number}: {command}", told_apart(said, printed))


def check_rows(name: str, page: list[str], folder: Path) -> Iterator[Finding]:
    for table in tables(page):
        if table.head != ["words", "prints", "status"]:
            continue
        for number, (words, prints, status) in table.rows:
            said = "".join(f"{line}\n" for line in SPAN.findall(prints))
            if int(status) in COMPLAINTS:
                said += f"memplan: {COMPLAINTS[int(status)]}\n"
            command = f"./memplan {SPAN.findall(words)[0]}"
            printed, ended = shell(command, folder, 0)
            fault = told_apart(said, printed)
            if ended != int(status):
                fault = f"its status is {ended} and not {status}"
            yield Finding(f"{name}:{number}: {command}", fault)


def check_runs(name: str, page: list[str], program: Path) -> Iterator[Finding]:
    """Runs what the page shows in a folder that looks like the repository's top."""
    with tempfile.TemporaryDirectory() as made:
        folder = Path(made)
        for part in ROOT.iterdir():
            if part.name not in ("memplan", ".git"):
                (folder / part.name).symlink_to(part)
        (folder / "memplan").symlink_to(program)
        yield from check_rows(name, page, folder)
        yield from check_sessions(name, page, folder)


# What is named


class Places:
    """The files and folders of the repository."""

    def __init__(self, files: list[str]) -> None:
        parts = [Path(file) for file in files]
        self.files = {str(part) for part in parts}
        self.folders = {f"{above}/" for part in parts for above in part.parents}
        self.crates = {part.parts[1] for part in parts if part.parts[0] == "crates"}

    def has(self, name: str, under: str = "") -> bool:
        """Whether a file or folder of this name stands somewhere below a folder."""
        ends = f"/{name}"
        found = self.folders if name.endswith("/") else self.files
        return any(f"/{it}".endswith(ends) and it.startswith(under) for it in found)


def file_names(line: str) -> Iterator[str]:
    """The words of a line's code that look like files or folders."""
    for span in SPAN.findall(line):
        for word in span.split():
            is_plain = re.fullmatch(r"[\w./-]+", word) and not word.startswith((".", "/", "-"))
            if is_plain and word.endswith((*ENDINGS, "/")) and "/out/" not in word:
                yield word


def block_names(line: str) -> Iterator[str]:
    """The words of a line of a block that name a file of these folders."""
    for word in re.findall(r"(?<![\w./-])(?:tools|bench|docs|examples)/[\w./-]*\w", line):
        if not word.startswith("bench/out"):
            yield word


def crate_of(line: str, word: str, places: Places) -> str:
    """The folder of the crate that is named right before a file, as in `limits`: `name.rt`."""
    before = line[: line.index(f"`{word}`")] if f"`{word}`" in line else ""
    cell = re.split(r"[|;.](?=\s)", before)[-1]
    owners = [it for it in re.findall(r"`(\w+)`[:,]", cell) if it in places.crates]
    return f"crates/{owners[-1]}/" if owners else ""


def check_names(name: str, page: list[str], places: Places) -> Iterator[Finding]:
    """Links are relative to their page; names as code may leave out the folders before them."""
    for fence in fences(page):
        for number, line in enumerate(fence.lines, fence.number):
            for word in block_names(line):
                fault = None if (ROOT / word).exists() else "there is no such file"
                yield Finding(f"{name}:{number}: {word}", fault)
    for number, line in prose(page):
        for target in LINK.findall(line):
            if "://" not in target and not target.startswith("#"):
                to = (ROOT / name).parent / target.split("#")[0]
                fault = None if to.exists() else "there is no such file"
                yield Finding(f"{name}:{number}: {target}", fault)
        for word in file_names(line):
            under = crate_of(line, word, places)
            fault = None if places.has(word, under) else f"no such file in {under or 'any folder'}"
            yield Finding(f"{name}:{number}: {word}", fault)


# What is proved


class Contracts:
    """The public items of some crates, with the clauses of each function."""

    def __init__(self, crates: list[str]) -> None:
        self.items: set[str] = set()
        self.clauses: dict[str, set[str]] = {}
        for crate in crates:
            for file in sorted((ROOT / "crates" / crate / "src").rglob("*.rt")):
                if "tests" not in file.relative_to(ROOT).parts[3] and "tests.rt" != file.name:
                    self.read(file)

    def read(self, file: Path) -> None:
        module = file.stem
        owner, function, is_trait = "", "", False
        self.items.add(module)
        for line in file.read_text(encoding="utf-8").split("\n"):
            if found := re.match(r"(?:unsafe )?(?:impl|pub trait)\b(?:<[^{]*?>)? (.*)", line):
                owner = re.findall(r"(\w+)(?:<|\s|$|:)", found[1].split(" for ")[-1])[0]
                is_trait = " for " in line or "trait " in line
                self.items.add(owner)
            elif line.startswith("}"):
                owner = ""
            elif found := re.match(r"pub (?:struct|enum|type|const|trait) (\w+)", line):
                self.items.add(found[1])
            if found := re.match(r'(\s*)(pub )?(?:const )?(?:unsafe )?(?:extern "C" )?fn (\w+)', line):
                scope = owner if found[1] else module
                is_public = found[2] or found[1] and is_trait
                function = f"{scope}::{found[3]}" if is_public else ""
                if function:
                    self.items |= {found[3], function}
                    self.clauses.setdefault(function, set())
            if function and (found := re.match(r"\s+(?:ensures|requires) (\w+) \{", line)):
                self.clauses[function].add(found[1])

    def of(self, function: str) -> set[str]:
        """The clauses of all public functions of this name."""
        named = [it for it in self.clauses if it.endswith(f"::{function}")]
        return {clause for it in named for clause in self.clauses[it]}

    def holds(self, owner: str, name: str) -> bool:
        """Whether a function has the clause, or a type or a module the function."""
        if f"{owner}::{name}" in self.items:
            return True
        return any(
            name in clauses and (function == owner or function.endswith(f"::{owner}"))
            for function, clauses in self.clauses.items()
        )


def check_cell(contracts: Contracts, cell: str) -> Iterator[tuple[str, bool]]:
    """Judges a list such as `F`: `clause`, `clause`; `T`: `method`: `clause`; `laws`: `law`."""
    for group in cell.split(";"):
        owners: list[str] = []
        for part in re.split(r":(?!:)(?=\s)", group):
            names = SPAN.findall(part)
            for name in names:
                is_there = name in contracts.items if not owners or "::" in name else False
                yield name, is_there or any(contracts.holds(owner, name) for owner in owners)
            owners = names


def first_names(table: Table) -> list[tuple[int, str]]:
    """What the first cells of a table's rows name, with the lines of the rows."""
    return [(number, word) for number, cells in table.rows for word in SPAN.findall(cells[0])]


def check_all_named(what: str, wanted: set[str], table: Table) -> Iterator[Finding]:
    named = {word for _, word in first_names(table)}
    for word in sorted(wanted):
        yield Finding(f"{PROVED}: {what} {word}", None if word in named else "no row names it")


def storeys() -> dict[str, list[str]]:
    """The crates of each section of crates.txt, without those of tests."""
    listed = Listed((ROOT / "crates.txt").read_text(encoding="utf-8"))
    found: dict[str, list[str]] = {}
    for name, crate in listed.crates.items():
        if not name.endswith("_tests"):
            found.setdefault(listed.sections[crate.section], []).append(name)
    return found


def points(page: list[str]) -> Iterator[tuple[int, str]]:
    """The points of a page's lists, each in one line, with the number of its first."""
    number, point = 0, ""
    for at, line in [*prose(page), (0, "")]:
        if point and line.startswith("  "):
            point += " " + line.strip()
            continue
        if point:
            yield number, point
        number, point = at, line if line.startswith("- `") else ""


def table_of_crates(page: list[str]) -> Table:
    """Each point `CRATE: what is proved. **By** functions and clauses.` as a row."""
    rows = []
    for number, point in points(page):
        names, _, rest = point.partition(": ")
        rows.append((number, [names, *(it.rstrip(". ") for it in rest.partition("**By** ")[::2])]))
    return Table("", ["crate", "proved", "clauses"], rows)


def table_of_lines(page: list[str]) -> Table:
    """Each point `LINE (fact): what is said.` as a row, with the line that names crate, file and definition before it."""
    before = next((line for _, line in prose(page) if line.startswith("`") and ".antt`" in line), "")
    found = [(number, re.match(r"- (`\w+`) \((`\w+`)\): ", point)) for number, point in points(page)]
    return Table(before, ["line", "by"], [(number, [it[1], it[2]]) for number, it in found if it])


def check_crates(table: Table) -> Iterator[Finding]:
    for number, cells in table.rows:
        contracts = Contracts(SPAN.findall(cells[0]))
        for word, is_there in check_cell(contracts, cells[-1]):
            place = f"{PROVED_CRATES}:{number}: {cells[0]}: {word}"
            yield Finding(place, None if is_there else "no public contract has it")
    wanted = {name for crates in storeys().values() for name in crates}
    yield from check_all_named("crate", wanted, table)


def check_function(table: Table) -> Iterator[Finding]:
    """The line before the table names a crate and its function."""
    crate, function = SPAN.findall(table.before)[:2]
    contracts = Contracts([crate])
    for number, clause in first_names(table):
        fault = None if contracts.holds(function, clause) else f"{function} has none"
        yield Finding(f"{PROVED}:{number}: clause {clause}", fault)
    yield from check_all_named(f"clause of {function}", contracts.of(function), table)


def cited_by(text: str, definition: str) -> set[tuple[str, str]]:
    """For each line `DEFINITION (CASE ..) .. = ..` its case, with each fact that the line cites."""
    found = re.findall(rf"^{definition} \((\w+).*? =((?:.|\n +)*)", text, re.M)
    return {(case, word) for case, line in found for word in re.findall(r"(?<![\w.])[A-Z]\w+", line)}


def check_definition(table: Table) -> Iterator[Finding]:
    """The line before the table names a crate, its file and the definition."""
    crate, name, definition = SPAN.findall(table.before)[:3]
    file = ROOT / "crates" / crate / name
    cited = cited_by(file.read_text(encoding="utf-8") if file.is_file() else "", definition)
    rows = [(SPAN.findall(cells[0]), SPAN.findall(cells[-1])) for _, cells in table.rows]
    named = {(case, word) for cases, words in rows for case in cases for word in words}
    for case, word in sorted(cited | named):
        fault = None if (case, word) in named else "no row names it"
        if (case, word) not in cited:
            fault = "the definition has no such line"
        yield Finding(f"{PROVED}: {definition} of {case}: {word}", fault)


def check_proved() -> Iterator[Finding]:
    """Each kind of table, or list, stands there once at least, or nothing would be looked up."""
    page = lines_of(PROVED)
    functions = [it for it in tables(page) if it.head[0] == "clause"]
    crates, definitions = ([it] if it.rows else [] for it in (table_of_crates(lines_of(PROVED_CRATES)), table_of_lines(page)))
    kinds = (("crates", crates), ("a function", functions), ("a definition", definitions))
    for what, some in kinds:
        yield Finding(f"{PROVED}: a table of {what}", None if some else "there is none")
    for table in crates:
        yield from check_crates(table)
    for table in functions:
        yield from check_function(table)
    for table in definitions:
        yield from check_definition(table)


# The storeys


def check_storeys() -> Iterator[Finding]:
    """The page names the crates of each section, the first word of each point of its list, in the order of crates.txt."""
    file = ROOT / ARCHITECTURE
    page = file.read_text(encoding="utf-8").split("\n") if file.is_file() else []
    named: dict[str, list[str]] = {}
    heading = ""
    for _, line in prose(page):
        heading = line[4:] if line.startswith("### ") else "" if line.startswith("#") else heading
        if found := re.match(r"- `(\w+)`", line):
            named.setdefault(heading, []).append(found[1])
    for section, crates in storeys().items():
        said = named.get(section, [])
        fault = None if said == crates else f"it lists {' '.join(said) or 'nothing'} and not {' '.join(crates)}"
        yield Finding(f"{ARCHITECTURE}: {section}", fault)


# What is defined


def check_quotes(page: list[str]) -> Iterator[Finding]:
    """The block that a fence opens with ```antt is part of a file of definitions."""
    texts = [file.read_text(encoding="utf-8") for file in (ROOT / "crates").glob("*/specs/*.antt")]
    for fence in fences(page):
        if page[fence.number - 2].strip() == "```antt":
            block = "\n".join(fence.lines) + "\n"
            fault = None if any(block in text for text in texts) else "no file of specs/ has it"
            yield Finding(f"{DEFINITIONS}:{fence.number}: {fence.lines[0]}", fault)


def samples_of(crate: str) -> str:
    """The worked examples of a crate: `specs/Samples.antt`, others whose names end so, and the files below `specs/Samples/`."""
    specs = ROOT / "crates" / crate / "specs"
    files = [*sorted(specs.glob("*Samples.antt")), *sorted(specs.glob("Samples/*.antt"))]
    return "\n".join(file.read_text(encoding="utf-8") for file in files if file.is_file())


def check_examples(number: int, crate: str, cell: str) -> Iterator[Finding]:
    """Names of worked examples of the crate, or of the crate that stands before them."""
    for group in cell.split(";"):
        owner, names = crate, SPAN.findall(group)
        if re.match(r"\s*`\w+`: ", group):
            owner, names = names[0], names[1:]
        text = samples_of(owner)
        for name in names:
            is_there = re.search(rf"^{name}\b[^:=]* =", text, re.M)
            fault = None if is_there else f"{owner} computes no such line"
            yield Finding(f"{crate}:{number}: {name}", fault)


def lines_of(name: str) -> list[str]:
    file = ROOT / name
    return file.read_text(encoding="utf-8").split("\n") if file.is_file() else []


def check_definitions() -> Iterator[Finding]:
    yield from check_quotes(lines_of(DEFINITIONS))
    listed = set()
    for table in (it for name in DEFINITION_TABLES for it in tables(lines_of(name))):
        if table.head[0] != "file":
            continue
        crate = SPAN.findall(table.before)[-1]
        for number, cells in table.rows:
            listed |= {f"{crate}/{name}" for name in SPAN.findall(cells[0])}
            yield from check_examples(number, crate, cells[-1])
    reached = {str(it.relative_to(ROOT / "crates")) for it in reached_by(*TOP_CALL)}
    for name in sorted(listed | reached):
        fault = None if name in listed else "no table has it, and the top call reaches it"
        if name not in reached:
            fault = "a table has it, and the top call does not reach it"
        yield Finding(f"{DEFINITIONS}: {name}", fault)


def check_shape(name: str, page: list[str]) -> Iterator[Finding]:
    """That a page is no longer and no wider than its readers want."""
    count, most = len(page) - 1, MOST_LINES_OF_README if name == "README.md" else MOST_LINES
    yield Finding(name, f"it has {count} lines, and {most} at most are wanted" if count > most else None)
    for number, line in prose(page):
        if len(line) > MOST_COLUMNS and not line.startswith("|"):
            yield Finding(f"{name}:{number}", f"it has {len(line)} columns, and {MOST_COLUMNS} at most are wanted")


def numbers_of(pattern: str, text: str) -> dict[str, str]:
    """What the pattern's names stand for where the text has it first, as plain numbers."""
    found = re.search(pattern, " ".join(text.split()))
    named = found.groupdict() if found else {}
    return {name.rstrip("_"): number.replace(",", "").removesuffix(".0") for name, number in named.items() if number}


def check_figures() -> Iterator[Finding]:
    """That README's figures are those of the pages that have them."""
    readme = "\n".join(lines_of("README.md"))
    for said, page, told in FIGURES:
        here, there = numbers_of(said, readme), numbers_of(told, "\n".join(lines_of(page)))
        yield Finding(f"README.md, {page}", None if here and here == there else f"README has {here}, and the page {there}")


def check_shown(pages: list[str]) -> Iterator[Finding]:
    """That some page runs each command."""
    shown = set()
    for name in pages:
        page = lines_of(name)
        lines = [line for fence in fences(page) if not fence.excuse for line in fence.lines]
        shown |= {word for line in lines for word in re.findall(r"\./memplan (\w+)", line)}
        shown |= {cells[0].strip("`").split()[0] for table in tables(page) if table.head[0] == "words" for _, cells in table.rows}
    for command in COMMANDS:
        yield Finding(f"the command {command.name}", None if command.name in shown else "no page runs it")


def words_not_said() -> list[str]:
    """What pages do not say, by the last column of the table of words."""
    page = (ROOT / WORDS).read_text(encoding="utf-8").split("\n")
    return [word.strip() for table in tables(page) for _, cells in table.rows[2:] for word in cells[2].split(",") if word.strip()]


def check_words(name: str, page: list[str], words: list[str]) -> Iterator[Finding]:
    """That a page has one word for one thing, outside listings, code and addresses."""
    if name == WORDS:
        return
    for number, line in prose(page):
        said = LINK.sub("", SPAN.sub("", line)).lower()
        for word in words:
            if re.search(rf"\b{re.escape(word.lower())}\b", said):
                yield Finding(f"{name}:{number}", f"it says '{word}', for which {WORDS} has another word")


def findings(program: Path) -> Iterator[Finding]:
    files = files_of_repository()
    places = Places(files)
    pages = [file for file in files if file.endswith(".md") and not file.startswith("crates/")]
    words = words_not_said()
    yield Finding(WORDS, None if words else "it has no words")
    for name in pages:
        page = (ROOT / name).read_text(encoding="utf-8").split("\n")
        yield from check_names(name, page, places)
        yield from check_runs(name, page, program)
        yield from check_shape(name, page)
        yield from check_words(name, page, words)
    yield from check_proved()
    yield from check_storeys()
    yield from check_definitions()
    yield from check_figures()
    yield from check_shown(pages)


def main() -> int:
    if len(sys.argv) > 2 or sys.argv[1:2] in (["-h"], ["--help"]):
        print(__doc__)
        return 2
    program = Path(sys.argv[1] if sys.argv[1:] else ROOT / "crates/memplan/out/memplan").resolve()
    if not program.is_file():
        print(f"there is no program {program}: rt ci or ./memplan builds it\n0 passed, 1 failed")
        return 1
    passed = failed = 0
    for finding in findings(program):
        passed, failed = passed + (finding.fault is None), failed + (finding.fault is not None)
        if finding.fault:
            print(f"FAILED: {finding.place}: {finding.fault}")
    print(f"{passed} passed, {failed} failed")
    return 1 if failed else 0


if __name__ == "__main__":
    sys.exit(main())
