#!/usr/bin/env python3
"""Tells which definitions a function's contract stands on.

usage: reached_specs.py [SOURCE FUNCTION]

SOURCE is a file of a crate, crates/reports/src/run.rt if nothing else is said, and FUNCTION a function
of it, run_words. From the names in its clauses on, each name is followed by the imports of the file in
which it stands, to the definition that it names, and so on. Printed are the files of specs/ that are
reached, each with the definitions that are, crate by crate. Names of std and of the kit's crates, and
types of the code, are not followed.
"""
import re
import sys
from pathlib import Path
from typing import NamedTuple, Optional

ROOT = Path(__file__).resolve().parent.parent
TOP_CALL = (ROOT / "crates/reports/src/run.rt", "run_words")

WORD = re.compile(r"(?:\w+\.)?\w+")
IMPORT = re.compile(r"use Rattle\.([\w.]+?)(?:\.\{([^}]*)\}| as (\w+))?;?$")
BEGIN = re.compile(r"(?:abbrev|unfoldable|mutual|pub (?!use)|data|record)\b")


class Block(NamedTuple):
    """Definitions that stand together: their names, and all words of them."""

    names: list[str]
    words: list[str]


class Spec:
    """A file: what it imports, by the name that it has there, and its blocks."""

    def __init__(self, text: str, crates: Path) -> None:
        self.imports: dict[str, tuple[Path, Optional[str]]] = {}
        self.blocks: list[Block] = []
        lines = [line.split("--")[0].rstrip() for line in text.split("\n")]
        starts = [at for at, line in enumerate(lines) if BEGIN.match(line)]
        for line in lines:
            self.read_import(line, crates)
        for start, end in zip(starts, [*starts[1:], len(lines)]):
            block = "\n".join(lines[start:end])
            self.blocks.append(Block(names_of(block), WORD.findall(block)))

    def read_import(self, line: str, crates: Path) -> None:
        found = IMPORT.match(re.sub(r"^(?:ghost|pub) ", "", line))
        if not found or ".declared." in found[1]:
            return
        crate, _, module = found[1].partition(".specs.")
        file = crates / crate / "specs" / f"{module.replace('.', '/')}.antt"
        if not file.is_file():
            return
        if found[3]:
            self.imports[found[3]] = (file, None)
        for name in (found[2] or "").split(","):
            theirs, _, ours = name.strip().partition(" as ")
            self.imports[ours or theirs] = (file, theirs)

    def block(self, name: Optional[str]) -> Optional[Block]:
        return next((it for it in self.blocks if name in it.names), None)


def names_of(block: str) -> list[str]:
    """What a block defines: of a record its name, of data its constructors too, of others each name."""
    head = block.split("\n")[0]
    named = re.findall(r"\b(?:abbrev|unfoldable|data|record)(?: pub)? (?!mutual\b)(\w+)", head)
    if "record " in head or not re.search(r"\b(data|mutual)\b", head):
        return named
    inside = r"^\s+(?:pub )?(?:data |record )?(\w+)(?: [({][^)}]*[)}])* :"
    return named + re.findall(inside, block, re.M)


def clauses_of(source: str, function: str) -> str:
    """The clauses of a function, from its name to its body."""
    found = re.search(rf"fn {function}\b.*?^{{", source, re.M | re.S)
    return re.sub(r"//.*", "", found[0]) if found else ""


class Reached:
    """The definitions that were reached, by their files."""

    def __init__(self, crates: Path) -> None:
        self.crates = crates
        self.specs: dict[Path, Spec] = {}
        self.names: dict[Path, set[str]] = {}
        self.open: list[tuple[Path, Optional[str]]] = []

    def spec(self, file: Path) -> Spec:
        if file not in self.specs:
            self.specs[file] = Spec(file.read_text(encoding="utf-8"), self.crates)
        return self.specs[file]

    def name(self, file: Path, name: Optional[str]) -> None:
        """A name of a file is reached, and with it all that its block defines."""
        block = self.spec(file).block(name)
        if not block and name in self.spec(file).imports:
            self.open.append(self.spec(file).imports[name])
        if not block or block.names[0] in self.names.setdefault(file, set()):
            return
        self.names[file].update(block.names)
        self.follow(file, block.words)

    def follow(self, file: Path, words: list[str]) -> None:
        for word in words:
            first, _, rest = word.partition(".")
            for one in (first, rest):
                to, name = self.spec(file).imports.get(one, (file, one))
                if name is None:
                    self.open.append((to, rest))
                elif one:
                    self.open.append((to, name))

    def close(self) -> dict[Path, set[str]]:
        while self.open:
            self.name(*self.open.pop())
        return {file: names for file, names in self.names.items() if names and file.suffix == ".antt"}


def reached_by(source: Path, function: str) -> dict[Path, set[str]]:
    """The files of specs/ that the contract of a function reaches, with the definitions there."""
    reached = Reached(ROOT / "crates")
    reached.follow(source, WORD.findall(clauses_of(source.read_text(encoding="utf-8"), function)))
    return reached.close()


def main() -> int:
    if len(sys.argv) not in (1, 3):
        print(__doc__)
        return 2
    source, function = (Path(sys.argv[1]).resolve(), sys.argv[2]) if sys.argv[1:] else TOP_CALL
    found = reached_by(source, function)
    for file in sorted(found):
        print(f"{file.relative_to(ROOT / 'crates')}: {' '.join(sorted(found[file]))}")
    print(f"{len(found)} files, {sum(len(it) for it in found.values())} names")
    return 0


if __name__ == "__main__":
    sys.exit(main())
