#!/usr/bin/env python3
"""Writes crates.txt anew from the sources: what each crate stands on.

usage: make_crates.py [--check] [FOLDER]      (the repository; the one that this script is in, if nothing else is said)

The sections stay, paragraphs that begin with a comment, and in them the crates in their order; of each crate what stands before the colon,
and the libraries of the kit that it uses. Behind the colon come the crates of ours that its src/, specs/ and proofs/ name, and all that
these stand on, in the order of crates.txt; then the libraries. So a new crate is a line `NAME:` at its place, and one run.

The sections are storeys. What is wrong is told, with `--check` and without:

- a crate that names one of a later section, or a later one of its own section;
- a crate below the section 'Files', or between it and the section 'Programs', that names `mp_text` or a crate of the section 'Files':
  what files say are values, and none of these crates is for texts;
- a folder of crates/ without a line, and a line without a folder.

With `--check` nothing is written, and a line that would be written otherwise is wrong too. The last line is 'N passed, M failed', and the
status is 0 where none failed.
"""
import re
import sys
from pathlib import Path
from typing import Dict, Iterator, List, NamedTuple, Set, Tuple

TEXTS = "mp_text"
FILES, PROGRAMS = "Files", "Programs"
LINE = re.compile(r"(?P<head>(?P<name>\w+)[^:#]*):(?P<stands>[^#]*)")
PARTS = ("src", "specs", "proofs")


class Crate(NamedTuple):
    """A line of crates.txt: its number among the lines, what stands before the colon, the libraries, and its section."""

    line: int
    head: str
    libraries: List[str]
    section: int


class Listed:
    """crates.txt: its lines, its sections by the first words of their comments, and its crates in their order."""

    def __init__(self, text: str) -> None:
        self.lines = text.split("\n")
        self.sections: List[str] = []
        self.crates: Dict[str, Crate] = {}
        stands: Dict[str, List[str]] = {}
        for number, line in enumerate(self.lines):
            if line.startswith("#") and (number == 0 or not self.lines[number - 1]):
                self.sections.append(re.match(r"#\s*([^:.]*)", line)[1])
            elif found := LINE.fullmatch(line):
                self.crates[found["name"]] = Crate(number, found["head"], [], len(self.sections) - 1)
                stands[found["name"]] = found["stands"].split()
        for name, crate in self.crates.items():
            crate.libraries.extend(word for word in stands[name] if word not in self.crates)

    def place(self, name: str) -> Tuple[int, int]:
        """The section of a crate, and its line."""
        return self.crates[name].section, self.crates[name].line

    def is_textless(self, name: str) -> bool:
        """Whether a crate stands below the files, or between them and the programs."""
        section = self.crates[name].section
        return section < self.sections.index(PROGRAMS) and section != self.sections.index(FILES)


def words_of(file: Path) -> Set[str]:
    """What may be a crate's name in a source, a specification or a proof: where a path begins that is no module of the file's own."""
    text = re.sub(r"--.*" if file.suffix == ".antt" else r"//.*", "", file.read_text(encoding="utf-8"))
    words = set(re.findall(r"\bRattle\.(\w+)\.", text))
    if file.suffix == ".rt":
        paths = {*re.findall(r"(?<![\w:.])(\w+)::", text), *re.findall(r"\buse (\w+)(?: as \w+)?;", text)}
        words |= paths - set(re.findall(r"\bmod (\w+)\b", text))
    return words


class Sources:
    """Which crates each crate names, and what it stands on: these, and all that these stand on."""

    def __init__(self, top: Path, listed: Listed) -> None:
        self.names = {name: self.named(top / "crates" / name, listed) - {name} for name in listed.crates}

    @staticmethod
    def named(folder: Path, listed: Listed) -> Set[str]:
        files = [file for part in PARTS for ending in ("rt", "antt") for file in (folder / part).rglob(f"*.{ending}")]
        return {word for file in files for word in words_of(file) if word in listed.crates}

    def below(self, name: str) -> Set[str]:
        found: Set[str] = set()
        left = [name]
        while left:
            new = self.names[left.pop()] - found
            found |= new
            left += new
        return found - {name}


def lines_of(listed: Listed, sources: Sources) -> List[str]:
    """The lines of crates.txt as they have to be."""
    lines = list(listed.lines)
    for name, crate in listed.crates.items():
        below = sources.below(name)
        stands = [*(it for it in listed.crates if it in below), *crate.libraries]
        lines[crate.line] = f"{crate.head}: {' '.join(stands)}".rstrip()
    return lines


def apart(line: str, wanted: str) -> str:
    """In which words a line differs from what it has to be; nothing where it is the same."""
    is_, must = line.split(), wanted.split()
    missing, more = [it for it in must if it not in is_], [it for it in is_ if it not in must]
    told = [f"{' '.join(words)} {which}" for words, which in ((missing, "is missing"), (more, "is too much")) if words]
    return "; ".join(told) if told or line == wanted else "its words stand in another order"


def faults_of_names(listed: Listed, sources: Sources, name: str) -> Iterator[str]:
    """Each crate that a crate names and must not."""
    files = {it for it, crate in listed.crates.items() if listed.sections[crate.section] == FILES} | {TEXTS}
    for other in sorted(sources.names[name], key=listed.place):
        section, own = (listed.crates[it].section for it in (other, name))
        if listed.place(other) > listed.place(name):
            yield f"names {other}, which stands later" + (f", in the section '{listed.sections[section]}'" if section > own else " in its section")
        elif listed.is_textless(name) and other in files:
            yield f"names {other}, and the section '{listed.sections[own]}' knows no texts"


def findings(top: Path, listed: Listed, is_check: bool) -> Iterator[Tuple[str, str]]:
    """What was looked at, and what is wrong there, if anything is."""
    for section in (FILES, PROGRAMS):
        yield f"the section '{section}'", "" if section in listed.sections else "there is none"
    if not {FILES, PROGRAMS} <= set(listed.sections):
        return
    folders = {it.name for it in (top / "crates").iterdir() if (it / "src").is_dir()}
    for name in sorted(folders - set(listed.crates)):
        yield name, "it has no line"
    sources = Sources(top, listed)
    wanted = lines_of(listed, sources)
    for name, crate in listed.crates.items():
        yield name, "" if name in folders else "there is no folder crates/" + name
        yield name, "; ".join(faults_of_names(listed, sources, name))
        if is_check:
            yield name, apart(listed.lines[crate.line], wanted[crate.line])


def main() -> int:
    words = [word for word in sys.argv[1:] if word != "--check"]
    if len(words) > 1 or words[:1] in (["-h"], ["--help"]):
        print(__doc__)
        return 2
    top = Path(words[0]) if words else Path(__file__).resolve().parent.parent
    file, is_check = top / "crates.txt", "--check" in sys.argv
    listed = Listed(file.read_text(encoding="utf-8"))
    passed = failed = 0
    for what, fault in findings(top, listed, is_check):
        passed, failed = passed + (not fault), failed + bool(fault)
        if fault:
            print(f"FAILED: {what}: {fault}")
    if not is_check:
        file.write_text("\n".join(lines_of(listed, Sources(top, listed))), encoding="utf-8")
    print(f"{passed} passed, {failed} failed")
    return 1 if failed else 0


if __name__ == "__main__":
    sys.exit(main())
