"""What the libraries let others see, by readelf and nm: the shared one just the calls that memplan.h declares, each under the version in which
memplan.map says that it came, and how it is hardened; the archive the same calls, and the three names by which the proved code asks for memory.

usage: exports.py FOLDER, where libmemplan.so and libmemplan.a are
"""

import re
import shutil
import subprocess
import sys
from pathlib import Path

C = Path(__file__).resolve().parents[1]
# What 1.0.0 had: programs that were linked with it look for these under MEMPLAN_1, so none ever leaves it.
FIRST = """best_postorder certify_tree check_tree core_activate core_begin core_begin_system core_booked core_end core_finish core_is_done
core_is_startable core_new core_size core_start core_used fronts plan_tree replay_system replay_tree spill_tree""".split()
HEAP = {"rattle_alloc", "rattle_realloc", "rattle_dealloc"}


def said(*words: str) -> str:
    return subprocess.run(words, check=True, stdout=subprocess.PIPE, text=True).stdout


def declared() -> "set[str]":
    """The calls that the header declares, outside of its comments."""
    text = re.sub(r"/\*.*?\*/", "", (C / "memplan.h").read_text(), flags=re.S)
    return set(re.findall(r"\b(memplan_\w+)\(", text))


def version_of_header() -> "tuple[int, ...]":
    return numbers_of(re.search(r'#define MEMPLAN_VERSION "(.*)"', (C / "memplan.h").read_text())[1])


def numbers_of(version: str) -> "tuple[int, ...]":
    return tuple(map(int, version.split(".")))


def mapped() -> "dict[str, str]":
    """The version of each call in memplan.map."""
    text = re.sub(r"#.*", "", (C / "memplan.map").read_text())
    nodes = re.findall(r"(\w[\w.]*)\s*\{(.*?)\}", text, re.S)
    return {call: version for version, body in nodes for call in re.findall(r"\b(memplan_\w+);", body)}


def exported(library: Path) -> "dict[str, str]":
    """The version of each symbol that a shared library defines for others, but for the names of the versions."""
    lines = (line.split() for line in said("readelf", "--wide", "--dyn-syms", str(library)).splitlines())
    names = [words[7] for words in lines if len(words) == 8 and words[4] in ("GLOBAL", "WEAK") and words[6] not in ("UND", "ABS", "Ndx")]
    return {name: version for name, _, version in (it.partition("@@") for it in names)}


def hardened(library: Path) -> "dict[str, bool]":
    tags, parts = said("readelf", "--wide", "--dynamic", str(library)), said("readelf", "--wide", "--segments", str(library))
    stack = re.search(r"GNU_STACK\s+(?:0x\w+\s+){5}([RWE ]+?)\s+0x", parts)
    return {
        "relocations are read-only": "GNU_RELRO" in parts,
        "they are made at once": "BIND_NOW" in tags,
        "there are none of code": "TEXTREL" not in tags,
        "no stack is executable": stack is not None and "E" not in stack[1],
        "no part is both written and executed": not re.search(r"LOAD .* RWE ", parts),
        "no folder of the build is told": not re.search(r"RPATH|RUNPATH", tags),
    }


def main(folder: Path) -> int:
    missing = [it for it in ("readelf", "nm") if not shutil.which(it)]
    if missing:
        print(f"not run: what the libraries export: {missing[0]} is missing")
        return 77
    shared, archive = folder / "libmemplan.so", folder / "libmemplan.a"
    soname = re.search(r"SONAME.*\[(.*)\]", said("readelf", "--wide", "--dynamic", str(shared)))
    defined = {line.split()[2] for line in said("nm", "--extern-only", "--defined-only", str(archive)).splitlines() if len(line.split()) == 3}
    newest = max(numbers_of(it.partition("_")[2]) for it in mapped().values())
    first = {it for it, version in mapped().items() if version == "MEMPLAN_1"}
    facts = {
        "memplan.map: the calls of the header": (set(mapped()), declared()),
        "memplan.map: the calls of the first version": (first, {f"memplan_{it}" for it in FIRST}),
        "memplan.map: its newest version is no newer than the header's": (newest <= version_of_header(), True),
        "libmemplan.so: its symbols": (exported(shared), mapped()),
        "libmemplan.so: its soname": (soname and soname[1], f"libmemplan.so.{version_of_header()[0]}"),
        "libmemplan.so: its file": (shared.resolve().name, f"libmemplan.so.{'.'.join(map(str, version_of_header()))}"),
        "libmemplan.a: its symbols": (defined, declared() | HEAP),
        **{f"libmemplan.so: {what}": (fact, True) for what, fact in hardened(shared).items()},
    }
    wrong = {what: pair for what, pair in facts.items() if pair[0] != pair[1]}
    for what, (is_so, has_to) in wrong.items():
        print(f"{what}: {is_so}, and not {has_to}")
    return int(bool(wrong))


if __name__ == "__main__":
    sys.exit(main(Path(sys.argv[1])))
