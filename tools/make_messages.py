#!/usr/bin/env python3
"""Writes what the kinds of faults say where each language has it.

usage: make_messages.py [--check]

The names and numbers of the kinds are those of `enum memplan_kind` in c/memplan.h, their words those of `_KINDS` in
python/memplan/__init__.py. Of both are made c/messages.c, the call memplan_message, and in fortran/memplan.f90 the constants of the
kinds, between two lines that say so. With --check nothing is written; it ends with 1 where a file is not what would be made. The last
line is then 'N passed, M failed'.
"""
import ast
import re
import sys
from pathlib import Path

ROOT = Path(__file__).resolve().parent.parent
HEADER, PACKAGE = ROOT / "c/memplan.h", ROOT / "python/memplan/__init__.py"
MESSAGES, FORTRAN = ROOT / "c/messages.c", ROOT / "fortran/memplan.f90"
BEGIN, END = "   ! Kinds of faults, as tools/make_messages.py makes them.\n", "   ! The end of the kinds.\n"

HEAD = """/* What the kinds of faults say. tools/make_messages.py makes this file; no proof speaks of it. */

#include "memplan.h"

const char *memplan_message(uint32_t kind)
{
    switch (kind) {
"""
TAIL = """    default:
        return "refused";
    }
}
"""


def kinds() -> "list[tuple[str, int, str]]":
    """Each kind's name, number and words."""
    enum = HEADER.read_text().split("enum memplan_kind {")[1].split("};")[0]
    words = ast.literal_eval(re.search(r"^_KINDS = (\{.*?^\})", PACKAGE.read_text(), re.M | re.S)[1])
    return [(name, int(number), words[int(number)]) for name, number in re.findall(r"(MEMPLAN_KIND_\w+) = (\d+)", enum)]


def messages() -> str:
    return HEAD + "".join(f'    case {name}:\n        return "{words}";\n' for name, _, words in kinds()) + TAIL


def fortran() -> str:
    before, rest = FORTRAN.read_text().split(BEGIN)
    after = rest.split(END)[1]
    made = "".join(f"   integer(c_int32_t), parameter, public :: {name.lower()} = {number}\n" for name, number, _ in kinds())
    return before + BEGIN + made + END + after


def main() -> None:
    made = {MESSAGES: messages(), FORTRAN: fortran()}
    if sys.argv[1:] == ["--check"]:
        wrong = [it for it, text in made.items() if not it.is_file() or it.read_text() != text]
        for it in wrong:
            print(f"{it.relative_to(ROOT)}: not as tools/make_messages.py makes it")
        print(f"{len(made) - len(wrong)} passed, {len(wrong)} failed")
        sys.exit(bool(wrong))
    for it, text in made.items():
        it.write_text(text)


main()
