"""The header has no warning, in each standard of C and of C++ that the compilers here know. It is the first thing that a source includes, and is
included once more. <stddef.h> and <stdint.h> are all that it asks for: a C89 or C++98 compiler has the second beside its standard, and a
compiler without a system has both."""

import shutil
import subprocess
import sys
from pathlib import Path

C = Path(__file__).resolve().parents[1]
OF_BOTH = "-Wall -Wextra -Wpedantic -Wconversion -Wsign-conversion -Wshadow -Wundef -Werror".split()
OF_C = [*OF_BOTH, *"-Wstrict-prototypes -Wmissing-prototypes -Wold-style-definition -Wc++-compat".split()]
OF_PLUS = [*OF_BOTH, "-Wold-style-cast"]
IN_C = "c89 gnu89 c99 c11 c17 c2x".split()
IN_PLUS = "c++98 c++11 c++14 c++17 c++20 c++23".split()
COMPILERS = (
    ("gcc", "c", IN_C, OF_C),
    ("clang", "c", IN_C, OF_C),
    ("g++", "c++", IN_PLUS, OF_PLUS),
    ("clang++", "c++", IN_PLUS, OF_PLUS),
)
PROGRAM = """#include "memplan.h"
#include "memplan.h"

int main(void)
{
    static const memplan_node node = {0, 0, 0, 0, 1};
    uint32_t order[1];
    uint64_t peak;
    memplan_fault fault;
    return memplan_plan_tree(&node, 1, order, 1, &peak, &fault) != MEMPLAN_DONE;
}
"""


def what_is_said(words: "list[str]", text: str) -> str:
    """What a compiler says of a source, or nothing where that is well."""
    done = subprocess.run([*words, "-o", "/dev/null", "-c", "-"], input=text, stdout=subprocess.PIPE, stderr=subprocess.STDOUT, text=True)
    return done.stdout or ("" if done.returncode == 0 else f"status {done.returncode}")


def main() -> int:
    failed = 0
    for compiler, language, standards, warnings in COMPILERS:
        if not shutil.which(compiler):
            print(f"not run: the header by {compiler}, which is missing")
            continue
        for standard in standards:
            words = [compiler, "-x", language, f"-std={standard}", "-ffreestanding", f"-I{C}"]
            if what_is_said(words, ""):
                print(f"not run: the header by {compiler} -std={standard}, which it does not know")
            elif said := what_is_said([*words, *warnings], PROGRAM):
                failed += 1
                print(f"{compiler} -std={standard}:\n{said}")
    return int(failed > 0)


if __name__ == "__main__":
    sys.exit(main())
