"""The CMake package, as a project finds it that knows nothing of where it was built: in an install tree that was moved, for two layouts of its
folders. Both targets are linked and run, and versions are taken or refused.

usage: cmake_package.py FOLDER, where libmemplan.so and libmemplan.a are
"""

import os
import re
import shutil
import subprocess
import sys
import tempfile
from pathlib import Path

C = Path(__file__).resolve().parents[1]
VERSION = re.search(r'#define MEMPLAN_VERSION "(.*)"', (C / "memplan.h").read_text())[1]
LAYOUTS = {
    "lib": ("lib", "include"),
    "multiarch": ("lib/x86_64-linux-gnu", "include/memplan"),
}
# What is asked for, and whether it is found.
REQUESTS = (
    ("", True),
    ("1", True),
    ("1.0", True),
    (VERSION, True),
    (f"{VERSION} EXACT", True),
    ("1.0 EXACT", False),
    ("0.9", False),
    ("1.999", False),
    ("2", False),
    ("1...<2", True),
    (f"1...{VERSION}", True),
    ("1...<1.0.1", False),
    ("0.9...3", False),
    ("1 COMPONENTS shared static", True),
    ("1 COMPONENTS fortran", False),
)
CALLER = """#include <memplan.h>
#include <string.h>
int main(void)
{
    memplan_node node = {0, 7, 2, 0, 1};
    uint32_t order[1];
    uint64_t peak = 0;
    memplan_fault fault;
    return !(memplan_plan_tree(&node, 1, order, 1, &peak, &fault) == MEMPLAN_DONE && peak == 9 && strcmp(memplan_version(), MEMPLAN_VERSION) == 0);
}
"""
PROJECT = """cmake_minimum_required(VERSION 3.19)
project(caller C)
find_package(memplan 1 CONFIG REQUIRED)
# twice, as where two parts of a project use it
find_package(memplan 1 CONFIG REQUIRED)
add_executable(by_shared caller.c)
target_link_libraries(by_shared PRIVATE memplan::memplan)
add_executable(by_static caller.c)
target_link_libraries(by_static PRIVATE memplan::memplan_static)
"""


class Failed(Exception):
    pass


def run(*words: str) -> str:
    done = subprocess.run(words, stdin=subprocess.DEVNULL, stdout=subprocess.PIPE, stderr=subprocess.STDOUT, text=True)
    if done.returncode:
        raise Failed(f"{' '.join(words)}: status {done.returncode}\n{done.stdout}")
    return done.stdout


def check(fact: bool, what: str) -> None:
    if not fact:
        raise Failed(what)


def install(build: Path, folder: Path, lib: str, include: str) -> Path:
    """The folder of the package's files, in a tree that is no longer where it was installed."""
    first, moved = folder / "first", folder / "moved"
    run("make", "-s", "-C", str(C), "install", f"BUILD={build}", f"prefix={first}", f"libdir={first}/{lib}", f"includedir={first}/{include}")
    first.rename(moved)
    package = moved / lib / "cmake/memplan"
    for file in package.iterdir():
        text = file.read_text()
        check(str(folder) not in text and str(C) not in text and "@" not in text, f"{file.name} names a folder, or has a blank:\n{text}")
    return package


def configure(project: Path, package: Path, text: str) -> str:
    (project / "CMakeLists.txt").write_text(text)
    return run("cmake", "-S", str(project), "-B", str(project / "out"), f"-Dmemplan_DIR={package}")


def check_targets(project: Path, package: Path) -> None:
    (project / "caller.c").write_text(CALLER)
    configure(project, package, PROJECT)
    run("cmake", "--build", str(project / "out"))
    for name, needs in (("by_shared", True), ("by_static", False)):
        program = str(project / "out" / name)
        run(program)
        if shutil.which("readelf"):
            check(("[libmemplan.so.1]" in run("readelf", "--dynamic", program)) == needs, f"{name} needs another library")


def check_requests(project: Path, package: Path) -> None:
    asked = "\n".join(
        f'set(memplan_DIR "{package}")\nfind_package(memplan {words} CONFIG QUIET)\nmessage("{number}: ${{memplan_FOUND}}")'
        for number, (words, _) in enumerate(REQUESTS)
    )
    said = configure(project, package, f"cmake_minimum_required(VERSION 3.19)\nproject(asking C)\n{asked}\n")
    found_or_not = dict(re.findall(r"^(\d+): ([01]|TRUE|FALSE)$", said, re.M))
    for number, (words, found) in enumerate(REQUESTS):
        check(found_or_not.get(str(number)) in (("1", "TRUE") if found else ("0", "FALSE")), f"find_package(memplan {words}) is not {found}:\n{said}")


def main(build: Path) -> int:
    missing = [it for it in ("cmake", "make") if not shutil.which(it)]
    if missing:
        print(f"not run: the CMake package: {missing[0]} is missing")
        return 77
    # the compiler that the libraries were built by
    os.environ.setdefault("CC", "cc")
    try:
        for name, (lib, include) in LAYOUTS.items():
            with tempfile.TemporaryDirectory() as folder:
                package = install(build, Path(folder).resolve(), lib, include)
                for part in (check_targets, check_requests):
                    project = Path(folder) / part.__name__
                    project.mkdir()
                    part(project, package)
    except Failed as fault:
        print(f"{name}: {fault}")
        return 1
    return 0


if __name__ == "__main__":
    sys.exit(main(Path(sys.argv[1])))
