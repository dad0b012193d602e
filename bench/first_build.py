#!/usr/bin/env python3
"""How much processor time the proof of each crate takes, while something proves them.

usage: bench/first_build.py FOLDER [WORD ..]

Runs the words (./memplan plan --tree examples/five.tree, if there are none) in FOLDER, a clean clone
on a machine that has nothing proved yet, and looks every two seconds at the processes that prove a
crate of it. Prints a line for each crate of the program, with the seconds that its proof took,
in the order of crates.txt, as tools/first_build.txt has them; and to standard error what all of them
took, and the time by the clock. What proves tests or tries edits, as `rt ci` does too, is left out.
"""
import os
import subprocess
import sys
import time
from pathlib import Path

SECONDS_BETWEEN_LOOKS = 2
TICKS = os.sysconf("SC_CLK_TCK")


def crates_of(folder: Path) -> list[str]:
    """The crates that the program is made of. Its line names libraries of the toolchain too."""
    lines = (folder / "crates.txt").read_text(encoding="ascii").splitlines()
    names = next(line for line in lines if line.startswith("memplan:")).split()[1:]
    return [name for name in [*names, "memplan"] if (folder / "crates" / name).is_dir()]


def is_proof(words: list[str], place: str, folder: Path) -> bool:
    """The proof of a crate of the folder, which it names or in which it runs; not that of its tests."""
    is_here = any(str(folder) in word for word in (*words, place))
    return is_here and "--crate-name" in words and "--test" not in words


def look(folder: Path, seen: dict[tuple[str, str, str], float]) -> None:
    """The seconds of each process, by its crate, its number and its start."""
    for process in Path("/proc").iterdir():
        if not process.name.isdigit():
            continue
        try:
            words = (process / "cmdline").read_text().split("\0")
            fields = (process / "stat").read_text().rsplit(")", 1)[1].split()
            place = os.readlink(process / "cwd")
        except OSError:
            continue
        if is_proof(words, place, folder):
            crate = words[words.index("--crate-name") + 1]
            seen[crate, process.name, fields[19]] = (int(fields[11]) + int(fields[12])) / TICKS


def main() -> None:
    folder = Path(sys.argv[1]).resolve()
    words = sys.argv[2:] or ["./memplan", "plan", "--tree", "examples/five.tree"]
    seen: dict[tuple[str, str, str], float] = {}
    start = time.monotonic()
    with subprocess.Popen(words, cwd=folder, stdout=subprocess.DEVNULL) as run:
        while run.poll() is None:
            look(folder, seen)
            time.sleep(SECONDS_BETWEEN_LOOKS)
    for crate in crates_of(folder):
        print(crate, round(sum(spent for key, spent in seen.items() if key[0] == crate)))
    clock, spent = time.monotonic() - start, sum(seen.values())
    print(f"{spent:.0f} s of processor time, {clock:.0f} s by the clock", file=sys.stderr)
    sys.exit(run.returncode)


if __name__ == "__main__":
    main()
