"""Runs the program, for what the library has no call for: over files in a folder of its own, which is gone afterwards."""

from __future__ import annotations

import os
import shutil
import subprocess
import tempfile
from pathlib import Path
from typing import Mapping, NamedTuple, Sequence

_HOW_TO_FIND = """memplan finds no program for the command {}.
A wheel has it inside. Else set MEMPLAN_PROGRAM to its path: `make` in memplan's repository makes sure of it, and `make install` installs it
as memplan."""

_READ_FAULT, _WRITE_FAULT, _NO_MEMORY, _MOST = 6, 7, 8, 10


class Ended(NamedTuple):
    """The status of a run, and what it wrote."""

    status: int
    report: bytes


def find(command: str) -> str:
    """The program that MEMPLAN_PROGRAM names; else the one that lies where this package lies: in it, as from a wheel, or near it, as in the
    repository, in a tarball, or as `make install` puts both; else what PATH has."""
    told = os.environ.get("MEMPLAN_PROGRAM", "")
    if told:
        return told
    here = Path(__file__).resolve().parent
    above = list(here.parents)
    near = [here, *(it / part for it in above[1:2] for part in ("prebuilt/Linux-x86_64", "bin")), *(it / "bin" for it in above[3:4])]
    found = next((str(it / "memplan") for it in near if (it / "memplan").is_file()), None) or shutil.which("memplan")
    if found is None:
        raise FileNotFoundError(_HOW_TO_FIND.format(command))
    return found


def run(command: str, files: Mapping[str, bytes], words: Sequence[str] = ()) -> Ended:
    """Runs a command over files of these texts, each told by its option. Faults of reading and writing, and want of memory, are errors."""
    program = find(command)
    with tempfile.TemporaryDirectory(prefix="memplan-") as folder:
        told = [command, *words]
        for option, text in files.items():
            path = os.path.join(folder, option.lstrip("-"))
            with open(path, "wb") as file:
                file.write(text)
            told += [option, path]
        done = subprocess.run([program, *told], stdin=subprocess.DEVNULL, stdout=subprocess.PIPE, stderr=subprocess.PIPE, check=False)
    if done.returncode == _NO_MEMORY:
        raise MemoryError("memplan: memory ran out")
    if not 0 <= done.returncode <= _MOST or done.returncode in (_READ_FAULT, _WRITE_FAULT):
        said = done.stderr.decode("utf-8", "replace").strip()
        raise OSError(f"{program} {command} ended with {done.returncode}: {said}")
    return Ended(done.returncode, done.stdout)
