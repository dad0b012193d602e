"""Runs of the program in a folder of files."""
import shutil
import subprocess
from collections.abc import Iterable
from pathlib import Path
from typing import NamedTuple, Optional

DONE, NO, USAGE, FORMAT, LIMIT, BOUND, READ_FAULT, WRITE_FAULT, NO_MEMORY = range(9)

NOT_SERIES_PARALLEL = 9

WORKING_SET = 10

STATUSES = {*range(9), NOT_SERIES_PARALLEL, WORKING_SET}

COMPLAINTS = {
    USAGE: b"memplan: usage\n",
    READ_FAULT: b"memplan: read fault\n",
    WRITE_FAULT: b"memplan: write fault\n",
    NO_MEMORY: b"memplan: no memory\n",
}

SECONDS = 60

class Ending(NamedTuple):
    """How a run ended: its status, and what it wrote on standard output and on standard error."""

    status: int
    report: bytes
    complaint: bytes


def failed(status: int) -> Ending:
    """The ending with a status at which only the complaint is written."""
    return Ending(status, b"", COMPLAINTS[status])


class Bench:
    """The program in a folder of files."""

    def __init__(self, program: Path, folder: Path) -> None:
        self.program, self.folder = program, folder
        self.runs = 0

    def put(self, files: dict[str, bytes]) -> None:
        """Makes these the folder's files, beside a folder `d`."""
        shutil.rmtree(self.folder, ignore_errors=True)
        (self.folder / "d").mkdir(parents=True)
        for name, text in files.items():
            (self.folder / name).write_bytes(text)

    def run(self, words: list[str], stdout: int = subprocess.PIPE) -> Ending:
        self.runs += 1
        done = subprocess.run(
            [self.program, *words], cwd=self.folder, stdin=subprocess.DEVNULL, stdout=stdout, stderr=subprocess.PIPE, timeout=SECONDS
        )
        return Ending(done.returncode, done.stdout or b"", done.stderr)

    def printed(self, words: list[str]) -> Optional[bytes]:
        """What a run prints that ends with done."""
        ending = self.run(words)
        return ending.report if ending.status == DONE else None

    def read(self, name: str) -> Optional[bytes]:
        """A file, where it can be read."""
        try:
            return (self.folder / name).read_bytes()
        except OSError:
            return None

    def write(self, name: str, text: bytes) -> None:
        (self.folder / name).write_bytes(text)


def told(wrongs: Iterable[str]) -> list[str]:
    """All that is wrong. So is a run that takes too long, and an answer that the script cannot judge."""
    found = []
    try:
        for wrong in wrongs:
            found.append(wrong)
    except subprocess.TimeoutExpired:
        found.append(f"a run takes more than {SECONDS} seconds")
    except (LookupError, ValueError) as error:
        found.append(f"this script cannot judge it: {error!r}")
    return found
