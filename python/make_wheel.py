#!/usr/bin/env python3
"""Makes the wheel: memplan with its library and its program inside, and memplan_dask, the old name of memplan.dask.

usage: make_wheel.py FOLDER [LIBRARY PROGRAM]

It needs Python 3.11 or later, but no network and no other package. LIBRARY is a libmemplan.so that is there, and PROGRAM the program;
without them `make -C c` builds the one, by a C compiler, and tools/program.sh finds the other, both from prebuilt/ where that is of these
sources. pip asks this module too, by pyproject.toml: `pip install ./python`. The same library and program make the same bytes. What is
written at last is the wheel's path.
"""
import base64
import hashlib
import os
import re
import subprocess
import sys
import zipfile
from pathlib import Path
from typing import Any, Dict, Iterator, Optional

HERE = Path(__file__).resolve().parent
TOP = HERE.parent
PACKAGES = (HERE / "memplan", TOP / "integrations/dask/memplan_dask")
SUFFIXES = (".py", ".html", ".typed")
# No glibc is told of, as by a tag of manylinux: the library needs x86-64-v2 besides, which no tag tells, and may be linked as its maker likes.
TAG = "py3-none-linux_x86_64"


def told_version() -> str:
    found = re.search(r'^#define MEMPLAN_VERSION "(.*)"$', (TOP / "c/memplan.h").read_text(encoding="utf-8"), re.MULTILINE)
    if found is None:
        sys.exit("make_wheel.py: c/memplan.h has no MEMPLAN_VERSION")
    return found[1]


def built_library() -> Path:
    if (os.uname().sysname, os.uname().machine) != ("Linux", "x86_64"):
        sys.exit("make_wheel.py: memplan is built for Linux on x86-64: prebuilt/README.md says what it needs")
    try:
        subprocess.run(["make", "--no-print-directory", "-C", str(TOP / "c"), "BUILD=build"], check=True, stdout=sys.stderr)
    except (OSError, subprocess.CalledProcessError) as error:
        sys.exit(f"make_wheel.py: the library was not built: {error}")
    return TOP / "c/build/libmemplan.so"


def built_program() -> Path:
    """That of tools/program.sh, as for `make` at the top."""
    words = ["bash", "-uc", '. "$here/tools/program.sh"; find_program; printf %s "$program"']
    try:
        done = subprocess.run(words, env={**os.environ, "here": str(TOP)}, stdout=subprocess.PIPE, check=True, text=True)
    except (OSError, subprocess.CalledProcessError) as error:
        sys.exit(f"make_wheel.py: there is no program: {error}")
    return Path(done.stdout)


def told_of(project: Dict[str, Any], version: str) -> Iterator[str]:
    """The lines of METADATA."""
    yield "Metadata-Version: 2.1"
    yield f"Name: {project['name']}"
    yield f"Version: {version}"
    yield f"Summary: {project['description']}"
    yield f"Requires-Python: {project['requires-python']}"
    for extra, packages in project["optional-dependencies"].items():
        yield f"Provides-Extra: {extra}"
        yield from (f"Requires-Dist: {package} ; extra == '{extra}'" for package in packages)
    yield "Description-Content-Type: text/markdown; charset=UTF-8"
    yield ""
    yield (HERE / project["readme"]).read_text(encoding="utf-8")


def contents(version: str, library: Path, program: Path) -> Dict[str, bytes]:
    """The files of the wheel but RECORD."""
    try:
        import tomllib
    except ImportError:
        sys.exit("make_wheel.py: a wheel is made by Python 3.11 or later; what it holds runs on older ones too")
    project = tomllib.loads((HERE / "pyproject.toml").read_text(encoding="utf-8"))["project"]
    files: Dict[str, bytes] = {}
    for package in PACKAGES:
        taken = sorted(it for it in package.rglob("*") if it.suffix in SUFFIXES)
        files.update((it.relative_to(package.parent).as_posix(), it.read_bytes()) for it in taken)
    files[f"memplan/libmemplan.so.{version.split('.')[0]}"] = library.read_bytes()
    files["memplan/memplan"] = program.read_bytes()
    noted = f"memplan-{version}.dist-info"
    files[f"{noted}/METADATA"] = "\n".join(told_of(project, version)).encode()
    files[f"{noted}/WHEEL"] = f"Wheel-Version: 1.0\nGenerator: make_wheel.py\nRoot-Is-Purelib: false\nTag: {TAG}\n".encode()
    return files


def record_of(files: Dict[str, bytes], itself: str) -> bytes:
    sums = {name: base64.urlsafe_b64encode(hashlib.sha256(it).digest()).rstrip(b"=").decode() for name, it in files.items()}
    return "".join([*(f"{name},sha256={sums[name]},{len(it)}\n" for name, it in files.items()), f"{itself},,\n"]).encode()


def make_wheel(folder: Path, library: Path, program: Path) -> Path:
    version = told_version()
    files = contents(version, library, program)
    record = f"memplan-{version}.dist-info/RECORD"
    files[record] = record_of(files, record)
    folder.mkdir(parents=True, exist_ok=True)
    wheel = folder / f"memplan-{version}-{TAG}.whl"
    with zipfile.ZipFile(wheel, "w") as put:
        for name, it in files.items():
            entry = zipfile.ZipInfo(name, (2000, 1, 1, 0, 0, 0))
            entry.external_attr = (0o100755 if ".so" in name or name == "memplan/memplan" else 0o100644) << 16
            put.writestr(entry, it, zipfile.ZIP_DEFLATED)
    return wheel


def build_wheel(wheel_directory: str, config_settings: Optional[Dict[str, Any]] = None, metadata_directory: Optional[str] = None) -> str:
    """What pip calls, and any frontend that keeps to PEP 517."""
    return make_wheel(Path(wheel_directory), built_library(), built_program()).name


if __name__ == "__main__":
    if len(sys.argv) not in (2, 4):
        sys.exit(__doc__)
    built = [Path(it) for it in sys.argv[2:]] or [built_library(), built_program()]
    print(make_wheel(Path(sys.argv[1]), *built))
