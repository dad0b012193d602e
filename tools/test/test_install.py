"""Installing, removing and packing: of a copy of the repository, by its Makefiles, with a C compiler and no toolchain."""

import importlib.util
import os
import re
import shutil
import subprocess
import sys
import tempfile
import unittest
import zipfile
from pathlib import Path
from typing import List

ROOT = Path(__file__).resolve().parents[2]
SYSTEM = "/usr/bin:/bin"  # where no toolchain lies
POSTORDER = "peak 15\norder 5\n1\n2\n3\n4\n5\nend\n"
CALLER = """#include <memplan.h>
#include <string.h>
int main(void)
{
    memplan_node nodes[5] = {{2, 1, 9, 0, 1}, {5, 5, 0, 0, 1}, {4, 1, 9, 0, 1}, {5, 5, 0, 0, 1}, {0, 0, 0, 0, 1}};
    uint32_t order[5];
    uint64_t peak = 0;
    memplan_fault fault;
    return !(memplan_plan_tree(nodes, 5, order, 5, &peak, &fault) == MEMPLAN_DONE && peak == 11 && strcmp(memplan_version(), MEMPLAN_VERSION) == 0);
}
"""


def is_left_out(folder: str, names: List[str]) -> List[str]:
    return [name for name in names if name in (".git", "out", "build", "dist", "__pycache__", "must-fail")]


@unittest.skipUnless(shutil.which("cc", path=SYSTEM) and shutil.which("make", path=SYSTEM), "a C compiler and make")
class Installing(unittest.TestCase):
    def setUp(self) -> None:
        folder = tempfile.TemporaryDirectory()
        self.addCleanup(folder.cleanup)
        self.folder = Path(folder.name)
        self.top = self.folder / "memplan"
        shutil.copytree(ROOT, self.top, ignore=is_left_out)

    def run_words(self, *words: str, where: str = "", status: int = 0) -> str:
        environment = {"PATH": SYSTEM, "HOME": str(self.folder), "PKG_CONFIG_PATH": str(self.folder / "put/lib/pkgconfig")}
        done = subprocess.run(
            words, cwd=self.top / where, env=environment, stdin=subprocess.DEVNULL, stdout=subprocess.PIPE, stderr=subprocess.STDOUT, text=True
        )
        self.assertEqual(done.returncode, status, f"{words}: {done.stdout}")
        return done.stdout

    def make(self, *words: str, where: str = "", status: int = 0) -> str:
        return self.run_words("make", *words, where=where, status=status)

    def check_caller(self, *flags: str) -> None:
        (self.folder / "caller.c").write_text(CALLER)
        caller = str(self.folder / "caller")
        self.run_words("cc", "-o", caller, str(self.folder / "caller.c"), *flags)
        self.run_words(caller)

    def check_python(self, folder: Path) -> None:
        """The package finds the library and the program that were installed with it, and has its types."""
        self.assertTrue((folder / "memplan/py.typed").exists())
        words = "import sys; sys.path[0] = sys.argv[1]; import memplan; print(memplan.__version__, memplan.plan([0], [7], [2])[1])"
        words += "; print(*memplan.Tree([0], [7], [2]).segments())"
        version = re.search(r'MEMPLAN_VERSION "(.*)"', (ROOT / "c/memplan.h").read_text())[1]
        self.assertEqual(self.run_words(sys.executable, "-Bc", words, str(folder)), f"{version} 9\n1\n")

    def check_help(self, put: Path) -> None:
        """The man page and the completions lie where they are looked for, and bash's completes a word."""
        self.assertIn(".TH MEMPLAN 1", (put / "share/man/man1/memplan.1").read_text())
        self.assertTrue((put / "share/zsh/site-functions/_memplan").read_text().startswith("#compdef memplan\n"))
        words = 'COMP_WORDS=(memplan sim) COMP_CWORD=1; . "$0"; _memplan; echo "${COMPREPLY[@]}"'
        self.assertEqual(self.run_words("bash", "-c", words, str(put / "share/bash-completion/completions/memplan")), "simulate\n")

    def files_below(self, folder: Path) -> List[str]:
        return sorted(str(it.relative_to(folder)) for it in folder.rglob("*") if not it.is_dir() or it.name == "memplan")

    def test_what_is_installed_works_and_is_removed(self) -> None:
        put = self.folder / "put"
        self.make("install", f"PREFIX={put}")
        self.assertEqual(self.run_words(str(put / "bin/memplan"), "post", "--tree", "examples/five.tree"), POSTORDER)
        self.check_caller(f"-I{put}/include", f"{put}/lib/libmemplan.a")
        self.check_caller(f"-I{put}/include", f"-L{put}/lib", "-lmemplan", f"-Wl,-rpath,{put}/lib")
        self.assertIn(f"prefix={put}\n", (put / "lib/pkgconfig/memplan.pc").read_text())
        self.check_python(put / "share/memplan/python")
        self.check_help(put)
        self.make("uninstall", f"PREFIX={put}")
        self.assertEqual(self.files_below(put), [])

    def test_what_is_installed_says_where_it_is_going_to_lie(self) -> None:
        self.make("install", f"DESTDIR={self.folder}/stage", "PREFIX=/opt/memplan", where="c")
        text = (self.folder / "stage/opt/memplan/lib/pkgconfig/memplan.pc").read_text()
        self.assertIn("prefix=/opt/memplan\n", text)
        # another prefix, from the same build
        self.make("install", f"DESTDIR={self.folder}/stage", "PREFIX=/usr", where="c")
        self.assertIn("prefix=/usr\n", (self.folder / "stage/usr/lib/pkgconfig/memplan.pc").read_text())

    def test_folders_are_told_by_the_names_of_gnu_and_nothing_lies_outside_of_the_stage(self) -> None:
        away = self.folder / "away"
        folders = {"libdir": "lib64", "includedir": "headers", "bindir": "programs", "mandir": "manual"}
        words = [f"prefix={away}", *(f"{name}={away}/{folder}" for name, folder in folders.items()), "DESTDIR=stage"]
        self.make()
        before = self.files_below(self.folder)
        self.make("install", *words)
        after = self.files_below(self.folder)
        self.assertEqual([it for it in after if not it.startswith("memplan/stage/")], before)
        put = Path(f"{self.top}/stage{away}")
        files = "lib64/libmemplan.so.1 lib64/cmake/memplan/memplan-config.cmake headers/memplan.h programs/memplan manual/man1/memplan.1"
        for file in files.split():
            self.assertTrue((put / file).is_file(), file)
        self.assertEqual(
            re.findall(r"^(\w+)=(.*)$", (put / "lib64/pkgconfig/memplan.pc").read_text(), re.M),
            [("prefix", str(away)), ("exec_prefix", "${prefix}"), ("libdir", "${exec_prefix}/lib64"), ("includedir", "${prefix}/headers")],
        )
        for file in self.files_below(put):
            if (put / file).suffix in (".pc", ".cmake"):
                self.assertNotIn("stage", (put / file).read_text())
        self.check_python(put / "share/memplan/python")
        self.make("uninstall", *words)
        self.assertEqual(self.files_below(put), [])
        self.assertIn("the folder lib64 does not begin with a /", self.make("install", "libdir=lib64", "DESTDIR=stage", where="c", status=2))

    def test_flags_are_the_callers(self) -> None:
        flags = {"CC": "cc -DCOMPILER", "CPPFLAGS": "-DPREPROCESSOR -D_FORTIFY_SOURCE=1", "CFLAGS": "-O1 -DOPTIONS", "LDFLAGS": "-Wl,-z,lazy"}
        said = self.make(*(f"{name}={words}" for name, words in flags.items()), where="c").splitlines()
        (compiled,) = (line for line in said if " -c support.c" in line)
        (linked,) = (line for line in said if " -shared " in line)
        for line, names in ((compiled, ("CC", "CPPFLAGS", "CFLAGS")), (linked, ("CC", "CFLAGS", "LDFLAGS"))):
            for name in names:
                self.assertIn(flags[name], line)
        self.assertIn("-fstack-protector-strong", compiled)
        self.assertNotIn("_FORTIFY_SOURCE=2", compiled)
        # the last word is the caller's
        self.assertGreater(linked.index(flags["LDFLAGS"]), linked.index("-z,now"))

    def test_built_libraries_are_installed_where_no_sources_are(self) -> None:
        self.make(where="c")
        for name in ("crates", "crates.txt", "prebuilt", "tools"):
            it = self.top / name
            shutil.rmtree(it) if it.is_dir() else it.unlink()
        self.make("install", f"PREFIX={self.folder}/put", where="c")
        self.check_caller(f"-I{self.folder}/put/include", f"{self.folder}/put/lib/libmemplan.a")

    def test_a_changed_source_is_not_passed_over(self) -> None:
        self.make(where="c")
        self.assertNotIn(" -c support.c", self.make(where="c"))
        os.utime(self.top / "c/support.c")
        self.assertIn(" -c support.c", self.make(where="c"))
        source = self.top / "crates/memplan_c/src/arrays.rt"
        source.write_text(source.read_text() + "// changed\n")
        self.assertIn("there is no rt on PATH", self.make(where="c", status=2))

    def test_the_tarball_is_whole_and_stands_alone(self) -> None:
        self.make("dist")
        (tarball,) = (self.top / "dist").glob("*.tar.gz")
        first = tarball.read_bytes()
        self.run_words("sha256sum", "--check", "--status", f"{tarball.name}.sha256", where="dist")
        self.run_words("tar", "-xzf", str(tarball), "-C", str(self.folder))
        put = self.folder / tarball.name.replace(".tar.gz", "")
        self.run_words("sha256sum", "--check", "--status", "SHA256SUMS", where=str(put))
        self.assertEqual(self.run_words(str(put / "bin/memplan"), "post", "--tree", "examples/five.tree"), POSTORDER)
        self.check_caller(f"-I{put}/include", f"{put}/lib/libmemplan.a")
        self.check_python(put / "python")
        if shutil.which("pkg-config", path=SYSTEM):
            put.rename(self.folder / "put")
            flags = self.run_words("pkg-config", "--cflags", "--libs", "memplan").split()
            self.check_caller(*flags, f"-Wl,-rpath,{self.folder}/put/lib")
        self.make("dist")
        self.assertEqual(tarball.read_bytes(), first)

    @unittest.skipUnless(sys.version_info >= (3, 11), "Python 3.11")
    def test_make_and_pip_make_the_same_wheel(self) -> None:
        self.make("wheel")
        (wheel,) = (self.top / "dist").glob("*.whl")
        with zipfile.ZipFile(wheel) as files:
            self.assertEqual(files.read("memplan/libmemplan.so.1"), (self.top / "c/build/libmemplan.so").read_bytes())
        if importlib.util.find_spec("pip"):
            self.run_words(sys.executable, "-m", "pip", "wheel", "--no-index", "--no-deps", "--wheel-dir", f"{self.folder}/again", "./python")
            self.assertEqual((self.folder / "again" / wheel.name).read_bytes(), wheel.read_bytes())
        self.make("clean")
        self.assertFalse((self.top / "dist").exists() or (self.top / "c/build").exists())


if __name__ == "__main__":
    unittest.main()
