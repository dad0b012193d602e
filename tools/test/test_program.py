"""How ./memplan finds its program: in a small repository with a stand-in for the toolchain, over the real scripts and a real program."""

import importlib.machinery
import importlib.util
import os
import shutil
import signal
import stat
import subprocess
import sys
import tempfile
import time
import unittest
from pathlib import Path
from typing import Dict, Optional

ROOT = Path(__file__).resolve().parents[2]
PROGRAM = Path(os.environ.get("MEMPLAN_PROGRAM") or ROOT / "prebuilt/Linux-x86_64/memplan").resolve()
SCRIPTS = ["memplan", "tools/program.sh", "tools/sources_sum", "tools/toolchain.txt", "tools/first_build.txt", "examples/five.tree"]
SYSTEM = "/usr/bin:/bin"  # where no toolchain lies
NO_PROGRAM = 20
POSTORDER = "peak 15\norder 5\n1\n2\n3\n4\n5\nend\n"
SOURCE = "crates/limits/src/lib.rt"
TEST = "crates/limits_tests/src/tests.rt"

# What runs in the background of a script ignores these, and so would all that it starts: the signals that are sent here would end nothing.
for number in (signal.SIGINT, signal.SIGHUP, signal.SIGQUIT):
    if signal.getsignal(number) == signal.SIG_IGN:
        signal.signal(number, signal.SIG_DFL)

# What stands in for rt: it says what the real one says, and its build takes so long, or fails so, as the folder's files tell.
STAND_IN = """#!/bin/bash
at=$PWD
cd "$(dirname "$0")"
echo "$*" >> calls
case "$1" in
version) cat version ;;
all) ls "$at" > crates; cat "$at/../crates.txt" > lines; mkdir -p "$at/limits/out" && echo proved >> "$at/limits/out/kept"
    echo "== limits"; echo "crate limits: modules loaded=1 checked=1"; sleep "$(cat seconds)"; cat failure 2>/dev/null && exit 1; exit 0 ;;
run) mkdir -p "$at/out" && cp "$(cat program)" "$at/out/memplan" ;;
esac
"""


class Repository:
    """A small repository whose sources are those of its prebuilt program."""

    def __init__(self, folder: Path) -> None:
        self.top, self.toolchain, self.scratch = folder / "top", folder / "toolchain", folder / "scratch"
        for name in SCRIPTS:
            (self.top / name).parent.mkdir(parents=True, exist_ok=True)
            shutil.copy(ROOT / name, self.top / name)
        for crate in ("limits", "memplan", "memplan_c", "limits_tests"):
            for part in ("src", "specs", "proofs"):
                (self.top / "crates" / crate / part).mkdir(parents=True)
        (self.top / SOURCE).write_text("//! A source.\n")
        (self.top / "crates/memplan/src/main.rt").write_text("//! Another one.\n")
        (self.top / TEST).write_text("//! A test.\n")
        (self.top / "crates.txt").write_text("limits:\nmemplan: limits rand_core\nmemplan_c staticlib: limits\nlimits_tests: limits\n")
        self.scratch.mkdir()
        self.put_prebuilt()
        self.put_toolchain()
        folder.chmod(0o755)

    def put_prebuilt(self) -> None:
        ready = self.top / "prebuilt/Linux-x86_64"
        ready.mkdir(parents=True)
        shutil.copy(PROGRAM, ready / "memplan")
        sums = subprocess.run(["sha256sum", "memplan"], cwd=ready, check=True, stdout=subprocess.PIPE)
        (ready / "SUMS").write_bytes(sums.stdout)
        made_of = subprocess.run([self.top / "tools/sources_sum"], check=True, stdout=subprocess.PIPE)
        (self.top / "prebuilt/SOURCES").write_bytes(made_of.stdout)

    def put_toolchain(self) -> None:
        self.toolchain.mkdir()
        told = {
            "rt": STAND_IN,
            "version": (ROOT / "tools/toolchain.txt").read_text().splitlines()[-1],
            "seconds": "0",
            "program": str(PROGRAM),
            "calls": "",
        }
        for name, text in told.items():
            (self.toolchain / name).write_text(text)
        (self.toolchain / "rt").chmod(0o755)

    def words(self, wrapper: Optional[Path] = None) -> list:
        return [str(wrapper or self.top / "memplan"), "post", "--tree", str(self.top / "examples/five.tree")]

    def environment(self, with_toolchain: bool, **more: str) -> Dict[str, str]:
        path = f"{self.toolchain}:{SYSTEM}" if with_toolchain else SYSTEM
        return {"PATH": path, "TMPDIR": str(self.scratch), "HOME": str(self.scratch), **more}

    def run(self, with_toolchain: bool = False, wrapper: Optional[Path] = None, before: tuple = (), **more: str) -> subprocess.CompletedProcess:
        words = [*before, *self.words(wrapper)]
        return subprocess.run(
            words, env=self.environment(with_toolchain, **more), stdin=subprocess.DEVNULL, capture_output=True, text=True, timeout=60
        )

    def builds(self) -> int:
        return (self.toolchain / "calls").read_text().count("all check")


class ProgramTest(unittest.TestCase):
    def setUp(self) -> None:
        folder = tempfile.TemporaryDirectory()
        self.addCleanup(folder.cleanup)
        self.repository = Repository(Path(folder.name))
        self.source = self.repository.top / SOURCE
        self.built = self.repository.top / "crates/memplan/out/memplan"

    def check_runs(self, done: subprocess.CompletedProcess, complaint: str = "") -> None:
        self.assertEqual((done.stdout, done.returncode), (POSTORDER, 0), done.stderr)
        self.assertIn(complaint, done.stderr)
        if not complaint:
            self.assertEqual(done.stderr, "")

    def check_refuses(self, done: subprocess.CompletedProcess, *complaints: str) -> None:
        self.assertEqual((done.stdout, done.returncode), ("", NO_PROGRAM))
        for complaint in complaints:
            self.assertIn(complaint, done.stderr)

    def is_scratch_empty(self) -> bool:
        return not any(self.repository.scratch.iterdir())


class Prebuilt(ProgramTest):
    def test_it_is_run_at_once_and_without_a_toolchain(self) -> None:
        self.check_runs(self.repository.run())
        self.check_runs(self.repository.run())
        self.assertTrue(self.is_scratch_empty())

    def test_it_is_run_through_a_symlink(self) -> None:
        link = self.repository.scratch / "memplan"
        link.symlink_to(os.path.relpath(self.repository.top / "memplan", self.repository.scratch))
        self.check_runs(self.repository.run(wrapper=link))

    def test_it_is_not_run_where_a_source_is_another(self) -> None:
        self.check_runs(self.repository.run())
        self.source.write_text("//! A source!\n")
        self.check_refuses(self.repository.run(), "the sources are not those of prebuilt/", "there is no rt on PATH")

    def test_it_is_not_run_where_a_source_is_another_of_an_older_date(self) -> None:
        self.check_runs(self.repository.run())
        self.source.write_text("//! A source!\n")
        os.utime(self.source, (0, 0))
        self.check_refuses(self.repository.run(), "the sources are not those of prebuilt/")

    def test_it_is_not_run_where_a_source_is_gone_or_there_is_one_more(self) -> None:
        self.check_runs(self.repository.run())
        kept = self.source.read_text()
        self.source.unlink()
        self.check_refuses(self.repository.run(), "the sources are not those of prebuilt/")
        self.source.write_text(kept)
        self.check_runs(self.repository.run())
        self.source.with_name("more.rt").write_text("")
        self.check_refuses(self.repository.run(), "the sources are not those of prebuilt/")

    def test_it_is_run_where_a_test_is_another(self) -> None:
        self.check_runs(self.repository.run())
        test = self.repository.top / TEST
        test.write_text("//! A test!\n")
        self.check_runs(self.repository.run())
        test.with_name("more.rt").write_text("")
        self.check_runs(self.repository.run())
        shutil.rmtree(test.parents[1])
        self.check_runs(self.repository.run())

    def test_only_a_crate_is_one_of_tests(self) -> None:
        self.check_runs(self.repository.run())
        below = self.source.parent / "own_tests/more.rt"
        below.parent.mkdir()
        below.write_text("")
        self.check_refuses(self.repository.run(), "the sources are not those of prebuilt/")

    def test_it_is_not_run_where_another_crate_is_listed(self) -> None:
        self.check_runs(self.repository.run())
        (self.repository.top / "crates.txt").write_text("limits:\nmemplan: limits\n")
        self.check_refuses(self.repository.run(), "the sources are not those of prebuilt/")

    def test_it_is_not_run_where_a_byte_of_it_is_another(self) -> None:
        self.check_runs(self.repository.run())
        ready = self.repository.top / "prebuilt/Linux-x86_64/memplan"
        text = bytearray(ready.read_bytes())
        text[len(text) // 2] ^= 1
        ready.write_bytes(text)
        self.check_refuses(self.repository.run(), "damaged")

    def test_touched_sources_are_read_again_and_found_the_same(self) -> None:
        self.check_runs(self.repository.run())
        os.utime(self.source)
        self.check_runs(self.repository.run())

    def test_it_is_run_in_a_folder_where_nothing_can_be_written(self) -> None:
        as_nobody = ("setpriv", "--reuid=65534", "--regid=65534", "--clear-groups") if os.geteuid() == 0 else ()
        for path in [self.repository.top, *self.repository.top.rglob("*")]:
            path.chmod(path.stat().st_mode & ~(stat.S_IWUSR | stat.S_IWGRP | stat.S_IWOTH))
        self.repository.scratch.chmod(0o777)
        for _ in range(2):
            self.check_runs(self.repository.run(before=as_nobody))
        self.assertFalse((self.repository.top / "out").exists())
        self.check_runs(self.repository.run(before=as_nobody, HOME="/nonexistent"))
        for path in [self.repository.top, *self.repository.top.rglob("*")]:
            path.chmod(path.stat().st_mode | stat.S_IWUSR)

    def test_two_runs_at_once(self) -> None:
        runs = [
            subprocess.Popen(self.repository.words(), env=self.repository.environment(False), stdout=subprocess.PIPE, text=True)
            for _ in range(8)
        ]
        self.assertEqual([run.communicate()[0] for run in runs], [POSTORDER] * 8)

    def test_what_the_wrapper_costs(self) -> None:
        def least(words: list) -> float:
            times = []
            for _ in range(20):
                start = time.perf_counter()
                subprocess.run(words, env=self.repository.environment(False), stdout=subprocess.DEVNULL, check=True)
                times.append(time.perf_counter() - start)
            return min(times)

        # 30 ms are the aim, on a machine without other work
        self.assertLess(least(self.repository.words()) - least([str(PROGRAM), *self.repository.words()[1:]]), 0.06)


class Built(ProgramTest):
    def setUp(self) -> None:
        super().setUp()
        self.source.write_text("//! A source!\n")

    def test_it_is_built_once_where_a_source_is_another(self) -> None:
        self.check_runs(self.repository.run(with_toolchain=True), "this takes 20 to 60 minutes")
        self.check_runs(self.repository.run(with_toolchain=True), "the sources are not those of prebuilt/")
        self.assertEqual(self.repository.builds(), 1)
        self.source.write_text("//! A source, again.\n")
        self.check_runs(self.repository.run(with_toolchain=True), "this takes 20 to 60 minutes")
        self.assertEqual(self.repository.builds(), 2)
        self.assertTrue(self.is_scratch_empty())

    def test_only_what_the_program_needs_is_proved_and_it_is_kept(self) -> None:
        self.check_runs(self.repository.run(with_toolchain=True), "this takes 20 to 60 minutes")
        self.assertEqual((self.repository.toolchain / "crates").read_text().split(), ["limits", "memplan"])
        self.assertEqual((self.repository.toolchain / "lines").read_text(), "limits:\nmemplan: limits rand_core\n")
        kept = self.repository.top / "crates/limits/out/kept"
        self.assertEqual(kept.read_text(), "proved\n")
        self.source.write_text("//! A source, again.\n")
        self.check_runs(self.repository.run(with_toolchain=True), "this takes 20 to 60 minutes")
        self.assertEqual(kept.read_text(), "proved\nproved\n")
        self.assertFalse((self.repository.top / "out/first-build").exists())

    def test_what_a_killed_build_had_proved_is_kept(self) -> None:
        (self.repository.toolchain / "seconds").write_text("30")
        run = subprocess.Popen(
            self.repository.words(), env=self.repository.environment(True), stdout=subprocess.DEVNULL, stderr=subprocess.DEVNULL, start_new_session=True
        )
        while not self.repository.builds():
            time.sleep(0.05)
        time.sleep(0.3)
        os.killpg(run.pid, signal.SIGKILL)
        run.wait(timeout=10)
        (self.repository.toolchain / "seconds").write_text("0")
        self.check_runs(self.repository.run(with_toolchain=True), "this takes 20 to 60 minutes")
        self.assertEqual((self.repository.top / "crates/limits/out/kept").read_text(), "proved\nproved\n")

    def test_it_is_not_built_again_where_a_test_is_another(self) -> None:
        self.check_runs(self.repository.run(with_toolchain=True), "this takes 20 to 60 minutes")
        (self.repository.top / TEST).write_text("//! A test!\n")
        self.check_runs(self.repository.run(with_toolchain=True), "the sources are not those of prebuilt/")
        self.assertEqual(self.repository.builds(), 1)

    def test_it_is_built_where_that_is_asked_for(self) -> None:
        self.source.write_text("//! A source.\n")
        self.check_runs(self.repository.run(with_toolchain=True, MEMPLAN_PROVE="1"), "this takes 20 to 60 minutes")
        self.assertEqual(self.repository.builds(), 1)
        self.check_runs(self.repository.run(with_toolchain=True))

    def test_another_toolchain_is_refused(self) -> None:
        (self.repository.toolchain / "version").write_text("rattle-kit-0 logic 0\n")
        self.check_refuses(self.repository.run(with_toolchain=True), "the rt on PATH is rattle-kit-0 logic 0")
        self.assertEqual(self.repository.builds(), 0)

    def test_a_build_that_fails_tells_why_and_keeps_the_program_that_was_there(self) -> None:
        self.check_runs(self.repository.run(with_toolchain=True), "this takes")
        before = self.built.read_bytes()
        self.source.write_text("//! A source, again.\n")
        (self.repository.toolchain / "failure").write_text("this kit needs glibc 2.40\n")
        self.check_refuses(self.repository.run(with_toolchain=True), "this kit needs glibc 2.40", "it is of older sources")
        self.assertEqual(self.built.read_bytes(), before)
        self.assertEqual([it.name for it in self.built.parent.iterdir()], ["memplan"])
        self.assertTrue(self.is_scratch_empty())

    def test_two_builds_at_once(self) -> None:
        (self.repository.toolchain / "seconds").write_text("1")
        runs = [
            subprocess.Popen(self.repository.words(), env=self.repository.environment(True), stdout=subprocess.PIPE, stderr=subprocess.DEVNULL, text=True)
            for _ in range(3)
        ]
        self.assertEqual([run.communicate()[0] for run in runs], [POSTORDER] * 3)
        self.assertEqual(self.repository.builds(), 1)

    def test_an_interrupt_ends_it_and_leaves_nothing(self) -> None:
        (self.repository.toolchain / "seconds").write_text("30")
        run = subprocess.Popen(
            self.repository.words(), env=self.repository.environment(True), stdout=subprocess.PIPE, stderr=subprocess.PIPE, start_new_session=True
        )
        while not self.repository.builds():
            time.sleep(0.05)
        time.sleep(0.3)
        os.killpg(run.pid, signal.SIGINT)
        run.communicate(timeout=10)
        self.assertNotEqual(run.returncode, 0)
        self.assertTrue(self.is_scratch_empty())
        # one that has ended is still there until the system has taken note of it
        deadline = time.monotonic() + 10
        with self.assertRaises(ProcessLookupError):
            while time.monotonic() < deadline:
                os.killpg(run.pid, 0)
                time.sleep(0.02)


class Comparison(unittest.TestCase):
    """What tools/check_prebuilt finds between what was built and what lies in prebuilt/."""

    def setUp(self) -> None:
        sys.dont_write_bytecode = True
        loader = importlib.machinery.SourceFileLoader("check_prebuilt", str(ROOT / "tools/check_prebuilt"))
        spec = importlib.util.spec_from_loader("check_prebuilt", loader)
        self.script = importlib.util.module_from_spec(spec)
        loader.exec_module(self.script)
        folder = tempfile.TemporaryDirectory()
        self.addCleanup(folder.cleanup)
        self.folder = Path(folder.name)

    def found(self, built: bytes, ready: bytes) -> str:
        (self.folder / "built").write_bytes(built)
        (self.folder / "ready").write_bytes(ready)
        return self.script.difference(self.folder / "built", self.folder / "ready")

    def test_what_was_written_after_the_program(self) -> None:
        program = self.folder / "program"
        files = [self.folder / name for name in ("crates.txt", "crates/low/src/lib.rt", "crates/low/specs/Low.antt", "crates/low_tests/src/tests.rt", "crates/low/out/kept.rt")]
        for file in [program, *files]:
            file.parent.mkdir(parents=True, exist_ok=True)
            file.write_text("")
            os.utime(file, (1000, 1000))
        for file, is_source in zip(files, (True, True, True, False, False)):
            self.assertIsNone(self.script.newer_source(program, self.folder))
            os.utime(file, (2000, 2000))
            self.assertEqual(self.script.newer_source(program, self.folder), file if is_source else None)
            os.utime(file, (1000, 1000))

    def test_differences(self) -> None:
        self.assertEqual(self.found(b"abcd", b"abcd"), "")
        self.assertIn("at byte 3", self.found(b"abcd", b"abxd"))
        self.assertIn("at byte 4", self.found(b"abcd", b"abc"))
        self.assertIn("at byte 5", self.found(b"abcd", b"abcde"))
        self.assertIn("not there", self.script.difference(self.folder / "built", self.folder / "none"))


if __name__ == "__main__":
    unittest.main()
