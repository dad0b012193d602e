"""That tools/make_crates.py writes what crates stand on, and finds what they must not: in a made repository, and in copies of this one."""

import re
import shutil
import subprocess
import sys
import tempfile
import unittest
from pathlib import Path

ROOT = Path(__file__).resolve().parents[2]
SCRIPT = ROOT / "tools/make_crates.py"

LISTED = """# What this is.

# The base: numbers.
low:
high: low

# Files: texts.
mp_text: low itoa
low_files: low mp_text

# Running: one worker.
core: low high

# Programs: the calls for C.
c staticlib: low high core std_heap

# Tests: of libraries.
low_tests: low
"""
SOURCES = {
    "low/src/lib.rt": "//! high::Number is none of ours.\nmod files;\npub use files::Number;\n",
    "low/src/files.rt": "use std::mem;\n",
    "high/specs/High.antt": "-- Rattle.core.specs.Core\nuse Rattle.low.specs.Low.{IsLow}\n",
    "mp_text/src/lib.rt": "use itoa::Buffer;\nuse low::Number;\n",
    "low_files/src/lib.rt": "mod high;\nuse mp_text::Lines;\npub use high::Highest;\n",
    "core/proofs/CoreLemmas.antt": "use Rattle.high.proofs.HighLemmas.{rises}\n",
    "c/src/lib.rt": "fn begin(core: &core::Core) {}\n",
    "low_tests/src/lib.rt": "use low;\n",
}


def said(top: Path, *words: str) -> str:
    return subprocess.run([sys.executable, str(SCRIPT), *words, str(top)], stdout=subprocess.PIPE, text=True).stdout


def put(file: Path, text: str) -> None:
    file.parent.mkdir(parents=True, exist_ok=True)
    file.write_text(text, encoding="utf-8")


class Made(unittest.TestCase):
    """What is written, and each kind of fault, in a repository of eight small crates."""

    def setUp(self) -> None:
        folder = tempfile.TemporaryDirectory()
        self.addCleanup(folder.cleanup)
        self.top = Path(folder.name)
        self.listed = self.top / "crates.txt"
        self.listed.write_text(LISTED)
        for name, text in SOURCES.items():
            (self.top / "crates" / name.split("/")[0] / "src").mkdir(parents=True, exist_ok=True)
            put(self.top / "crates" / name, text)

    def check_told(self, *complaints: str, words: tuple = ("--check",)) -> None:
        found = said(self.top, *words)
        for complaint in complaints:
            self.assertIn(f"FAILED: {complaint}\n", found)
        self.assertRegex(found, rf"\n\d+ passed, {len(complaints)} failed\n$")

    def test_what_is_right_stays_to_the_byte(self) -> None:
        self.assertRegex(said(self.top, "--check"), r"^\d+ passed, 0 failed\n$")
        self.assertRegex(said(self.top), r"^\d+ passed, 0 failed\n$")
        self.assertEqual(self.listed.read_text(), LISTED)

    def test_lines_are_written_from_what_sources_name(self) -> None:
        self.listed.write_text(LISTED.replace("core: low high", "core: c").replace("c staticlib: low high core std_heap", "c staticlib: std_heap"))
        self.assertRegex(said(self.top), r"^\d+ passed, 0 failed\n$")
        self.assertEqual(self.listed.read_text(), LISTED)

    def test_a_new_crate_is_one_line_and_one_run(self) -> None:
        put(self.top / "crates/middle/src/lib.rt", "use low::Number;\n")
        put(self.top / "crates/high/src/lib.rt", "use middle::Middle;\n")
        self.check_told("middle: it has no line")
        self.listed.write_text(LISTED.replace("high: low\n", "middle: memchr\nhigh: low\n"))
        self.assertRegex(said(self.top), r"^\d+ passed, 0 failed\n$")
        wanted = LISTED.replace("high: low\n", "middle: low memchr\nhigh: low middle\n")
        self.assertEqual(self.listed.read_text(), wanted.replace("core: low high", "core: low middle high").replace("c staticlib: low", "c staticlib: low middle"))

    def test_with_check_nothing_is_written(self) -> None:
        text = LISTED.replace("high: low", "high: core")
        self.listed.write_text(text)
        self.check_told("high: low is missing; core is too much")
        self.assertEqual(self.listed.read_text(), text)

    def test_words_in_another_order(self) -> None:
        self.listed.write_text(LISTED.replace("mp_text: low itoa", "mp_text: itoa low"))
        self.check_told("mp_text: its words stand in another order")

    def test_a_crate_below_names_one_of_a_later_section(self) -> None:
        put(self.top / "crates/low/src/more.rt", "pub fn hold(core: core::Core) {}\n")
        self.check_told("low: names core, which stands later, in the section 'Running'", words=())

    def test_a_crate_names_a_later_one_of_its_section(self) -> None:
        put(self.top / "crates/low/specs/Low.antt", "use Rattle.high.specs.High.{IsHigh}\n")
        self.check_told("low: names high, which stands later in its section", words=())

    def test_crates_of_values_name_no_texts(self) -> None:
        put(self.top / "crates/core/src/lib.rt", "use mp_text::Report;\nuse low_files::Highest;\n")
        told = "and the section 'Running' knows no texts"
        self.check_told(f"core: names mp_text, {told}; names low_files, {told}", words=())

    def test_the_crate_of_texts_is_no_base(self) -> None:
        self.listed.write_text(LISTED.replace("mp_text: low itoa\n", "").replace("high: low\n", "mp_text: low itoa\nhigh: low\n"))
        put(self.top / "crates/high/src/lib.rt", "use mp_text::Lines;\n")
        self.check_told("high: names mp_text, and the section 'The base' knows no texts", words=())

    def test_a_line_without_a_folder(self) -> None:
        shutil.rmtree(self.top / "crates/low_tests")
        self.check_told("low_tests: there is no folder crates/low_tests", "low_tests: low is too much")

    def test_a_section_that_is_not_there(self) -> None:
        self.listed.write_text(LISTED.replace("# Files: texts.", "# Texts."))
        self.check_told("the section 'Files': there is none")


class Here(unittest.TestCase):
    """Each kind of fault in a copy of this repository, in which it is not there before."""

    @classmethod
    def setUpClass(cls) -> None:
        cls.folder = tempfile.TemporaryDirectory()
        cls.top = Path(cls.folder.name)
        shutil.copy(ROOT / "crates.txt", cls.top / "crates.txt")
        shutil.copytree(ROOT / "crates", cls.top / "crates", ignore=shutil.ignore_patterns("out", "must-fail", "data"))

    @classmethod
    def tearDownClass(cls) -> None:
        cls.folder.cleanup()

    def check_found(self, complaint: str, name: str, pattern: str, put: str) -> None:
        file = self.top / name
        kept = file.read_text(encoding="utf-8")
        changed, count = re.subn(pattern, put, kept, count=1)
        self.assertEqual(count, 1)
        self.assertNotIn(complaint, said(self.top, "--check"))
        file.write_text(changed, encoding="utf-8")
        found = said(self.top, "--check")
        file.write_text(kept, encoding="utf-8")
        self.assertIn(complaint, found)

    def test_a_crate_of_values_that_names_a_text(self) -> None:
        told = "FAILED: plans: names mp_text, which stands later, in the section 'Files'"
        self.check_found(told, "crates/plans/src/plan.rt", "\nuse ", "\nuse mp_text::Kind;\nuse ")

    def test_a_planner_that_names_a_text(self) -> None:
        told = "FAILED: hill_valley: names mp_text, and the section 'The planner' knows no texts"
        self.check_found(told, "crates/hill_valley/src/side.rt", "\nuse ", "\nuse mp_text::Kind;\nuse ")

    def test_a_crate_that_names_a_later_storey(self) -> None:
        told = "FAILED: mp_system: names activation, which stands later, in the section 'Running and reducing'"
        self.check_found(told, "crates/mp_system/specs/System.antt", "\nuse ", "\nuse Rattle.activation.specs.Machine.{Step}\nuse ")

    def test_a_missing_edge(self) -> None:
        self.check_found("FAILED: hill_valley: side_laws is missing", "crates.txt", r"(\nhill_valley:.*) side_laws\b", r"\1")

    def test_an_edge_too_much(self) -> None:
        self.check_found("FAILED: command_line: limits is too much", "crates.txt", r"\ncommand_line: ", "\ncommand_line: limits ")


if __name__ == "__main__":
    unittest.main()
