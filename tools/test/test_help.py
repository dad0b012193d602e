"""What tools/make_help.py makes of the table of commands: that it is up to date, that a change is found, and that bash, zsh and roff take it."""

import re
import shutil
import subprocess
import sys
import tempfile
import unittest
from pathlib import Path
from typing import List

ROOT = Path(__file__).resolve().parents[2]
MADE = ["docs/COMMANDS.md", "docs/memplan.1", "tools/completion/memplan.bash", "tools/completion/_memplan", "tools/help.sh"]
TABLE = "tools/commands.py"
# What was typed, the word at the cursor the last one, and what bash offers.
COMPLETED = [
    (["memplan", ""], re.findall(r'\n        name="(\w+)"', (ROOT / TABLE).read_text())),
    (["memplan", "re"], ["replay", "reduce"]),
    (["memplan", "fronts", "--"], ["--matrix", "--perm", "--iperm", "--ordering", "--bound", "--workers"]),
    (["memplan", "columns", "--matrix", "a.mtx", "--print", ""], ["text", "perm"]),
    (["memplan", "columns", "--print", "=", "p"], ["perm"]),
    (["memplan", "plan", "--print", ""], ["text", "json"]),
    (["memplan", "columns", "--iperm", "my"], ["my own.tree", "my.tree"]),
    (["memplan", "upgrade", "--plan", "my.plan", "--p"], ["--priority"]),
    (["memplan", "plan", "--matrix", "a.mtx", "--ordering", ""], ["natural", "mindeg"]),
    (["memplan", "plan", "--inplace", "=", "y"], ["yes"]),
    (["memplan", "plan", "--inplace", "="], ["no", "yes"]),
    (["memplan", "spill", "--bound", ""], []),
    (["memplan", "plan", "--tree", "my"], ["my own.tree", "my.tree"]),
]


class Made(unittest.TestCase):
    def setUp(self) -> None:
        folder = tempfile.TemporaryDirectory()
        self.addCleanup(folder.cleanup)
        self.top = Path(folder.name)
        for name in [*MADE, TABLE, "tools/make_help.py"]:
            (self.top / name).parent.mkdir(parents=True, exist_ok=True)
            shutil.copy(ROOT / name, self.top / name)

    def said(self, *words: str) -> str:
        return subprocess.run([sys.executable, str(self.top / "tools/make_help.py"), *words], stdout=subprocess.PIPE, text=True).stdout

    def test_all_is_up_to_date(self) -> None:
        self.assertEqual(self.said("--check"), f"{len(MADE)} passed, 0 failed\n")

    def test_a_changed_table_is_found_in_each_file_and_made_anew(self) -> None:
        table = (self.top / TABLE).read_text()
        (self.top / TABLE).write_text(table.replace('Option("graph", FILE', 'Option("flow", FILE'))
        said = self.said("--check")
        for name in MADE:
            self.assertIn(f"FAILED: {name} ", said)
        self.assertEqual(self.said(), "")
        self.assertIn(f"{len(MADE)} passed, 0 failed", self.said("--check"))

    def test_a_changed_page_is_found(self) -> None:
        with (self.top / MADE[0]).open("a") as page:
            page.write("More.\n")
        self.assertIn(f"FAILED: {MADE[0]} ", self.said("--check"))

    @unittest.skipUnless(shutil.which("groff"), "groff")
    def test_the_manual_is_clean(self) -> None:
        words = ["groff", "-man", "-ww", "-Tutf8", "-z", str(self.top / "docs/memplan.1")]
        self.assertEqual(subprocess.run(words, stdout=subprocess.PIPE, stderr=subprocess.STDOUT, text=True).stdout, "")

    def completed(self, words: List[str]) -> List[str]:
        script = '. "$0"; COMP_WORDS=("$@"); COMP_CWORD=$(($# - 1)); _memplan; printf "%s\\n" "${COMPREPLY[@]}"'
        line = ["bash", "-uc", script, str(self.top / "tools/completion/memplan.bash"), *words]
        done = subprocess.run(line, cwd=self.top, stdout=subprocess.PIPE, stderr=subprocess.STDOUT, text=True)
        return done.stdout.splitlines() if done.stdout.strip() else []

    def test_bash_completes(self) -> None:
        for name in ("my.tree", "my own.tree"):
            (self.top / name).write_text("")
        for words, offered in COMPLETED:
            with self.subTest(" ".join(words)):
                self.assertEqual(sorted(self.completed(words)), sorted(offered))

    @unittest.skipUnless(shutil.which("zsh"), "zsh")
    def test_zsh_reads_its_completion(self) -> None:
        subprocess.run(["zsh", "-n", str(self.top / "tools/completion/_memplan")], check=True)


if __name__ == "__main__":
    unittest.main()
