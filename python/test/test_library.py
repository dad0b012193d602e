"""Where the library is not found, the import says what to do."""

from __future__ import annotations

import os
import subprocess
import sys
import unittest


def error_of_import(library: str) -> str:
    """What Python says on its way out."""
    done = subprocess.run(
        [sys.executable, "-c", "import memplan"], env={**os.environ, "MEMPLAN_LIBRARY": library}, stderr=subprocess.PIPE, text=True
    )
    return done.stderr


class Library(unittest.TestCase):
    def check(self, said: str, cause: str, reason: str) -> None:
        before, _, last = said.partition("The above exception was the direct cause of the following exception")
        self.assertIn(cause, before)
        self.assertIn(f"ImportError: memplan cannot load its library: {reason}", last)
        for word in ("MEMPLAN_LIBRARY", "LD_LIBRARY_PATH", "libmemplan.so.1", "make -C c"):
            self.assertIn(word, last)

    def test_no_library(self) -> None:
        self.check(error_of_import("/nowhere/libmemplan.so"), "OSError: ", "/nowhere/libmemplan.so: cannot open shared object file")

    def test_a_library_without_the_calls(self) -> None:
        self.check(error_of_import("libc.so.6"), "AttributeError: ", "")

    def test_no_dask(self) -> None:
        for name in ("dask", "distributed"):
            lines = f"import sys; sys.modules['{name}'] = None; import memplan.dask"
            done = subprocess.run([sys.executable, "-c", lines], stderr=subprocess.PIPE, text=True)
            last = done.stderr.splitlines()[-1]
            self.assertTrue(last.startswith("ImportError: memplan.dask needs Dask"), done.stderr)
            self.assertIn("memplan[dask]", last)
            self.assertIn("python3-distributed", last)
            self.assertNotIn("ModuleNotFoundError", done.stderr)


if __name__ == "__main__":
    unittest.main()
