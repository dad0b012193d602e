#!/usr/bin/env python3
"""Compares each call of the library and each method of the objects with what the program says, on random inputs.

usage: compare.py [INPUTS [SEED]]

Of INPUTS, 10,000 if nothing else is said, 40 in a hundred are trees, 25 task graphs, 15 workflows, and 20 sparse matrices. The tests of
the package draw some two hundred. SEED, 1 if nothing else is said, tells which they are. An input that is answered otherwise is printed,
with where it was drawn, and ends the inputs of its kind. The last line is 'N inputs: M passed, K failed', in kinds of inputs, and the
status is 0 where none failed. It takes some 25 ms of processor time for each input.
"""
import os
import sys
import unittest
from pathlib import Path

HERE = Path(__file__).resolve().parent


def main() -> None:
    words = sys.argv[1:]
    if len(words) > 2 or not all(word.isdigit() for word in words):
        sys.exit(__doc__)
    inputs, seed = [*words, *("10000", "1")[len(words) :]]
    os.environ.update(MEMPLAN_INPUTS=inputs, MEMPLAN_SEED=seed)
    sys.path[:0] = [str(HERE), str(HERE / "test")]
    tests = unittest.defaultTestLoader.loadTestsFromName("test_random")
    ended = unittest.TextTestRunner(verbosity=2).run(tests)
    failed = len(ended.failures) + len(ended.errors)
    print(f"{int(inputs):,} inputs: {ended.testsRun - failed} passed, {failed} failed")
    sys.exit(failed != 0)


if __name__ == "__main__":
    main()
