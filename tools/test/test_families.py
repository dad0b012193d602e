#!/usr/bin/python3
"""Tests of bench/families.py: that its graphs are those of the program in C++ that they were made by first, and are graphs at all.

usage: test_families.py [-v]
"""
import hashlib
import subprocess
import sys
import unittest
from pathlib import Path

TOP = Path(__file__).resolve().parents[2]
BENCH = TOP / "bench"
sys.path[:0] = [str(BENCH), str(TOP / "tools" / "fuzz")]

import families
import formats
from twister import MersenneTwister

# SHA-256 of each graph of 50 tasks with the seed 1, as the program in C++ made it, but with readers in rising order, each once.
SUMS = {
    "montage": "e0c735c4f03b689eb511b395c0ca66d07ac036bb73144ffab59d8905c57cb9ab",
    "epigenomics": "b705c0e1047a8b26cc3f09a2cf94e07ae4e022e08d32dc8afb87f5b357ea1ee5",
    "cybershake": "944788c006ab3fb8d683466bd714a62d230c27296a58b5b4e0ed4308caa5aa2c",
    "ligo": "3c752287326983225257071bbcb52dbde635c2020368f93ec7a7de2148f58f92",
    "sipht": "4ad21d40c3b44e797586a929c1baf4273e47da2b8910eaed85d720dbea8a5e99",
    "cholesky": "04fb2441e99b533e570cf781c3349ba119edd51824c0fa73ca4ac9a1d6d9eed3",
    "cholesky-st": "048bb6a426e4ffdd33cf2b137697d8ea528992f578eac71acc64336fc03b5306",
    "lu": "09184bec94722884d5dbe071c13eb9191c72f7e43670bb4c19e97e30d7b3aa0e",
    "lu-st": "66025d71628dbdf3136a88ffe7dbef24ac5b2d4bf74780aadaa4f40a495b8247",
    "qr": "b15185c075c61a8b013fc345f79674655c2138cb7d8e6e132d85d77e18d6b2ac",
    "dask-std": "5dc7f16032a8e7b1e713c9cbf69c1d86c6900e9adc75020285b922f5d15005dc",
    "dask-rechunk": "f8b7729ab143c3e8c591a8a5abb03f9771d8307a9a6fbd83cb06d0122a597697",
    "dask-matmul": "5743c829ca948ea82665014313ed72b2a591095be6ef94f7b40479501ceb888b",
    "dask-join": "f5828451e84ace1f073c79619fb86f1c52021faa6823a1eb798636885ef51f29",
    "snakemake": "66614c7cbe935088c8ce895b78ca9e29cb215b0d48631e5c3b9f68067c055f5e",
    "mapreduce": "61a043fb452941ff39bebabd61e5a097d615602a4b2510a50a71447fa2ccad78",
    "fft": "ad25a4289cafbb04732a78822195519a52789a259567b699d7aa4bab3ffb12d8",
    "stencil": "44d3a6fdfca2e2440f060b64399ef5414cd6bc6c5c1d2dbeea72b79e5b92088e",
    "heat": "52b37cf051897e28e813ce8b3490154f5814e75298dcd14944a3db569fbb0e48",
    "training": "3f6d7e4109c2be33e4f2bf7bbd18134b5720bcbd0b9b3556f6b6a783c1d5dc51",
    "layered": "f8d341d9bf3eabcd10d4608c72b5d0ef73e09178f0970be151cabca31ec7105a",
    "erdos": "6d238d8ddfec66eeda1b6845532dc6d4cffb673702b865d33c6426da9f294029",
    "forkjoin": "b16f6dc59c7273a7f2cf6115ef626d75f22032c63946ca86b94bebc7f54c19cd",
    "randtree": "1181302071daeced2f062502f34e047d26a39dd2a8fa8d137e4c2b8587b520c1",
}
# Those in which the order of the numbers is no traversal.
OUT_OF_ORDER = {"epigenomics", "sipht", "forkjoin"}


def printed(*words: str) -> "subprocess.CompletedProcess[str]":
    return subprocess.run([sys.executable, str(BENCH / "families.py"), *words], capture_output=True, text=True)


class Families(unittest.TestCase):
    def test_the_twister_has_the_words_of_the_standard(self) -> None:
        # C++, [rand.predef]: the 10000th word of a std::mt19937_64 without a seed
        twister = MersenneTwister()
        words = [twister.word() for _ in range(10_000)]
        self.assertEqual(words[-1], 9981545732273789042)

    def test_graphs_are_those_of_the_first_program(self) -> None:
        self.assertEqual(list(SUMS), list(families.FAMILIES))
        for family, wanted in SUMS.items():
            with self.subTest(family):
                text = families.graph_of(family, 50).text()
                self.assertEqual(hashlib.sha256(text.encode("ascii")).hexdigest(), wanted)

    def test_files_are_graphs(self) -> None:
        for family in families.FAMILIES:
            for count, seed in ((families.FEWEST_TASKS, 1), (50, 1), (300, 2)):
                with self.subTest(family, count=count):
                    graph = families.graph_of(family, count, seed)
                    text = graph.text().encode("ascii")
                    found = formats.refusal_of(lambda: formats.read_graph_of_either_version(text))
                    self.assertEqual(found, (graph.count, None))

    def test_orders(self) -> None:
        for family in families.FAMILIES:
            with self.subTest(family):
                graph = families.graph_of(family, 300)
                numbers = list(range(1, graph.count + 1))
                order = graph.breadth_first()
                self.assertEqual(sorted(order), numbers)
                self.assertTrue(graph.is_traversal(order))
                self.assertFalse(graph.is_traversal(reversed(order)))
                self.assertEqual(graph.is_traversal(numbers), family not in OUT_OF_ORDER)

    def test_a_graph_by_hand(self) -> None:
        graph = families.Builder()
        there = graph.item(3, 0)
        first = graph.task(5, [there])
        shared = graph.item(7, first)
        for extra in (0, 1):
            graph.item(2, graph.task(extra, [shared, there, shared]))
        graph.read(4, graph.task(9))
        self.assertEqual(graph.text(), "graph 2\ntasks 4\n5 0 1\n0 0 1\n1 0 1\n9 0 1\nitems 4\n3 0 1 2 3\n7 1 2 3\n2 2\n2 3 4\nend\n")
        self.assertEqual(graph.breadth_first(), [1, 2, 3, 4])
        self.assertFalse(graph.is_traversal([1, 2, 4, 3]))

    def test_words(self) -> None:
        self.assertEqual(printed("--list").stdout.split(), list(SUMS))
        for words, seed in ((["ligo", "50"], 1), (["ligo", "50", "7"], 7)):
            self.assertEqual(printed(*words).stdout, families.graph_of("ligo", 50, seed).text())
        for words in ("", "ligo", "ligo 9", "ligo x", "ligo 50 -1", "ligo 50 1 2", "none 50", "--list 50"):
            with self.subTest(words):
                done = printed(*words.split())
                self.assertEqual((done.returncode, done.stdout), (1, ""))
                self.assertIn("usage: families.py", done.stderr)


if __name__ == "__main__":
    unittest.main()
