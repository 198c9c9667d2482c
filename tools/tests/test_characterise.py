# SPDX-License-Identifier: Apache-2.0
"""Tests of bench/characterise: its arithmetic, over texts made by hand. `bench/characterise --check` compares docs/XDAIS.md with the library."""
from __future__ import annotations

import importlib.machinery
import importlib.util
import subprocess
import sys
import tempfile
import unittest
from pathlib import Path

TOP = Path(__file__).resolve().parents[2]
sys.path.insert(0, str(TOP / "bench"))
sys.dont_write_bytecode = True
LOADER = importlib.machinery.SourceFileLoader("characterise", str(TOP / "bench" / "characterise"))
SPEC = importlib.util.spec_from_loader("characterise", LOADER)
assert SPEC is not None
characterise = importlib.util.module_from_spec(SPEC)
sys.modules["characterise"] = characterise  # its dataclasses look themselves up there
LOADER.exec_module(characterise)

SYMBOLS = """0000000000000000 0000000000000010 T alg_fir::delay::run_block
0000000000000010 0000000000000008 t <alg_fir::filter::Fir as ialg::filter::Filter>::run
0000000000000000 0000000000000200 r alg_g711::tables::MU_SAMPLES
0000000000000000 T without_a_size
0000000000000018 0000000000000004 T main
"""


class Characterised(unittest.TestCase):
    def test_bytes_by_crate(self) -> None:
        self.assertEqual(characterise.sizes(SYMBOLS), {"alg_fir": 0x18})

    def test_bytes_of_the_library(self) -> None:
        text = "librokdaum.so  :\nsection  size  addr\n.text  172102  8848\n.rodata  4872  1\n.data  8  2\n.bss  8  3\n.tbss  8  4\nTotal  9\n"
        self.assertEqual(characterise.sections(text), {"code": 172102, "read-only data": 4872, "data that is written": 24})

    def test_the_rows_of_a_page(self) -> None:
        page = "<!-- table: kinds, memory -->\n| a | b |\n|---|---|\n| one | 1 |\n\nA machine.\n<!-- end of the table -->\n| other | 2 |\n"
        self.assertEqual(characterise.kept(page, "kinds, memory"), [["one", "1"]])

    def test_differences(self) -> None:
        old = [["FIR", "64", "1,000"], ["gain", "one", "10"]]
        self.assertEqual(characterise.differences(old, [["FIR", "64", "1,019"], ["gain", "one", "10"]], 2), [])
        found = characterise.differences(old, [["FIR", "64", "1,030"], ["gain", "two", "10"]], 2)
        self.assertEqual(found, ["FIR, 64: 1,000 is 1,030 now", "gain, two: one is two now"])
        self.assertEqual(characterise.differences(old, old[:1], 2), ["it has other rows"])

    def test_the_program_has_no_warning(self) -> None:
        with tempfile.TemporaryDirectory() as folder:
            for compiler in ("gcc", "clang"):
                call = [compiler, "-std=c11", "-Wall", "-Wextra", "-Wpedantic", "-Werror", "-O2", "-I", str(TOP / "c"), "-c", str(characterise.SOURCE)]
                ran = subprocess.run([*call, "-o", f"{folder}/kinds.o"], capture_output=True, text=True)
                self.assertEqual((ran.returncode, ran.stderr), (0, ""))


if __name__ == "__main__":
    unittest.main()
