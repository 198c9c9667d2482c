# SPDX-License-Identifier: Apache-2.0
"""The libraries of the kit that stand where one's own code would: a rebuilding could drop one, and no proof would tell."""

from __future__ import annotations

import re
import sys
import unittest
from pathlib import Path

sys.dont_write_bytecode = True
TOP = Path(__file__).resolve().parents[2]

# what each is for, by the file that uses it and a word of its use
USES = {
    "arrayvec": (
        ("mem_rec/src", r"use arrayvec::ArrayVec;"),                        # tables of records
        ("ialg/src", r"ArrayVec<i16, PARAMETER_WORDS>"),                    # parameters
        ("ialg/src", r"words: ArrayVec<i16, BLOCK_SAMPLES>"),               # blocks of samples
        ("host_map/src", r"use arrayvec::ArrayVec;"),                       # maps
        ("voice_script/src", r"ArrayVec<u8, REPLY_OCTETS>"),                # the text of a reply
        ("script_server/src", r"ArrayVec<u8, LINE_OCTETS>"),                # the text of a line
        ("octet_ports/src", r"ArrayVec<u8, JOURNAL_OCTETS>"),               # what waits for a port
        ("dsp_arguments/src", r"use arrayvec::ArrayVec;"),                  # pairs of ports
    ),
    "byteorder": (("dsp_console/src", r"use byteorder::"),),                # little-endian samples
    "clap": (("dsp_arguments/src", r"use clap::"),),                        # the command line
    "thiserror": (
        ("space_heap/src", r"#\[derive\([^)]*\bError\b[^)]*\)\]"),          # HeapError
        ("host_spaces/src", r"#\[derive\([^)]*\bError\b[^)]*\)\]"),         # StartError
        ("dsp_console/src", r"#\[derive\([^)]*\bError\b[^)]*\)\]"),         # Fault
    ),
}


class Libraries(unittest.TestCase):
    """Each library is named in crates.txt for a crate, and used there."""

    def test_each_is_named(self) -> None:
        """A line of crates.txt."""
        lines = (TOP / "crates.txt").read_text(encoding="utf-8").splitlines()
        named = {line.split(":")[0].split()[0]: line.split(":")[1].split() for line in lines if ":" in line and not line.startswith("#")}
        for library, uses in USES.items():
            for folder, _ in uses:
                self.assertIn(library, named[folder.split("/")[0]], folder)

    def test_each_is_used(self) -> None:
        """A line of a source."""
        for library, uses in USES.items():
            for folder, pattern in uses:
                texts = [path.read_text(encoding="utf-8") for path in sorted((TOP / "crates" / folder).rglob("*.rt"))]
                self.assertTrue(any(re.search(pattern, text) for text in texts), f"{library} in {folder}")


if __name__ == "__main__":
    unittest.main()
