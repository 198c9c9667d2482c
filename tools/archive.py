#!/usr/bin/env python3
# SPDX-License-Identifier: Apache-2.0
"""Makes the archives of static libraries for C, crates/NAME/out/libNAME.a, where they aren't made of the sources as they stand.

    tools/archive.py NAME ..

All that a library stands on is proved first, unless this machine has proved it already. NAME@BUILD is a further build:
dsp_library@x86-64-v3, dsp_library@aarch64-linux-gnu, and dsp_library@module, which is the LLVM module crates/NAME/out/NAME.ll. The exit status is 0 where all of them stand there, and else that of dsp_console where it can't be built.
"""

from __future__ import annotations

import sys

import program


def main(names: list[str]) -> int:
    """Makes what isn't made; the exit status."""
    try:
        program.build(lambda text: print(f"{' '.join(names)}: {text}", file=sys.stderr, flush=True), *names)
    except program.CantBuild as refusal:
        print(f"archive: {refusal}", file=sys.stderr)
        return refusal.status
    return 0


if __name__ == "__main__":
    sys.exit(main(sys.argv[1:]))
