#!/usr/bin/env python3
# SPDX-License-Identifier: Apache-2.0
"""Builds everything that users have, in one go and with one count: dsp_console, gateway_console, and the proved part of the library for C.

    tools/build.py

What is built from the sources as they stand is left alone. `make` at the top runs this, and then makes the library itself. The exit status
is 0, or that of dsp_console where it can't be built.
"""

from __future__ import annotations

import argparse
import sys

import program


def main() -> int:
    """Builds what isn't built; the exit status."""
    argparse.ArgumentParser(prog="build.py", description=(__doc__ or "").split("\n\n")[0]).parse_args()
    try:
        program.build(lambda text: print(f"make: {text}", file=sys.stderr, flush=True), program.NAME, program.GATEWAY, *program.archives())
    except program.CantBuild as refusal:
        print(f"make: {refusal}", file=sys.stderr)
        return refusal.status
    return 0


if __name__ == "__main__":
    sys.exit(main())
