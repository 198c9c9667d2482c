# SPDX-License-Identifier: Apache-2.0
"""The outputs of two examples beside the independent model: python3 c/tests/outputs.py out/c [SEED]

`transcode` gets every code in each place of a block, and 100,000 random ones; `sixteen_channels` writes what its lines give.
The last line is 'N passed, M failed'.
"""

from __future__ import annotations

import random
import subprocess
import sys
import tempfile
from pathlib import Path

sys.dont_write_bytecode = True
sys.path.insert(0, str(Path(__file__).resolve().parent.parent.parent / "tests" / "model"))

from rokdaum_model.companding import LAW_A, LAW_MU, decode, encode  # noqa: E402  (the model's folder has to be on the path first)
from rokdaum_model.kinds import LAWFUL  # noqa: E402
from rokdaum_model.voices import Block, determined  # noqa: E402

LINES, SAMPLES, TURNS = 16, 160, 4
# What each line of sixteen_channels goes through: a mu-law decoder, a notch, and a mu-law encoder.
CHAIN = (("g711", (1, 1)), ("biquad", (16384, -20000, 16384, -19000, 15000)), ("g711", (1, 0)))


def transcoded(codes: bytes) -> bytes:
    """Codes of mu-law as codes of A-law, by the model."""
    return bytes(encode(LAW_A, decode(LAW_MU, code)) for code in codes)


def lines_of(turns: int) -> bytes:
    """What the sixteen lines give, a turn of all lines after the other, by the model: each instance by its whole history."""
    chains = [[LAWFUL[kind].start(words, "history") for kind, words in CHAIN] for _ in range(LINES)]
    written = bytearray()
    for turn in range(turns):
        for line, members in enumerate(chains):
            block: Block = [turn * 7 + line * 31 + sample * 13 & 255 for sample in range(SAMPLES)]
            for one in members:
                block = one.process(block)
            written += bytes(determined(block))
    return bytes(written)


def main(built: Path, seed: str) -> int:
    passed = failed = 0
    rng = random.Random(seed)
    for what, codes in (("every code", bytes(range(256))), ("no code", b""), ("random codes", rng.randbytes(100_000)), ("a code more than a block", rng.randbytes(4097))):
        done = subprocess.run([built / "transcode"], input=codes, capture_output=True, check=False)
        if (done.returncode, done.stdout) == (0, transcoded(codes)):
            passed += 1
        else:
            failed += 1
            print(f"transcode: {what}: status {done.returncode}, {len(done.stdout)} of {len(codes)} codes, and they differ from the model's")
    with tempfile.TemporaryDirectory() as room:
        out = Path(room) / "codes"
        status = subprocess.run([built / "sixteen_channels", str(TURNS), out], stdout=subprocess.DEVNULL, check=False).returncode
        got, wanted = out.read_bytes(), lines_of(TURNS)
    for line in range(LINES):
        of_line = [k for turn in range(TURNS) for k in range((turn * LINES + line) * SAMPLES, (turn * LINES + line + 1) * SAMPLES)]
        if status == 0 and len(got) == len(wanted) and all(got[k] == wanted[k] for k in of_line):
            passed += 1
        else:
            failed += 1
            print(f"sixteen_channels: status {status}, and line {line} differs from the model's")
    print(f"{passed} passed, {failed} failed")
    return int(failed > 0)


if __name__ == "__main__":
    sys.exit(main(Path(sys.argv[1]), sys.argv[2] if len(sys.argv) > 2 else "0"))
