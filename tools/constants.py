#!/usr/bin/env python3
# SPDX-License-Identifier: Apache-2.0
"""The constants that definitions take from the code, and what outside the code holds each.

A definition that has the code's own constant is met whatever the constant is, so a slip in one is proved. Each such constant is
therefore written down a second time, where it was not taken from the code: in the independent model, with which programs are
compared, in a worked row, or in a test. This lists them, and fails where one has no such place.

    tools/constants.py            prints the list: crate, constant, value, what holds it
    tools/constants.py --check    what is wrong with it
"""

from __future__ import annotations

import argparse
import re
import sys
from collections.abc import Iterator
from pathlib import Path
from typing import NamedTuple

TOP = Path(__file__).resolve().parents[1]
CRATES = TOP / "crates"
TAKEN = re.compile(r"use Rattle\.(\w+)\.specs\.declared(?:\.\w+)*\.TheConstants\.\{([^}]*)\}")
RENAMED = re.compile(r"use Rattle\.(\w+)\.specs\.declared(?:\.\w+)*\.TheConstants as (\w+)")
DECLARED = re.compile(r"^\s*(?:pub(?:\(crate\))? )?const (\w+): [^=]+ = ([^;]+);", re.MULTILINE)
MODEL = "tests/model/rokdaum_model/"
# a crate for tests has constants of its own rows
OWN = ("test_diary", "test_doubles", "test_lives")


class Place(NamedTuple):
    """A file, and a text in it that has the number."""

    file: str
    text: str


def in_model(file: str, text: str) -> Place:
    """A place in the independent model."""
    return Place(MODEL + file, text)


UNSEEN = Place("", "")
"""For a constant that no reply, no output and no map shows: a word of an object, the size of a buffer, a short way for small cases."""

HOLDS = {
    ("alg_biquad", "COEFFICIENTS"): in_model("kinds.py", "if len(p) != 5:"),
    ("alg_biquad", "STATE_WORDS"): in_model("kinds.py", "Record(4, 4, Space.DARAM, Attr.SCRATCH))"),
    ("alg_dtmf", "DTMF_KIND"): UNSEEN,
    ("alg_dtmf", "FRAME_SAMPLES"): in_model("gateway.py", "= 7, 127, 14, 19"),
    ("alg_dtmf", "MOST_SHIFT"): in_model("gateway.py", "= 7, 127, 14, 19"),
    ("alg_dtmf", "PARAMETERS"): in_model("gateway.py", "= 7, 127, 14, 19"),
    ("alg_dtmf", "STATE_WORDS"): in_model("gateway.py", "= 7, 127, 14, 19"),
    ("alg_activity", "ACTIVITY_KIND"): UNSEEN,
    ("alg_activity", "STATE_WORDS"): in_model("gateway_states.py", "records(6, 2 + p[0] + 3)"),
    ("alg_adpcm", "ADPCM_KIND"): UNSEEN,
    ("alg_adpcm", "STATE_WORDS"): in_model("gateway_states.py", "records(2, 25)"),
    ("alg_echo", "ECHO_KIND"): UNSEEN,
    ("alg_signal", "SIGNAL_KIND"): UNSEEN,
    ("alg_signal", "STATE_WORDS"): in_model("gateway_states.py", "records(7, 6)"),
    ("alg_fir", "CONSTANTS_ALIGNMENT"): in_model("kinds.py", "Record(taps + 1, 8, Space.EXTERNAL, Attr.WRITE_ONCE)"),
    ("alg_fir", "DECIM_RECORDS"): in_model("kinds.py", "Record(taps - 1 + FEED_MAX, 16, Space.DARAM, Attr.SCRATCH))"),
    ("alg_fir", "LINE_ALIGNMENT"): in_model("kinds.py", "Record(len(p) - 1 + FEED_MAX, 16, Space.DARAM, Attr.SCRATCH))"),
    ("alg_fir", "MOST_FACTOR"): in_model("kinds.py", "not 1 <= p[0] <= 16:"),
    ("alg_g711", "A_DECODER_KIND"): UNSEEN,
    ("alg_g711", "A_ENCODER_KIND"): UNSEEN,
    ("alg_g711", "MU_DECODER_KIND"): UNSEEN,
    ("alg_g711", "MU_ENCODER_KIND"): UNSEEN,
    ("alg_g711", "BIAS"): in_model("companding.py", "MU_BIAS, MU_TOP = 33, 8191"),
    ("alg_g711", "CODER_RECORDS"): in_model("kinds.py", "Record(256, 8, Space.EXTERNAL, Attr.WRITE_ONCE)) if p[1] else (OBJECT,)"),
    ("alg_g711", "CODES"): in_model("kinds.py", "Record(256, 8, Space.EXTERNAL, Attr.WRITE_ONCE)"),
    ("alg_g711", "EVEN_BITS"): in_model("companding.py", "A_LAW_MASK = 0x55"),
    ("alg_g711", "FINEST_A_STEP"): in_model("companding.py", "found.append((16 * step, 16))"),
    ("alg_g711", "GREATEST_MAGNITUDE"): in_model("companding.py", "MU_BIAS, MU_TOP = 33, 8191"),
    ("alg_g711", "INTERVALS"): in_model("companding.py", "for segment in range(8):"),
    ("alg_g711", "SAMPLES_ALIGNMENT"): in_model("kinds.py", "Record(256, 8, Space.EXTERNAL, Attr.WRITE_ONCE)"),
    ("alg_g711", "SIGN_BIT"): in_model("companding.py", "SIGN = 128"),
    ("alg_g711", "STEPS"): in_model("companding.py", "for step in range(16):"),
    ("alg_gain", "GAIN_KIND"): UNSEEN,
    ("alg_level", "FRAME_SAMPLES"): in_model("gateway.py", "= 2, 1024, 15, 3"),
    ("alg_level", "LEVEL_KIND"): UNSEEN,
    ("alg_level", "MOST_SHIFT"): in_model("gateway.py", "= 2, 1024, 15, 3"),
    ("alg_level", "PARAMETERS"): in_model("gateway.py", "= 2, 1024, 15, 3"),
    ("alg_tone", "FRAME_SAMPLES"): in_model("kinds.py", "not 1 <= p[1] <= 1024"),
    ("alg_tone", "MOST_SHIFT"): in_model("kinds.py", "not 0 <= p[2] <= 15"),
    ("alg_tone", "PARAMETERS"): in_model("kinds.py", "if len(p) != 3"),
    ("alg_tone", "STATE_WORDS"): in_model("kinds.py", "Record(3, 4, Space.DARAM, Attr.SCRATCH))"),
    ("dsp_library", "BAD_KIND"): Place("c/rokdaum.h", "ROKDAUM_BAD_KIND = 21"),
    ("dsp_library", "BAD_LENGTH"): Place("c/rokdaum.h", "ROKDAUM_BAD_LENGTH = 20"),
    ("dsp_library", "BAD_SPACE"): Place("c/rokdaum.h", "ROKDAUM_BAD_SPACE = 22"),
    ("dsp_library", "CLOSED"): Place("c/rokdaum.h", "ROKDAUM_NOT_OPEN = 18"),
    ("dsp_library", "DONE"): Place("c/rokdaum.h", "ROKDAUM_OK = 0"),
    ("dsp_library", "MARK"): UNSEEN,
    ("echo_kernel", "HEAD_WORDS"): in_model("gateway_states.py", "records(4, 2 + 2 + 9 + 4 * p[0])"),
    ("echo_kernel", "LINES"): in_model("gateway_states.py", "records(4, 2 + 2 + 9 + 4 * p[0])"),
    ("fir_kernel", "LEAST_UNBOUNDED_SUM"): UNSEEN,
    ("fir_kernel", "MOST_COEFFICIENTS"): in_model("kinds.py", "TAPS_MAX = 64"),
    ("host_map", "MAP_BLOCKS"): Place("c/rokdaum.h", "ROKDAUM_MAP_BLOCKS = 264"),
    ("host_map", "SPACE_BLOCKS"): UNSEEN,
    ("ialg", "BLOCK_SAMPLES"): in_model("kinds.py", "FEED_MAX = 1024"),
    ("ialg", "FILTER_RECORDS"): in_model("kinds.py", "Record(9, 4, Space.SARAM, Attr.PERSIST), Record(4, 4, Space.DARAM, Attr.SCRATCH))"),
    ("ialg", "OBJECT_WORDS"): in_model("memory.py", "OBJECT = Record(4, 4, Space.EXTERNAL, Attr.PERSIST)"),
    ("ialg", "PARAMETER_WORDS"): in_model("script.py", "LINE_MAX, PARAMETERS_MAX = 1024, 72"),
    ("kind_parts", "COUNT"): in_model("gateway.py", "= 2, 1024, 15, 3"),
    ("kind_parts", "MOST_FRAME"): in_model("gateway.py", "= 2, 1024, 15, 3"),
    ("kind_parts", "NO_WORDS"): in_model("gateway.py", "Record(1, 4, Space.DARAM, Attr.SCRATCH)) if len(p) == 1"),
    ("kind_parts", "SUM_WORDS"): in_model("gateway.py", "= 2, 1024, 15, 3"),
    ("kind_steps", "HEAD"): in_model("gateway_states.py", "records(4, 2 + 2 + 9 + 4 * p[0])"),
    ("mem_rec", "GREATEST_ALIGNMENT"): Place("crates/test_memory/src/tables.rt", "for align in [4, 8, 16, 32, 64, 128, 256, 512, 1_024] {"),
    ("mem_rec", "GROUPS"): in_model("machine.py", "INSTANCES, GROUPS, MEMBERS_MAX, PORTS_MAX = 64, 8, 8, 16"),
    ("mem_rec", "INSTANCES"): in_model("machine.py", "INSTANCES, GROUPS, MEMBERS_MAX, PORTS_MAX = 64, 8, 8, 16"),
    ("mem_rec", "LEAST_ALIGNMENT"): in_model("memory.py", "OBJECT = Record(4, 4, Space.EXTERNAL, Attr.PERSIST)"),
    ("mem_rec", "RECORD_WORDS"): in_model("memory.py", "SPACE_WORDS_MAX = 65536"),
    ("mem_rec", "TABLE_RECORDS"): in_model("memory.py", "RECORDS_MAX = 4"),
    ("octet_ports", "BUFFER_OCTETS"): in_model("console.py", "SCRIPT_BUFFER = 4096"),
    ("octet_ports", "JOURNAL_OCTETS"): UNSEEN,
    ("octet_ports", "LINE_FEED"): in_model("script.py", "one CR at the end left out"),
    ("port_files", "PORT_PAIRS"): in_model("machine.py", "INSTANCES, GROUPS, MEMBERS_MAX, PORTS_MAX = 64, 8, 8, 16"),
    ("record_loans", "CONSTANTS"): UNSEEN,
    ("relocate", "GREATEST_NEED"): UNSEEN,
    ("relocate", "SPACE_WORDS"): in_model("memory.py", "SPACE_WORDS_MAX = 65536"),
    ("scratch_group", "READER_RECORDS"): UNSEEN,
    ("scratch_group", "SHARING_RECORDS"): UNSEEN,
    ("script_server", "SCRIPT_OCTETS"): in_model("console.py", "SCRIPT_BYTES_MAX = 1_000_000_000"),
    ("voice_channel", "CHANNELS"): in_model("machine.py", "INSTANCES, GROUPS, MEMBERS_MAX, PORTS_MAX = 64, 8, 8, 16"),
    ("voice_channel", "MEMBERS"): in_model("machine.py", "INSTANCES, GROUPS, MEMBERS_MAX, PORTS_MAX = 64, 8, 8, 16"),
    ("voice_script", "FEED_SAMPLES"): in_model("kinds.py", "FEED_MAX = 1024"),
    ("voice_script", "GREATEST_MAGNITUDE"): UNSEEN,
    ("voice_script", "LINE_OCTETS"): in_model("script.py", "LINE_MAX, PARAMETERS_MAX = 1024, 72"),
    ("voice_script", "MEMBERS"): in_model("machine.py", "INSTANCES, GROUPS, MEMBERS_MAX, PORTS_MAX = 64, 8, 8, 16"),
    ("voice_script", "SHORT_DIGITS"): UNSEEN,
    ("voice_script", "WORD_OCTETS"): in_model("console.py", "return 1 if self.config.in8 >> c & 1 else 2"),
}


def taken_in(text: str) -> Iterator[tuple[str, str]]:
    """The constants of the code that a definition names."""
    for found in TAKEN.finditer(text):
        yield from ((found[1], name.strip()) for name in found[2].split(",") if name.strip())
    for found in RENAMED.finditer(text):
        yield from ((found[1], name) for name in re.findall(rf"\b{found[2]}\.([A-Z][A-Z_0-9]*)\b", text))


def taken() -> set[tuple[str, str]]:
    """All that definitions take, each with its crate."""
    files = sorted(path for path in CRATES.glob("*/specs/*.antt") if path.parts[-3] not in OWN)
    return {one for path in files for one in taken_in(path.read_text(encoding="utf-8")) if one[0] not in OWN}


def values() -> dict[tuple[str, str], str]:
    """The value of each constant, as the sources have it."""
    found = {}
    for path in sorted(CRATES.glob("*/src/**/*.rt")):
        crate = path.relative_to(CRATES).parts[0]
        for one in DECLARED.finditer(path.read_text(encoding="utf-8")):
            found[crate, one[1]] = " ".join(one[2].split())
    return found


def has(place: Place) -> bool:
    """Whether the text stands in the file, or in one of the folder's."""
    path = TOP / place.file
    files = sorted(path.rglob("*.rt")) if path.is_dir() else [path]
    return any(one.is_file() and place.text in one.read_text(encoding="utf-8") for one in files)


def wrong() -> list[str]:
    """What is wrong with the list."""
    named = taken()
    faults = [f"{crate}: {name} is taken by a definition, and nothing outside the code is said to hold it" for crate, name in sorted(named - set(HOLDS))]
    faults += [f"{crate}: {name} is taken by no definition" for crate, name in sorted(set(HOLDS) - named)]
    faults += [f"{crate}: {name}: {place.file} doesn't have `{place.text}`" for (crate, name), place in sorted(HOLDS.items()) if place != UNSEEN and not has(place)]
    return faults


def main() -> int:
    """Prints the list, or what is wrong with it."""
    asked = argparse.ArgumentParser(description=__doc__.split("\n", maxsplit=1)[0])
    asked.add_argument("--check", action="store_true", help="print what is wrong with the list, and fail if anything is")
    if asked.parse_args().check:
        faults = wrong()
        print("".join(f"{fault}\n" for fault in faults), end="")
        print(f"{len(HOLDS)} constants, {len(faults)} wrong")
        return 1 if faults else 0
    known = values()
    for crate, name in sorted(taken()):
        place = HOLDS.get((crate, name), UNSEEN)
        print(f"{crate:14} {name:20} {known.get((crate, name), '?'):32} {place.file or 'nothing shows it'}")
    return 0


if __name__ == "__main__":
    sys.exit(main())
