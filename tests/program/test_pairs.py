# SPDX-License-Identifier: Apache-2.0
"""Which file is which channel's, what its bytes are, and which option is for what."""

from __future__ import annotations

import random
import struct
import unittest

from console_case import HALF, ConsoleCase, words

SIXTEEN = 16


class Pairs(ConsoleCase):
    """Pairs of files as channels."""

    def shifts(self, count: int) -> bytes:
        """A script in which channel c gives 2^(c mod 14) for each sample of 16384, and each channel is fed."""
        lines = [f"create {c} fir 0 {1 << (c % 14 + 1)}\nchain {c} {c}\n" for c in range(count)]
        lines += [f"feed {c} 2\n" for c in range(count)]
        return "".join(lines).encode()

    def test_each_of_sixteen_pairs_is_its_own_channel(self) -> None:
        ports = self.pairs([words(16384, -16384 + c) for c in range(SIXTEEN)])
        ended = self.run_script(self.shifts(SIXTEEN), *ports)
        self.assertEqual(ended, (0, b"ok\n" * 32 + b"ok 2\n" * 16, b""))
        for c in range(SIXTEEN):
            gain = 1 << (c % 14 + 1)
            second = (2 * gain * (-16384 + c) + 32768) // 65536
            self.assertEqual(self.read(f"out{c}"), words(gain // 2, second), f"output {c}")

    def test_every_number_of_pairs(self) -> None:
        for count in range(1, SIXTEEN + 1):
            ports = self.pairs([words(16384, c) for c in range(count)])
            ended = self.run_script(self.shifts(count), *ports)
            self.assertEqual(ended.end, (0, b""), f"{count} pairs")
            for c in range(count):
                self.assertEqual(self.read(f"out{c}")[:2], words(1 << (c % 14)), f"output {c} of {count}")
        self.assertEqual(self.run_script(b"chain 16 0\nchain 15 0\n", *ports).replies, b"no 3 range\nno 5 missing\n")

    def test_an_older_and_longer_output_is_made_anew(self) -> None:
        self.write("out", b"left by an earlier run")
        self.assertEqual(self.run_program("script", "in", "out").status, 0)
        self.assertEqual(self.read("out"), words(1, 2, 3))
        self.write("out", b"left by an earlier run")
        self.assertEqual(self.run_script(b"", "in", "out").status, 0)
        self.assertEqual(self.read("out"), b"")

    def test_masks_of_inputs(self) -> None:
        """Bit c makes channel c's input bytes, and no other channel's."""
        inputs = [bytes([7, 1, 9, 2])] * SIXTEEN
        script = "".join(f"create {c} fir 0 32767\nchain {c} {c}\nfeed {c} 2\n" for c in range(SIXTEEN)).encode()
        for mask in [0, 65535] + [1 << c for c in range(SIXTEEN)]:
            ports = self.pairs(inputs)
            self.assertEqual(self.run_script(script, f"--in8={mask}", *ports).status, 0)
            for c in range(SIXTEEN):
                wanted = words(7, 1) if mask >> c & 1 else words(263, 521)
                self.assertEqual(self.read(f"out{c}"), wanted, f"mask {mask}, channel {c}")

    def test_masks_of_outputs(self) -> None:
        """Bit c makes channel c's output bytes, and no other channel's."""
        script = "".join(f"create {c} fir 0 32767\nchain {c} {c}\nfeed {c} 2\n" for c in range(SIXTEEN)).encode()
        for mask in [0, 65535] + [1 << c for c in range(SIXTEEN)]:
            ports = self.pairs([words(263, -2)] * SIXTEEN)
            self.assertEqual(self.run_script(script, f"--out8={mask}", *ports).status, 0)
            for c in range(SIXTEEN):
                wanted = b"\x07\xfe" if mask >> c & 1 else words(263, -2)
                self.assertEqual(self.read(f"out{c}"), wanted, f"mask {mask}, channel {c}")

    def test_masks_of_channels_that_are_not_there(self) -> None:
        ended = self.run_program("--in8", "65534", "--out8", "65534", "script", "in", "out")
        self.assertEqual(ended.status, 0)
        self.assertEqual(self.read("out"), words(1, 2, 3))

    def test_each_size_is_of_its_own_space(self) -> None:
        """A filter of five coefficients has its scratch in daram, nine words in saram and four in external."""
        script = b"create 0 fir 0 1 2 3 4 5\nmap daram\nmap saram\nmap external\n"
        granted = b"ok\nok g0@0+1028\nok i0.r1@0+12\nok i0.r0@0+4\n"
        least = {"daram": 1028, "saram": 12, "external": 4}
        for space, size in least.items():
            ended = self.run_script(script, f"--{space}={size}", "in", "out")
            self.assertEqual((ended.status, ended.replies), (0, granted), f"--{space} {size}")
            ended = self.run_script(script, f"--{space}={size - 4}", "in", "out")
            self.assertEqual((ended.status, ended.replies), (1, b"no 7 room\nok\nok\nok\n"), f"--{space} {size - 4}")
        ended = self.run_script(script, "--daram=1028", "--saram=12", "--external=4", "in", "out")
        self.assertEqual((ended.status, ended.replies), (0, granted))

    def test_a_poison_word_does_not_show(self) -> None:
        for poison in ("0", "1", "2", "21845", "32767", "32768", "65534", "65535"):
            ended = self.run_program("--poison", poison, "script", "in", "out")
            self.assertEqual(ended, (0, b"ok\nok\nok 2\nok 1\n", b""), f"--poison {poison}")
            self.assertEqual(self.read("out"), words(1, 2, 3))

    def test_options_stand_anywhere(self) -> None:
        for given in (["script", "in", "out", "--daram", "1024"], ["script", "--daram=1024", "in", "out"],
                      ["--poison", "7", "--", "script", "in", "out"]):
            self.assertEqual(self.run_program(*given).end, (0, b""))

    def test_names_that_begin_with_a_dash(self) -> None:
        for name, copy in (("-s", "script"), ("-i", "in"), ("-", "in")):
            self.write(name, self.read(copy))
        self.assertEqual(self.run_program("--", "-s", "-i", "-o").status, 0)
        self.assertEqual(self.read("-o"), words(1, 2, 3))
        self.assertEqual(self.run_program("script", "-", "out").status, 0)


class Feeds(ConsoleCase):
    """Feeds of every size."""

    def test_the_greatest_feeds_over_words(self) -> None:
        samples = [random.Random(5).randint(-32768, 32767) for _ in range(4096)]
        self.write("in", struct.pack("<4096h", *samples))
        ended = self.run_script(HALF + b"feed 0 1024\n" * 4 + b"feed 0 1024\nfeed 0 1025\n", "in", "out")
        self.assertEqual(ended, (1, b"ok\nok\n" + b"ok 1024\n" * 4 + b"no 10 short\nno 3 range\n", b""))
        self.assertEqual(self.read("out"), struct.pack("<4096h", *[(32768 * x + 32768) // 65536 for x in samples]))

    def test_the_greatest_feeds_over_bytes(self) -> None:
        codes = random.Random(6).randbytes(4096)
        self.write("in", codes)
        script = b"create 0 g711 0 1 1\ncreate 1 g711 0 1 0\nchain 0 0 1\n" + b"feed 0 1024\n" * 4
        ended = self.run_script(script, "--in8=1", "--out8=1", "in", "out")
        self.assertEqual(ended, (0, b"ok\nok\nok\n" + b"ok 1024\n" * 4, b""))
        self.assertEqual(self.read("out"), codes.replace(b"\x7f", b"\xff"))

    def test_feeds_of_each_size(self) -> None:
        sizes = list(range(1, 1025, 31)) + [255, 256, 257, 511, 512, 513, 1023, 1024]
        data = random.Random(7).randbytes(2 * sum(sizes))
        self.write("in", data)
        script = HALF.replace(b"16384", b"32767") + b"".join(b"feed 0 %d\n" % n for n in sizes)
        ended = self.run_script(script, "in", "out")
        self.assertEqual(ended, (0, b"ok\nok\n" + b"".join(b"ok %d\n" % n for n in sizes), b""))
        given = struct.unpack("<%dh" % sum(sizes), data)
        self.assertEqual(self.read("out"), struct.pack("<%dh" % sum(sizes), *[(65534 * x + 32768) // 65536 for x in given]))

    def test_an_odd_last_byte_is_no_sample(self) -> None:
        self.write("in", words(2, 4, 6) + b"\x07")
        ended = self.run_script(HALF + b"feed 0 3\nfeed 0 1\n", "in", "out")
        self.assertEqual(ended.replies, b"ok\nok\nok 3\nno 10 short\n")


if __name__ == "__main__":
    unittest.main()
