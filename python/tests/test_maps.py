# SPDX-License-Identifier: Apache-2.0
"""Maps, histories and pictures, from what the program answers."""

from __future__ import annotations

import json
import re
import subprocess

from case import PYTHON, REPOSITORY, Case, noise, np

from rokdaum import design, maps, plot
from rokdaum.commands.common import DEBIAN_PYTHON
from rokdaum.errors import NotAMap, OutOfRange
from rokdaum.ports import Settings

TURNS = """\
create 0 fir 0 16384 16384
create 1 fir 0 8192
create 2 biquad 1 16384 0 0 0 0
chain 0 0
chain 1 1 2
feed 0 10
feed 1 10
feed 0 10
release 0
unchain 0
delete 0
compact saram
"""


class Maps(Case):
    def test_a_reply(self) -> None:
        found = maps.parse_map("ok i0.r1@0+12 g1@16+1028", 2048)
        self.assertEqual(found.blocks, (maps.Block("i0.r1", 0, 12), maps.Block("g1", 16, 1028)))
        self.assertEqual((found.used, found.holes, found.largest_hole), (1040, [(12, 4), (1044, 1004)], 1004))
        self.assertEqual(maps.parse_map("ok").holes, [(0, 65536)])
        self.assertEqual(maps.parse_map("ok i0.r0@0+8", 8).largest_hole, 0)
        self.assertEqual((maps.parse_stat("ok - 0"), maps.parse_stat("ok 12 3")), (None, 12))

    def test_what_is_no_map(self) -> None:
        for text in ("", "no 2 syntax", "ok 5", "ok i0@0+4", "ok g0@0+8 g1@4+4", "ok g0@0+70000"):
            with self.subTest(text=text), self.assertRaises(NotAMap):
                maps.parse_map(text)
        for text in ("ok", "ok 5", "no 3 range"):
            with self.assertRaises(NotAMap):
                maps.parse_stat(text)

    def test_bars(self) -> None:
        """The bar is that of examples/cookbook/memory_maps."""
        self.assertEqual(
            maps.describe(maps.parse_map("ok g1@1040+1028", 4112)), "|" + "." * 16 + "1" * 17 + "." * 31 + "| used 1028 of 4112, largest hole 2044"
        )
        self.assertEqual(maps.bar(maps.parse_map("ok i0.r0@0+4 i1.r0@65532+4"), 8), "a......b")
        self.assertEqual(maps.bar(maps.parse_map("ok", 0), 4), "....")


class Histories(Case):
    def history(self, text: str = TURNS, **settings: int) -> maps.History:
        for name in "ab":
            self.write(name, noise(100))
        kept = self.run_text(text, "a", "x", "b", "y", settings=Settings(**settings), history=True).history
        assert kept
        return kept

    def test_who_is_active(self) -> None:
        found = {moment.line: moment for moment in self.history().moments}
        self.assertEqual([found[line].active for line in (6, 7, 8, 9)], [{0: 0, 1: None}, {0: 1, 1: 2}, {0: 0, 1: 2}, {0: None, 1: 2}])
        self.assertEqual(found[1].maps["saram"].blocks, (maps.Block("i0.r1", 0, 4),))
        self.assertEqual([block.owner for block in found[11].maps["saram"].blocks], ["i1.r1", "i2.r1"])
        self.assertEqual(found[12].maps["saram"].blocks[0].place, 0)
        # A line that changes nothing is no moment of its own.
        self.assertNotIn(4, found)

    def test_maps_are_those_of_the_script(self) -> None:
        """What is asked for behind each line is what a script with map lines of its own is answered."""
        history = self.history(daram=4096)
        asked = "".join(f"{line}\nmap daram\nmap saram\nmap external\n" for line in TURNS.splitlines())
        result = self.run_text(asked, "a", "x", "b", "y", settings=Settings(daram=4096))
        last = {space: maps.parse_map(reply, size) for space, reply, size in zip(maps.SPACES, result.replies[-3:], (4096, 65536, 65536))}
        self.assertEqual(dict(history.moments[-1].maps), last)
        told = maps.from_run([(answer.line.number, answer.line.text) for answer in result.answers], result.replies, history.sizes)
        self.assertEqual(dict(told.moments[-1].maps), last)

    def test_json(self) -> None:
        history = self.history()
        self.assertEqual(maps.History.from_json(history.to_json()), history)
        for text in ("", "{}", "[]", '{"sizes": {}, "last": 0, "moments": [{}]}', '{"sizes": 1}'):
            with self.assertRaises(NotAMap):
                maps.History.from_json(text)

    def test_of_examples(self) -> None:
        """The maps among the replies that the examples keep."""
        seen = 0
        for folder in sorted(REPOSITORY.glob("examples/*/replies")):
            replies = folder.read_text().splitlines()
            found = maps.from_replies(replies, dict.fromkeys(maps.SPACES, 65536))
            for reply in replies:
                if "@" in reply:
                    spoken = maps.parse_map(reply)
                    self.assertEqual("ok " + " ".join(f"{it.owner}@{it.place}+{it.size}" for it in spoken.blocks), reply)
                    seen += 1
            self.assertLessEqual(len(found.moments), len(replies))
        self.assertGreater(seen, 10)


class Command(Case):
    def test_text_json_and_picture(self) -> None:
        for name in "ab":
            self.write(name, noise(100))
        self.write("s", TURNS)
        self.command("dsp_run", "--history", "h", "s", "a", "x", "b", "y")
        done = self.command("dsp_map", "h", "--space", "daram")
        self.assertEqual((done.returncode, done.stderr), (0, ""))
        rows = done.stdout.splitlines()
        self.assertEqual(rows[0], "daram, 65536 words, bars to word 2048")
        self.assertTrue(rows[1].startswith("     1 |00000000"))
        self.assertIn("active g0:i1 g1:i2", done.stdout)
        self.assertEqual(rows[-1], "letters: 0=g0 1=g1")
        self.assertEqual(json.loads(self.command("dsp_map", "h", "--json").stdout)["last"], 12)
        for name in ("m.svg", "m.png"):
            self.assertEqual(self.command("dsp_map", "h", "--space", "saram", "--svg", name).returncode, 0)
        self.assertIn("<svg", (self.room / "m.svg").read_text())
        self.assertTrue((self.room / "m.png").read_bytes().startswith(b"\x89PNG"))

    def test_replies(self) -> None:
        self.write("a", noise(10))
        text = "create 0 fir 0 1\nmap daram # where\nfly\nmap saram\nfeed 0 1\nstat 0\n"
        self.write("s", text)
        replies = self.command("dsp_run", "--daram=4096", "s", "a", "x").stdout
        done = self.command("dsp_map", "--script", "s", "--daram", "4096", given=replies)
        self.assertIn("daram, 4096 words", done.stdout)
        self.assertIn("saram, 65536 words", done.stdout)
        alone = self.command("dsp_map", "--daram", "4096", given=replies)
        self.assertIn("used 1024 of 4096", alone.stdout)

    def test_refused(self) -> None:
        for words, given, status in (((), "ok\n", 3), (("none",), None, 3), (("--width", "0"), "ok g0@0+4\n", 3), ((), "{}", 3), (("--space", "fast"), "", 2), (("--svg", "x.none"), "ok g0@0+4\n", 2)):
            done = self.command("dsp_map", *words, given=given)
            with self.subTest(words=words):
                self.assertEqual(done.returncode, status, done.stderr)
                self.assertNotIn("Traceback", done.stderr)
        self.assertEqual(self.left_over(), [])


class Design(Case):
    def test_lines_are_a_script(self) -> None:
        """What each design prints runs, and all that is said stands on the standard error."""
        self.write("in.raw", noise(3000))
        for words in (
            "band 300 3400", "band 300 3400 --share", "low 1000 --order 6 --ripple 1", "high 300 --scale any", "notch 50 --scale words",
            "fir low 1000", "fir band 300 3400 --taps 64 --group 7", "decim 4 --taps 48", "tone 697 770 852 --frame 102",
        ):
            done = self.command("dsp_design", *words.split())
            self.assertEqual(done.returncode, 0, done.stderr)
            pairs = [name for c in range(done.stdout.count("chain")) for name in ("in.raw", f"out{c}")]
            self.write("s", done.stdout + "feed * all\n")
            ran = self.command("dsp_run", "s", *pairs)
            with self.subTest(words=words):
                self.assertEqual((ran.returncode, ran.stderr), (0, ""))
                self.assertRegex(done.stderr, r"words dB|k is of")

    def test_refused(self) -> None:
        for words, status in (("low 4000", 2), ("band 300 3400 --order 9", 2), ("low", 2), ("loud 5", 2), ("band 300 3400 --plot x.none", 2), ("low 1000 --group 9", 2)):
            done = self.command("dsp_design", *words.split())
            with self.subTest(words=words):
                self.assertEqual((done.returncode, done.stdout), (status, ""))
                self.assertNotIn("Traceback", done.stderr)
        self.assertEqual(list(self.room.iterdir()), [])

    def test_plots(self) -> None:
        self.assertEqual(self.command("dsp_design", "band", "300", "3400", "--plot", "r.svg").returncode, 0)
        self.assertIn("<svg", (self.room / "r.svg").read_text())
        axes = plot.response(design.low(1000))
        self.assertEqual([line.get_label() for line in axes.get_lines()], ["designed", "rounded words"])
        upper = plot.design(design.band(300, 3400))
        off = np.asarray(upper.figure.axes[1].get_lines()[0].get_ydata())
        self.assertLess(np.nanmax(np.abs(off[256:])), 0.1)
        axes = plot.levels([[1, 2, 3], [3, 2, 1]], [697, 770], 102)
        np.testing.assert_allclose(axes.get_lines()[0].get_xdata(), np.array([1, 2, 3]) * 102 / 8000)
        with self.assertRaises(OutOfRange):
            plot.levels([[1]], [697, 770], 102)
        with self.assertRaises(OutOfRange):
            plot.memory(maps.History(), "daram")

    def test_a_line_has_its_number_below_it(self) -> None:
        """All numbers of lines are whole, and stand below the middle of the line's column."""
        for last, named in ((3, ["1", "2", "3"]), (2000, [str(it) for it in range(100, 2001, 100)])):
            history = maps.History(last=last)
            history.add(1, "create 0 fir 0 1", {"daram": "ok g0@0+1024"}, {})
            history.last = last
            axes = plot.memory(history, "daram")
            self.assertEqual([it.get_text() for it in axes.get_xticklabels()], named)
            self.assertEqual(axes.get_xticks()[0], int(named[0]) + 0.5)

    def test_spectrograms(self) -> None:
        """The loudest row is that of the tone, at its level; both sounds have one scale."""
        seconds = np.arange(8000) / 8000
        heard = (16384 * np.sin(2 * np.pi * 1000 * seconds)).astype(np.int16)
        axes = plot.spectrogram(heard, 8000)
        shown = np.asarray(axes.get_images()[0].get_array())
        self.assertEqual(shown.shape[0], 129)
        self.assertAlmostEqual(shown[32].mean(), 20 * np.log10(0.5), delta=0.2)
        self.assertTrue((shown.argmax(axis=0) == 32).all())
        first = plot.spectrograms([[("in", heard, 8000), ("out", heard[::4], 2000)]])
        self.assertEqual(first.get_ylim(), (0, 4000))
        self.assertEqual(len(first.figure.axes), 3)
        too_few: tuple[list[list[tuple[str, np.ndarray, float]]], ...] = ([], [[]], [[("in", heard[:3], 8000)]])
        for few in too_few:
            with self.assertRaises(OutOfRange):
                plot.spectrograms(few)

    def test_latency(self) -> None:
        axes = plot.latency([0.4, 0.5, 0.5, 30], 20)
        self.assertEqual([it.get_text() for it in axes.get_legend().get_texts()], ["median: 0.50 ms", "99 of 100: 29.11 ms", "longest: 30.00 ms", "a block lasts 20 ms"])
        nothing: tuple[list[float], ...] = ([], [0.0])
        for none in nothing:
            with self.assertRaises(OutOfRange):
                plot.latency(none, 20)

    def test_spectrogram_of_a_run(self) -> None:
        """What went in beside what came out; not of codes, not over a file of the run, and not of a run that was stopped."""
        self.write("in.raw", noise(3000))
        self.write("s", "create 0 fir 0 16384\nchain 0 0\nfeed 0 all\n")
        done = self.command("dsp_run", "--spectrogram", "p.png", "s", "in.raw", "out.raw")
        self.assertEqual((done.returncode, done.stdout, done.stderr), (0, "ok\nok\nok 3000\n", ""))
        self.assertTrue((self.room / "p.png").read_bytes().startswith(b"\x89PNG"))
        for words, status in ((("--spectrogram", "in.raw"), 2), (("--spectrogram", "none/p.png"), 4), (("--spectrogram", "p.none"), 2), (("--spectrogram", "q.png", "--in8", "1"), 2)):
            done = self.command("dsp_run", *words, "s", "in.raw", "other.raw")
            with self.subTest(words=words):
                self.assertEqual(done.returncode, status, done.stderr)
                self.assertNotIn("Traceback", done.stderr)
        self.write("s", "fly\n")
        self.assertEqual(self.command("dsp_run", "--strict", "--spectrogram", "q.png", "s", "in.raw", "out.raw").returncode, 1)
        self.assertFalse((self.room / "q.png").exists())
        self.assertEqual(self.left_over(), [])

    def test_another_python(self) -> None:
        """The python3 on PATH has the packages or hands on to Debian's. One that can't says which package is missing."""
        done = self.command("dsp_design", "low", "1000", python="python3")
        self.assertTrue(re.match(r"create 0 biquad 0 ", done.stdout), done.stderr)
        bare = subprocess.run([DEBIAN_PYTHON, "-S", str(PYTHON / "bin" / "dsp_design"), "low", "1000"], capture_output=True, text=True, check=False)
        self.assertEqual((bare.returncode, bare.stdout), (2, ""))
        self.assertIn("apt-get install python3-numpy", bare.stderr)
