# SPDX-License-Identifier: Apache-2.0
"""Scripts with comments and `feed .. all`, over the program as it is."""

from __future__ import annotations

import io
import json
import os
import shlex
import signal
import subprocess
import sys
import time
import unittest
import wave
from unittest import mock

from case import PROGRAM, PYTHON, REPOSITORY, Case, noise, np, tone

from rokdaum import samples, sounds
from rokdaum.commands.run import Progress
from rokdaum.errors import CantRead, CantWrite, FloatsRefused, OutOfRange, ProgramFailed, ProgramMissing, RokdaumError, SameFile, ScriptError, WrongWave
from rokdaum.explain import FORMS
from rokdaum.ports import Pair, Settings, pairs_of
from rokdaum.script import parse, process, read_script, run

PHONE = "create 0 biquad 0 8192 16384 8192 23864 10482\ncreate 1 biquad 1 11717 -23433 11717 -28604 13055\ncreate 2 biquad 2 22241 0 -22241 -2999 -7553\nchain 0 0 1 2\n"
HALF = "create 0 fir 0 16384\nchain 0 0\n"


class Examples(Case):
    def test_each_example_is_the_programs(self) -> None:
        """A script without anything new gives the program's replies, outputs and status."""
        found = sorted(REPOSITORY.glob("examples/*/arguments"))
        self.assertGreater(len(found), 8)
        for arguments in found:
            folder = arguments.parent
            for path in [folder / "script", *folder.glob("input*.*")]:
                self.write(path.name, path.read_bytes())
            words = arguments.read_text().split()
            for also in ((), ("--history", "h.json")):
                done = self.command("dsp_run", *also, *words)
                with self.subTest(example=folder.name, also=also):
                    self.assertEqual(done.stdout, (folder / "replies").read_text())
                    self.assertEqual(done.returncode, 1 if "\nno " in "\n" + done.stdout else 0)
                    for word in words:
                        if word.startswith("out"):
                            self.assertEqual((self.room / word).read_bytes(), (folder / ("output" + word[3:])).read_bytes())

    def test_recipe_of_the_cookbook(self) -> None:
        """The telephone band in five lines gives what examples/cookbook/telephone_band gives."""
        self.write("in.raw", noise(5000))
        recipe = REPOSITORY / "examples" / "cookbook" / "telephone_band"
        subprocess.run([sys.executable, "-B", str(recipe), "in.raw", "want.raw"], cwd=self.room, check=True)
        self.run_text(PHONE + "feed 0 all\n", "in.raw", "out.raw")
        self.assertEqual((self.room / "out.raw").read_bytes(), (self.room / "want.raw").read_bytes())

    def test_companding_of_the_cookbook(self) -> None:
        self.write("in.ul", bytes(range(256)) * 9)
        subprocess.run([sys.executable, "-B", str(REPOSITORY / "examples/cookbook/mu_to_a"), "in.ul", "want.al"], cwd=self.room, check=True)
        result = self.run_text("create 0 g711 0 1 1\ncreate 1 g711 0 0 0\nchain 0 0 1\nfeed 0 all 100", "in.ul", "out.al", settings=Settings(in8=1, out8=1))
        self.assertEqual((self.room / "out.al").read_bytes(), (self.room / "want.al").read_bytes())
        self.assertEqual((result.replies[-1], result.notes), (f"ok {256 * 9}", []))


class FeedAll(Case):
    def test_tails(self) -> None:
        for count in (0, 1, 2, 1023, 1024, 1025, 2048, 64 * 1024 - 1, 64 * 1024 + 5, 70000):
            given = noise(count)
            self.write("in", given)
            for block in ("", " 1024", " 1000", " 160") + ((" 1", " 7") if count < 3000 else ()):
                with self.subTest(count=count, block=block):
                    result = self.run_text(HALF + f"feed 0 all{block}\n", "in", "out")
                    self.assertEqual(result.replies, ["ok", "ok", f"ok {count}"])
                    self.assertEqual(len(self.samples("out")), count)
                    self.assertLessEqual(np.abs(self.samples("out") - given / 2).max(initial=0), 0.5)

    def test_behind_other_feeds(self) -> None:
        """What earlier feeds took isn't fed again, and what refused ones didn't take is."""
        self.write("in", noise(3000))
        result = self.run_text("feed 0 100\n" + HALF + "feed 0 100\nfeed 0 2000\nfeed 0 all\nfeed 0 all\nfeed 0 1\n", "in", "out")
        self.assertEqual(result.replies, ["no 5 missing", "ok", "ok", "ok 100", "no 3 range", "ok 2900", "ok 0", "no 10 short"])
        self.assertEqual(len(self.samples("out")), 3000)

    def test_all_channels_in_turn(self) -> None:
        self.write("a", noise(2500))
        self.write("b", noise(700))
        self.write("c", noise(0))
        text = "".join(f"create {c} fir 0 16384\nchain {c} {c}\n" for c in range(3))
        result = self.run_text(text + "feed * all 256\nstat 0", "a", "x", "b", "y", "c", "z")
        # Three turns with both, and then the first alone, which stays active.
        self.assertEqual(result.replies[-2:], ["ok 3200", "ok 0 7"])
        self.assertEqual([len(self.samples(name)) for name in "xyz"], [2500, 700, 0])

    def test_refused_feed_all(self) -> None:
        self.write("in", noise(5000))
        result = self.run_text("feed 0 all\nfeed 1 all\nfeed 0 all 5", "in", "out")
        self.assertEqual(result.replies, ["no 5 missing", "no 3 range", "no 5 missing"])
        self.assertEqual(result.unfed, [5000])

    def test_wrong_forms(self) -> None:
        for text in ("feed 0 all 0", "feed 0 all 1025", "feed 0 all x", "feed x all", "feed 0 all 1 2", "feed -1 all"):
            with self.subTest(text=text), self.assertRaisesRegex(ScriptError, f"^band:2: {text.replace('*', '.')}: "):
                parse("stat 0\n" + text, "band")


class Text(Case):
    def test_comments_and_odd_lines(self) -> None:
        text = "# a filter\n\n create 0 fir 0 16384 # half\n\t \r\nchain\t0  0\r\nfeed 0 1#x\nstat 0 \n#\n" + " " * 1025 + "\n\r\r\n" + "x" * 1025 + "\nfeed 0 1"
        self.write("in", noise(3))
        result = self.run_text(text, "in", "out")
        plain = "\n".join(line.partition("#")[0] for line in text.split("\n"))
        replies, status = self.program(plain, "in", "out2")
        self.assertEqual("".join(f"{reply}\n" for reply in result.replies), replies)
        self.assertEqual((result.status, status), (1, 1))
        self.assertEqual([answer.line.number for answer in result.answers], [3, 5, 6, 7, 9, 10, 11, 12])

    def test_random_scripts_are_the_programs(self) -> None:
        """Lines of random words, without a comment: the replies are the program's."""
        chance = np.random.default_rng(5)
        heads = [*FORMS, "fly"]
        words = ["0", "1", "2", "7", "64", "-1", "fir", "biquad", "decim", "tone", "g711", "daram", "saram", "get", "set", "reset", "16384", "100", "1024", "x", "0.5"]
        for turn in range(30):
            lines = [" ".join([chance.choice(heads), *chance.choice(words, chance.integers(0, 8))]) for _ in range(200)]
            text = "create 0 fir 0 100 200\nchain 0 0\n" + "\n".join(lines) + "\n"
            self.write("in", noise(3000))
            with self.subTest(turn=turn):
                self.assertEqual("".join(f"{reply}\n" for reply in self.run_text(text, "in", "out", history=turn % 2 == 0).replies), self.program(text, "in", "want")[0])
                self.assertEqual((self.room / "out").read_bytes(), (self.room / "want").read_bytes())

    def test_bytes_that_are_no_text(self) -> None:
        self.write("in", noise(3))
        path = self.write("script", b"stat \xff\xfe\nstat 0\n")
        result = run(path, [Pair(self.room / "in", self.room / "out")])
        self.assertEqual(result.replies, ["no 2 syntax", "ok - 0"])


class Refusals(Case):
    WANTED = (
        ("create 0 biquad 0 16384 32768 16384 0 0", "3 range", "halve b0, b1 and b2"),
        ("create 0 biquad 0 0.5 0 0 0 0", "2 syntax", "in Q14, is 16384 times its value, here 8192"),
        ("create 0 fir 0 +5", "2 syntax", "no \\+ before it"),
        ("create 0 fire 0 5", "2 syntax", "is it fir"),
        ("Create 0 fir 0 5", "2 syntax", "lower case"),
        ("fed 0 5", "2 syntax", "is it feed"),
        ("map dram", "2 syntax", "is it daram"),
        ("feed 0 0", "3 range", "feed 0 all"),
        ("feed 0 2000", "3 range", "feed 0 all"),
        ("feed 1 5", "3 range", "there is no channel 1"),
        ("create 64 fir 0 5", "3 range", "0 to 63"),
        ("create 0 fir 8 5", "3 range", "0 to 7"),
        ("create 0 biquad 0 1 2 3", "6 params", "five words"),
        ("create 0 tone 0 1 2 16", "6 params", "0 to 15"),
        ("create 9 fir 9 1\nchain 0 9", "5 missing", "its creation in line 1 was refused"),
        ("chain 0 5\nfeed 0 1", "5 missing", "the chain of line 1 was refused"),
        ("chain 0 5", "5 missing", "no line before has created it"),
        ("create 0 fir 0 1\ncreate 0 fir 0 1", "4 taken", "delete 0"),
        ("create 0 fir 0 1\nchain 0 0\nchain 0 0", "4 taken", "unchain 0"),
        ("create 0 fir 0 1\nchain 0 0\ndelete 0", "8 busy", "in channel 0"),
        ("create 0 fir 0 1\nchain 0 0 0", "8 busy", "twice"),
        ("create 0 fir 0 1\ncontrol 0 set 1 2", "9 command", "as many coefficients"),
        ("create 0 g711 0 1 1\ncontrol 0 set 1 2", "9 command", "create another one"),
        (HALF + "feed 0 9", "10 short", "feed 0 all"),
        ("x" * 1025, "1 long", "1,?024 bytes"),
        ("create 0 decim 0 1 " + "1 " * 80, "3 range", "at most 72 words"),
    )

    def test_each_says_what_to_do(self) -> None:
        for text, reply, why in self.WANTED:
            self.write("in", noise(3))
            last = self.run_text(text, "in", "out").answers[-1]
            with self.subTest(text=text[:50]):
                self.assertEqual(last.reply, f"no {reply}")
                self.assertRegex(last.why, why)
        self.assertEqual({name.split()[1] for _, name, _ in self.WANTED} | {"room"}, {"long", "syntax", "range", "taken", "missing", "params", "room", "busy", "command", "short"})

    def test_room(self) -> None:
        self.write("in", noise(3))
        last = self.run_text("create 0 fir 0 1", "in", "out", settings=Settings(daram=4)).answers[-1]
        self.assertEqual(last.reply, "no 7 room")
        self.assertEqual(last.why, "It wants 1,024 words of daram for the scratch memory of its group, at a multiple of 16, and no gap has them: the largest has 4. A larger --daram gives more, up to 65536.")

    def test_room_is_that_of_the_moment(self) -> None:
        """Lines behind a refused creation, which are sent ahead, don't change what it lacked."""
        self.write("in", noise(3))
        text = "".join(f"create {i} fir {i} 1\n" for i in range(3)) + "delete 1\ncreate 3 fir 3" + " 1" * 6 + "\ndelete 0\ndelete 2\ncreate 4 fir 4 1\n"
        answers = self.run_text(text, "in", "out", settings=Settings(daram=3072)).answers
        self.assertEqual([it.reply for it in answers], ["ok"] * 4 + ["no 7 room"] + ["ok"] * 3)
        self.assertEqual(answers[4].why, "It wants 1,032 words of daram for the scratch memory of its group, at a multiple of 16, and no gap has them: the largest has 1,024. A larger --daram gives more, up to 65536.")
        joined = self.run_text(text.replace("delete 1\n", "delete 0\ndelete 2\n").replace("delete 0\ndelete 2\ncreate 4", "create 4"), "in", "out", settings=Settings(daram=3072)).answers
        self.assertIn("Its gaps have 2,048 words in all: `compact daram` joins them.", joined[5].why)

    def test_file_line_text_reply(self) -> None:
        self.write("in", noise(3000))
        self.write("band.txt", "# x\ncreate 0 biquad 0 16384 32768 16384 0 0\n\nchain 0 0\n" + "feed 0 5\n" * 400)
        done = self.command("dsp_run", "band.txt", "in", "out")
        told = done.stderr.splitlines()
        self.assertEqual(told[0], "band.txt:2: create 0 biquad 0 16384 32768 16384 0 0: no 3 range")
        self.assertEqual(told[2], "band.txt:4: chain 0 0: no 5 missing")
        self.assertEqual(told[4], "band.txt:5: feed 0 5: no 5 missing")
        self.assertEqual(told[6], "    .. and 399 more of this line")
        self.assertEqual(len(done.stdout.splitlines()), 402)
        self.assertEqual(done.returncode, 1)

    def test_strict(self) -> None:
        self.write("in", noise(3000))
        self.write("out", b"as it was")
        self.write("s", HALF + "feed 0 1000\nfeed 1 1\nfeed 0 all\n")
        done = self.command("dsp_run", "--strict", "s", "in", "out")
        self.assertEqual(done.stdout, "ok\nok\nok 1000\nno 3 range\n")
        self.assertEqual(((self.room / "out").read_bytes(), done.returncode, self.left_over()), (b"as it was", 1, []))
        self.assertIn("each OUT is as it was", done.stderr)
        self.write("s", HALF + "feed 0 all\n")
        self.assertEqual(self.command("dsp_run", "--strict", "s", "in", "out").returncode, 0)
        self.assertEqual(len(self.samples("out")), 3000)


class Files(Case):
    def test_nothing_is_lost(self) -> None:
        given = noise(3000)
        self.write("in", given)
        self.write("script", HALF + "feed 0 all\n")
        self.write("old", b"as it was")
        (self.room / "link").symlink_to("in")
        (self.room / "sub").mkdir()
        for words, status, said in (
            (["script", "in", "in"], 2, "read and written"),
            (["script", "in", "link"], 2, "read and written"),
            (["script", "in", "script"], 2, "read and written"),
            (["script", "in", "old", "in", "./old"], 2, "OUT of two channels"),
            (["script", "none", "old"], 3, "none: there is no such file"),
            (["none", "in", "old"], 3, "none: there is no such file"),
            (["script", "sub", "old"], 3, "sub: a folder"),
            (["script", "in", "sub"], 4, "sub: a folder"),
            (["script", "in", "gone/out"], 4, "there is no folder gone"),
            (["script", "in", "old", "in"], 2, "ports come in pairs"),
            (["--daram", "5", "script", "in", "old"], 2, "a space is 0 to 65536"),
            (["--history", "in", "script", "in", "old"], 2, "name another one for the history"),
            (["--history", "old", "script", "in", "old"], 2, "name another one for the history"),
            (["--history", "gone/h", "script", "in", "old"], 4, "there is no folder gone"),
            (["--program", "/no/such", "script", "in", "old"], 69, "no such program"),
            (["--program", "false", "script", "in", "old"], 70, "ended with status 1"),
            (["--program", "true", "script", "in", "old"], 70, "ended with status 0"),
        ):
            done = self.command("dsp_run", *words)
            with self.subTest(words=words):
                self.assertEqual(done.returncode, status, done.stderr)
                self.assertIn(said, done.stderr)
                self.assertNotIn("Traceback", done.stderr)
                np.testing.assert_array_equal(self.samples("in"), given)
                self.assertEqual((self.room / "old").read_bytes(), b"as it was")
                self.assertEqual(self.left_over(), [])

    def test_errors_have_names(self) -> None:
        self.write("in", noise(3))
        for names, error in ((("in", "in"), SameFile), (("none", "out"), CantRead), (("in", "no/out"), CantWrite)):
            with self.assertRaises(error):
                self.run_text("stat 0", *names)
        with self.assertRaises(ProgramFailed) as failed:
            self.run_text("stat 0", "in", "out", settings=Settings(daram=5))
        self.assertEqual(failed.exception.status, 2)
        with self.assertRaises(ProgramMissing):
            self.run_text("stat 0", "in", "out", program="/no/such")
        with self.assertRaises(OutOfRange):
            pairs_of(["a"])
        with self.assertRaises(CantRead):
            read_script(self.room / "none")
        with mock.patch("os.path.isdir", return_value=False), self.assertRaisesRegex(CantRead, "^no /proc: "):
            self.run_text("stat 0", "in", "out")
        self.assertTrue(issubclass(SameFile, RokdaumError))

    def test_devices_and_pipes_are_written_as_they_are(self) -> None:
        self.write("in", noise(30))
        self.write("s", HALF + "feed 0 all\n")
        self.assertEqual(self.command("dsp_run", "s", "in", "/dev/null").returncode, 0)
        done = self.command("dsp_run", "s", "in", "/dev/full")
        self.assertEqual(done.returncode, 4)
        self.assertIn("write failed", done.stderr)
        done = self.command("dsp_run", "s", "/dev/zero", "out")
        self.assertEqual(done.returncode, 2)
        self.assertIn("has no length", done.stderr)

    def test_modes_are_kept(self) -> None:
        self.write("in", noise(30))
        self.write("out", b"x").chmod(0o640)
        self.run_text(HALF + "feed 0 all", "in", "out", "in", "new")
        self.assertEqual((self.room / "out").stat().st_mode & 0o777, 0o640)
        (self.room / "like").touch()
        self.assertEqual((self.room / "new").stat().st_mode, (self.room / "like").stat().st_mode)

    def test_notes(self) -> None:
        self.write("in", noise(3000))
        result = self.run_text("create 0 g711 0 1 0\nchain 0 0\nfeed 0 100", "in", "out")
        self.assertIn("--out8=1", result.notes[0])
        self.assertIn("2,900 samples that no line fed: `feed 0 all`", result.notes[1])
        result = self.run_text("create 0 g711 0 1 1\nchain 0 0\nfeed 0 all", "in", "out")
        self.assertIn("--in8=1", result.notes[0])
        result = self.run_text(HALF + "feed 0 all", "in", "out")
        self.assertEqual(result.notes, [])

    def test_standard_input(self) -> None:
        self.write("in", noise(30))
        done = self.command("dsp_run", "-", "in", "out", given=HALF + "feed 0 all\nfly\n")
        self.assertEqual(done.stdout, "ok\nok\nok 30\nno 2 syntax\n")
        self.assertTrue(done.stderr.startswith("-:4: fly: no 2 syntax\n"))


class Waves(Case):
    def wave(self, name: str, channels: int = 1, width: int = 2, rate: int = 16000, count: int = 1000) -> None:
        with wave.open(str(self.room / name), "wb") as file:
            file.setnchannels(channels)
            file.setsampwidth(width)
            file.setframerate(rate)
            file.writeframes(noise(count * channels).astype("<i2").tobytes() if width == 2 else bytes(count * channels * width))

    def test_round_trip(self) -> None:
        given = noise(70001)
        samples.write(self.room / "in.wav", given, 16000)
        result = self.run_text("create 0 fir 0 16384\nchain 0 0\nfeed 0 all", "in.wav", "out.wav")
        gave, rate = samples.read(self.room / "out.wav")
        self.assertEqual((rate, result.rates), (16000, [16000.0]))
        self.assertLessEqual(np.abs(gave - given / 2).max(), 0.5)
        self.write("in.raw", given)
        self.run_text(HALF + "feed 0 all", "in.raw", "out.raw")
        np.testing.assert_array_equal(self.samples("out.raw"), gave)
        np.testing.assert_array_equal(samples.read(self.room / "in.wav")[0], given)

    def test_rate_behind_a_decimator(self) -> None:
        self.wave("in.wav")
        self.run_text("create 0 decim 0 4 8192 8192\ncreate 1 decim 1 2 16384\nchain 0 0 1\nfeed 0 all\n", "in.wav", "out.WAV")
        gave, rate = samples.read(self.room / "out.WAV")
        self.assertEqual((rate, len(gave)), (2000, 125))
        self.write("in.raw", noise(1000))
        self.run_text("create 0 decim 0 4 8192\nchain 0 0\nfeed 0 all\n", "in.raw", "out.wav")
        self.assertEqual(samples.read(self.room / "out.wav")[1], 2000)
        self.run_text("create 0 decim 0 4 8192\nchain 0 0\nfeed 0 all\n", "in.raw", "out.wav", rate=44100)
        self.assertEqual(samples.read(self.room / "out.wav")[1], 11025)

    def test_what_is_no_such_file(self) -> None:
        self.wave("stereo.wav", channels=2)
        self.wave("loud.wav", width=3)
        self.wave("in.wav")
        self.write("none.wav", b"RIFF")
        for names, settings, said in (
            (("stereo.wav", "out"), Settings(), "2 channels, and a pair takes one: .*stereo.wav:0 is the first .*:1 the second"),
            (("stereo.wav:2", "out"), Settings(), "2 channels, and 2 is asked for"),
            (("in.wav:1", "out"), Settings(), "1 channel, and 1 is asked for"),
            (("loud.wav", "out"), Settings(), "PCM_24, which 16 bits don't hold"),
            (("none.wav", "out"), Settings(), "no file of sound"),
            (("in.wav", "out"), Settings(in8=1), "says that channel 0 reads bytes"),
            (("in.wav", "out.wav"), Settings(out8=1), "no WAV file of PCM"),
        ):
            with self.subTest(said=said), self.assertRaisesRegex(WrongWave, said):
                self.run_text(HALF, *names, settings=settings)
        self.assertEqual(self.left_over(), [])

    def test_each_channel_of_a_stereo_file(self) -> None:
        self.wave("stereo.wav", channels=2)
        both = noise(2000).reshape(-1, 2)
        for channel in (0, 1):
            self.run_text(HALF + "feed 0 all", f"stereo.wav:{channel}", "out.raw")
            self.write("one.raw", both[:, channel])
            self.run_text(HALF + "feed 0 all", "one.raw", "want.raw")
            np.testing.assert_array_equal(self.samples("out.raw"), self.samples("want.raw"))
            np.testing.assert_array_equal(samples.read(self.room / f"stereo.wav:{channel}")[0], both[:, channel])
        # A file whose own name ends so is that file.
        (self.room / "stereo.wav").rename(self.room / "stereo.wav:1")
        self.wave("stereo.wav")
        with self.assertRaisesRegex(CantRead, "no such file"):
            self.run_text(HALF, "stereo.txt:1", "out.raw")

    def sox(self, *words: str) -> None:
        """What sox makes in the test's folder, without dither."""
        subprocess.run(["sox", "-D", *words], cwd=self.room, check=True, capture_output=True)

    def test_forms_of_telephony(self) -> None:
        """A-law, mu-law, the extensible form, AU, FLAC and AIFF give what sox makes of them."""
        self.wave("in.wav", rate=8000)
        for made in (("-e", "mu-law", "mu.wav"), ("-e", "a-law", "a.wav"), ("-e", "mu-law", "mu.au"), ("x.flac",), ("x.aiff",), ("-t", "ul", "x.ul"), ("-t", "al", "x.al"), ("-e", "unsigned", "-b", "8", "8.wav")):
            self.sox("in.wav", *made)
            name = made[-1]
            self.sox(*(["-r", "8000", "-c", "1"] if name in ("x.ul", "x.al") else []), name, "-t", "raw", "-e", "signed", "-b", "16", "want.raw")
            with self.subTest(name=name):
                self.run_text("create 0 fir 0 32767\nchain 0 0\nfeed 0 all", "want.raw", "want.out")
                result = self.run_text("create 0 fir 0 32767\nchain 0 0\nfeed 0 all", name, "out.raw")
                self.assertEqual((self.room / "out.raw").read_bytes(), (self.room / "want.out").read_bytes())
                self.assertEqual(result.unfed, [0])
        for name in ("out.flac", "out.au", "out.aiff", "out.wav"):
            self.run_text(HALF + "feed 0 all", "in.wav", name)
            self.sox(name, "-t", "raw", "back.raw")
            self.run_text(HALF + "feed 0 all", "in.wav", "want.raw")
            with self.subTest(name=name):
                self.assertEqual((self.room / "back.raw").read_bytes(), (self.room / "want.raw").read_bytes())

    def test_laws_are_the_programs(self) -> None:
        """Each sample's code and each code's sample are those of the proved coder and decoder."""
        every = np.arange(-32768, 32768)
        self.write("every", every)
        self.write("codes", bytes(range(256)))
        for number, law, ending in ((0, "a", "al"), (1, "mu", "ul")):
            self.run_text(f"create 0 g711 0 {number} 0\nchain 0 0\nfeed 0 all", "every", "want", settings=Settings(out8=1))
            self.assertEqual(sounds.encoded(law), np.roll(np.fromfile(self.room / "want", "u1"), 32768).tobytes())
            self.run_text(f"create 0 g711 0 {number} 1\nchain 0 0\nfeed 0 all", "codes", "want", settings=Settings(in8=1))
            self.assertEqual(b"".join(sounds.decoded(law)), (self.room / "want").read_bytes())
            self.run_text(HALF + "feed 0 all", "every", f"out.{ending}")
            self.run_text(f"create 0 fir 0 16384\ncreate 1 g711 0 {number} 0\nchain 0 0 1\nfeed 0 all", "every", f"codes.{ending}", settings=Settings(out8=1))
            self.assertEqual((self.room / f"out.{ending}").read_bytes(), (self.room / f"codes.{ending}").read_bytes())
            # With --in8 a file of codes is one of codes.
            self.run_text(f"create 0 g711 0 {number} 1\nchain 0 0\nfeed 0 all", f"out.{ending}", "decoded", settings=Settings(in8=1))
            np.testing.assert_array_equal(self.samples("decoded"), samples.read(self.room / f"out.{ending}")[0])

    def test_a_rate_that_nobody_designed_for_is_noted(self) -> None:
        self.wave("wide.wav", rate=16000)
        result = self.run_text(HALF + "feed 0 all", "wide.wav", "out.raw")
        self.assertIn("16000 samples a second: words that were designed for 8000 have other frequencies", " ".join(result.notes))
        self.assertEqual(self.run_text(HALF + "feed 0 all", "wide.wav", "out.raw", rate=16000).notes, [])

    def test_pcm_needs_python_alone(self) -> None:
        """Other forms name the package, and change nothing."""
        self.wave("stereo.wav", channels=2)
        self.wave("in.wav", rate=8000)
        self.sox("in.wav", "-e", "mu-law", "mu.wav")
        self.write("s", HALF + "feed 0 all\n")
        hide = "import sys; sys.modules['soundfile'] = None; sys.argv[0] = 'dsp_run'\nimport importlib.util as u; find = u.find_spec; u.find_spec = lambda name: None if name == 'soundfile' else find(name)\n"
        for name, status in (("stereo.wav:1", 0), ("in.wav", 0), ("mu.wav", 2)):
            code = hide + f"sys.path.insert(0, {str(PYTHON)!r})\nfrom rokdaum.commands.run import main\nsys.exit(main(['s', {name!r}, 'out-{status}.raw']))"
            done = subprocess.run([sys.executable, "-B", "-c", code], cwd=self.room, capture_output=True, text=True, check=False)
            with self.subTest(name=name):
                self.assertEqual(done.returncode, status, done.stderr)
                self.assertEqual("apt-get install python3-soundfile" in done.stderr, status == 2)
        self.assertFalse((self.room / "out-2.raw").exists())


class Streams(Case):
    """The standard input and output, and named pipes."""

    def piped(self, given: bytes, *words: str, stdout: int = subprocess.PIPE) -> tuple[bytes, str, int]:
        """Runs `dsp_run` with octets at its standard input: what came out, what was said, and the status."""
        done = subprocess.run([sys.executable, str(PYTHON / "bin" / "dsp_run"), *words], cwd=self.room, input=given, stdout=stdout, stderr=subprocess.PIPE, timeout=120, check=False)
        return done.stdout or b"", done.stderr.decode(), done.returncode

    def setUp(self) -> None:
        super().setUp()
        self.given = noise(5001)
        self.write("in", self.given)
        self.write("s", HALF + "feed 0 all\n")
        self.run_text(HALF + "feed 0 all", "in", "want")
        self.want = (self.room / "want").read_bytes()

    def test_from_pipe_to_pipe(self) -> None:
        octets = (self.room / "in").read_bytes()
        self.assertEqual(self.piped(octets, "s", "-", "-"), (self.want, "ok\nok\nok 5001\n", 0))
        out, said, status = self.piped(octets, "s", "-", "out")
        self.assertEqual((out, said, status, (self.room / "out").read_bytes()), (b"ok\nok\nok 5001\n", "", 0, self.want))
        self.assertEqual(self.piped((HALF + "feed 0 all\n").encode(), "-", "in", "-"), (self.want, "ok\nok\nok 5001\n", 0))
        self.assertEqual(self.piped(octets, "s", "/dev/stdin", "/dev/stdout"), (self.want, "ok\nok\nok 5001\n", 0))

    def test_to_a_file_at_its_end(self) -> None:
        with open(self.room / "log", "ab") as log:
            log.write(b"before")
            log.flush()
            self.assertEqual(self.piped(b"", "s", "in", "-", stdout=log.fileno())[1:], ("ok\nok\nok 5001\n", 0))
        self.assertEqual((self.room / "log").read_bytes(), b"before" + self.want)

    def test_sound_from_a_pipe(self) -> None:
        for name in ("in.wav", "in.flac", "in.au"):
            samples.write(self.room / name, self.given)
            self.assertEqual(self.piped((self.room / name).read_bytes(), "s", "-", "-")[0], self.want, name)

    def test_feeds_of_a_stream_are_those_of_a_file(self) -> None:
        """The same replies and the same output, refused feeds and short ones among them, and empty and odd streams."""
        texts = (
            HALF + "feed 0 100\nfeed 0 0\nfeed 1 5\nfeed 0 all 160\nfeed 0 1\nfeed 0 1\n", "feed 0 50\n" + HALF + "feed 0 50\nfeed 0 1024\nfeed 0 1025\n" + "feed 0 1000\n" * 5 + "feed 0 all\n",
            "feed 0 all\n", HALF + "feed 0 1\nunchain 0\nfeed 0 7\nchain 0 0\nfeed 0 7\nfeed 0 all 1\n" + "feed * all\n", "stat 0\n",
        )
        for count in (0, 1, 3, 159, 160, 1024, 5000):
            octets = noise(count).astype("<i2").tobytes() + b"x" * (count % 2)
            self.write("file", octets)
            for text in texts:
                self.write("t", text)
                with self.subTest(count=count, text=text[:40]):
                    wanted = self.command("dsp_run", "--quiet", "t", "file", "out")
                    got = self.piped(octets, "--quiet", "t", "-", "got")
                    self.assertEqual((got[0].decode(), got[2]), (wanted.stdout, wanted.returncode), got[1])
                    self.assertEqual((self.room / "got").read_bytes(), (self.room / "out").read_bytes())

    def test_bytes_from_a_pipe(self) -> None:
        self.write("s", "create 0 g711 0 1 1\ncreate 1 g711 0 0 0\nchain 0 0 1\nfeed 0 all 100\n")
        codes = bytes(range(256)) * 9
        self.write("in.codes", codes)
        self.assertEqual(self.command("dsp_run", "--in8=1", "--out8=1", "s", "in.codes", "want.al").returncode, 0)
        self.assertEqual(self.piped(codes, "--in8=1", "--out8=1", "s", "-", "-")[0], (self.room / "want.al").read_bytes())

    def test_block_by_block(self) -> None:
        """What a block gives comes out before the next one is there."""
        self.write("s", HALF + "feed 0 all 160\n")
        with subprocess.Popen([sys.executable, str(PYTHON / "bin" / "dsp_run"), "s", "-", "-"], cwd=self.room, stdin=subprocess.PIPE, stdout=subprocess.PIPE, stderr=subprocess.PIPE) as running:
            assert running.stdin and running.stdout
            for _ in range(5):
                running.stdin.write(np.full(160, 8, "<i2").tobytes())
                running.stdin.flush()
                self.assertEqual(running.stdout.read(320), np.full(160, 4, "<i2").tobytes())
            running.stdin.close()
            self.assertEqual((running.stdout.read(), running.wait(60)), (b"", 0))

    def test_two_channels_in_turn(self) -> None:
        os.mkfifo(self.room / "pipe")
        self.write("s", "create 0 fir 0 16384\nchain 0 0\ncreate 1 fir 1 16384\nchain 1 1\nfeed * all 100\n")
        running = subprocess.Popen([sys.executable, str(PYTHON / "bin" / "dsp_run"), "s", "pipe", "a", "in", "b"], cwd=self.room, stdin=subprocess.DEVNULL, stdout=subprocess.PIPE)
        (self.room / "pipe").write_bytes((self.room / "in").read_bytes())
        self.assertEqual(running.communicate(timeout=60)[0].splitlines()[-1], b"ok 10002")
        self.assertEqual(((self.room / "a").read_bytes(), (self.room / "b").read_bytes()), (self.want, self.want))

    def test_each_stream_has_one_use(self) -> None:
        for words, said in (
            (["-", "-", "out"], "SCRIPT or an IN"), (["s", "-", "a", "-", "b"], "one IN"), (["s", "in", "-", "in", "-"], "OUT of two channels"),
            (["s", "-", "a", "/dev/stdin", "b"], "one IN"),
        ):
            out, told, status = self.piped(b"", *words)
            with self.subTest(words=words):
                self.assertEqual((out, status), (b"", 2), told)
                self.assertIn(said, told)
        self.assertEqual([path.name for path in self.room.iterdir() if path.name in ("a", "b", "out")], [])

    def test_a_reader_that_has_enough(self) -> None:
        done = subprocess.run(["bash", "-c", f"{sys.executable} {PYTHON}/bin/dsp_run s big - 2> said | head -c 10 > got"], cwd=self.room, check=False, env=os.environ)
        self.write("big", noise(500_000))
        done = subprocess.run(["bash", "-c", f"{sys.executable} {PYTHON}/bin/dsp_run s big - 2> said | head -c 10 > got"], cwd=self.room, check=False)
        self.assertEqual(done.returncode, 0)
        self.assertEqual(len((self.room / "got").read_bytes()), 10)
        self.assertNotIn("Traceback", (self.room / "said").read_text())

    def test_never_a_traceback(self) -> None:
        """Odd words, files and programs: a sentence, and a status."""
        self.write("odd.wav", b"RIFF\x24\0\0\0WAVEfmt ")
        self.write("short.wav", b"RIFF")
        self.write("empty.wav", b"")
        self.write("empty.flac", b"")
        self.write("text.au", "no sound\n")
        self.write("bytes", bytes(range(256)))
        self.write("chat", "#!/bin/sh\nwhile read -r line; do echo well; done\n").chmod(0o755)
        good = np.zeros(100, "<i2")
        samples.write(self.room / "ok.wav", good)
        cut = (self.room / "ok.wav").read_bytes()[:60]
        self.write("cut.wav", cut)
        for words in (
            ["s", "odd.wav", "o"], ["s", "short.wav", "o"], ["s", "empty.wav", "o"], ["s", "empty.flac", "o"], ["s", "text.au", "o"], ["s", "cut.wav", "o"], ["bytes", "in", "o"], ["s", "in", "o.xyz:1"], ["s", "in:1", "o"],
            ["s", "in", "/dev/full"], ["s", "/dev/zero", "o"], ["s", "/dev/null", "o"], ["s", "in", "/proc/nothing/o"], ["--program", str(self.room / "chat"), "s", "in", "o"], ["--rate", "nan", "s", "in", "o.wav"], ["--rate", "-5", "s", "in", "o.wav"],
            ["--rate", "1e99", "s", "in", "o.wav"], ["--rate", "1e99", "s", "in", "o.flac"], ["--daram", "x", "s", "in", "o"], ["s", "in", ""], ["s", "", "o"], ["", "in", "o"], ["s", "a\udcffb", "o"], ["s", "in", "o\udcff.wav"], ["--in8", "70000", "s", "in", "o"],
        ):
            done = subprocess.run([sys.executable, str(PYTHON / "bin" / "dsp_run"), *map(os.fsencode, words)], cwd=self.room, input=b"", capture_output=True, timeout=60, check=False)
            with self.subTest(words=words):
                self.assertNotIn(b"Traceback", done.stderr)
                self.assertTrue(done.returncode == 0 or done.stderr, words)
                self.assertEqual(self.left_over(), [])


class Arrays(Case):
    def test_process(self) -> None:
        given = tone(1000, 20000, 900)
        (gave,), result = process(HALF + "feed 0 all", given)
        self.assertEqual((gave.dtype, result.replies[-1]), (np.dtype(np.int16), "ok 900"))
        self.assertLessEqual(np.abs(gave - given / 2).max(), 0.5)
        outputs, _ = process("create 0 g711 0 1 0\nchain 0 0\ncreate 1 g711 0 1 1\nchain 1 1\nfeed * all", given, np.arange(256), settings=Settings(in8=2, out8=1))
        self.assertEqual([it.dtype for it in outputs], [np.dtype(np.uint8), np.dtype(np.int16)])
        outputs, result = process("fly\n" + HALF + "feed 0 all", given)
        self.assertEqual((outputs, result.stopped, result.refused[0].line.number), ([], True, 1))

    def test_floats_are_refused_with_how_to_scale(self) -> None:
        for call in (lambda: process(HALF, np.array([0.5])), lambda: samples.write(self.room / "x.wav", [0.5]), lambda: samples.as_words(np.array([True]))):
            with self.assertRaises(FloatsRefused):
                call()
        with self.assertRaisesRegex(FloatsRefused, "from_floats"):
            samples.as_words([0.5])
        for wrong in ([40000], [[1, 2], [3, 4]]):
            with self.assertRaises(OutOfRange):
                samples.as_words(wrong)
        with self.assertRaises(OutOfRange):
            samples.as_words([256], octets=True)
        np.testing.assert_array_equal(samples.from_floats([1, -1, 0.5, 0]), [32767, -32768, 16384, 0])
        for wrong in ([1.5], [float("nan")], [float("inf")]):
            with self.assertRaises(OutOfRange):
                samples.from_floats(wrong)
        np.testing.assert_allclose(samples.to_floats([16384]), [0.5])
        self.assertEqual(samples.as_words([]).shape, (0,))

    def test_a_file_stays_where_a_write_is_refused(self) -> None:
        self.write("x.raw", b"as it was")
        with self.assertRaises(FloatsRefused):
            samples.write(self.room / "x.raw", [0.5])
        self.assertEqual((self.room / "x.raw").read_bytes(), b"as it was")


class Running(Case):
    def test_progress(self) -> None:
        times = iter([0.0, 0.1, 1.0, 2.0])
        shown = io.StringIO()
        progress = Progress(shown, lambda: next(times))
        for fed in (100, 1000, 40000):
            progress(fed, 80000)
        self.assertEqual(shown.getvalue().split("\r")[1:], ["  1 %, 1,000 of 80,000 samples, 1,000 a second, 1:19 left", " 50 %, 40,000 of 80,000 samples, 20,000 a second, 0:02 left"])
        progress.clear()
        self.assertTrue(shown.getvalue().endswith("\r"))

    def test_watch_counts_to_the_end(self) -> None:
        self.write("in", noise(100000))
        seen: list[tuple[int, int]] = []
        self.run_text(HALF + "feed 0 100\nfeed 0 all", "in", "out", watch=lambda fed, total: seen.append((fed, total)))
        self.assertEqual((seen[0], seen[-1]), ((100, 100000), (100000, 100000)))

    def test_words_of_the_program(self) -> None:
        self.write("in", noise(10))
        self.write("s", "stat 0\n")
        done = self.command("dsp_run", "--program", f"nice -n 1 {shlex.split(PROGRAM)[0]}", "s", "in", "out")
        self.assertEqual((done.stdout, done.returncode), ("ok - 0\n", 0))

    def test_ended_from_outside(self) -> None:
        """A run that waits for its input is ended by a signal: OUT is as it was, and nothing is left over."""
        os.mkfifo(self.room / "in")
        self.write("out", b"as it was")
        self.write("s", HALF + "feed 0 1\n")
        for sent, status in ((signal.SIGTERM, 143), (signal.SIGINT, 130)):
            words = [sys.executable, str(PYTHON / "bin" / "dsp_run"), "s", "in", "out"]
            running = subprocess.Popen(words, cwd=self.room, stdin=subprocess.DEVNULL, stdout=subprocess.DEVNULL, preexec_fn=lambda: signal.signal(signal.SIGINT, signal.default_int_handler))
            began = time.monotonic()
            # The program opens the pipe, and then waits for samples.
            held = os.open(self.room / "in", os.O_WRONLY)
            self.assertLess(time.monotonic() - began, 60)
            running.send_signal(sent)
            self.assertEqual(running.wait(60), status)
            os.close(held)
            self.assertEqual(((self.room / "out").read_bytes(), self.left_over()), (b"as it was", []))

    def test_history_is_json(self) -> None:
        self.write("in", noise(10))
        self.write("s", HALF + "feed 0 all\n")
        self.command("dsp_run", "--history", "h.json", "s", "in", "out")
        self.assertEqual(json.loads((self.room / "h.json").read_text())["moments"][-1]["active"], {"0": 0})


if __name__ == "__main__":
    unittest.main()
