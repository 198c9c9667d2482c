# SPDX-License-Identifier: Apache-2.0
"""Filters beside scipy's in floats, and beside the program."""

from __future__ import annotations

import unittest
from functools import cache

from case import Case, noise, np, tone

from scipy import signal

from rokdaum import design
from rokdaum.errors import DesignError, NotStable
from rokdaum.script import process

FILTERS = {
    "band": (cache(lambda scale: design.band(300, 3400, scale=scale)), [200, 300, 1000, 2500, 3400]),
    "low": (cache(lambda scale: design.low(1000, scale=scale)), [50, 500, 1000, 1500]),
    "low Chebyshev": (cache(lambda scale: design.low(1000, 5, ripple=1, scale=scale)), [50, 500, 1000, 1200]),
    "high": (cache(lambda scale: design.high(300, scale=scale)), [200, 300, 1000, 3900]),
    "high Chebyshev": (cache(lambda scale: design.high(1000, 3, ripple=0.5, scale=scale)), [500, 1000, 3900]),
    "band Chebyshev": (cache(lambda scale: design.band(500, 2000, 2, ripple=1, scale=scale)), [300, 600, 1900, 2500]),
    "another rate": (cache(lambda scale: design.low(3000, 4, rate=16000, scale=scale)), [100, 1000, 3000, 4000]),
}


class Responses(unittest.TestCase):
    """The rounded words have the designed shape, up to one gain."""

    def test_shape_of_sections(self) -> None:
        for name, (make, frequencies) in FILTERS.items():
            for scale in design.SCALES:
                with self.subTest(filter=name, scale=scale):
                    made = make(scale)
                    beside = design.decibels(made.response(frequencies)) - design.decibels(made.designed_response(frequencies))
                    self.assertLess(np.ptp(beside), 0.25, beside)
                    self.assertLess(made.radius, 1)
                    self.assertTrue(all(-32768 <= word <= 32767 for one in made.words for word in one))

    def test_designed_is_scipys(self) -> None:
        made = design.low(1000, 4)
        wanted = signal.sosfreqz(signal.butter(4, 1000, fs=8000, output="sos"), [300, 1000, 2000], fs=8000)[1]
        np.testing.assert_allclose(made.designed_response([300, 1000, 2000]), wanted)
        made = design.band(300, 3400)
        np.testing.assert_allclose(np.abs(made.response([300, 1000, 3400])), [0.707, 1, 0.707], atol=0.005)

    def test_what_rounding_changed_is_told(self) -> None:
        self.assertIn("dB off", " ".join(design.high(20, 6).warnings()))
        self.assertLess(design.band(300, 3400).deviation(), 0.3)

    def test_fir(self) -> None:
        for made in (design.fir("low", [1000]), design.fir("band", [300, 3400]), design.fir("high", [1000], 51), design.decim(4, edge=750)):
            frequencies = np.linspace(10, 3990, 400)
            scale = np.sum(np.array(made.words) / 32768 * made.designed) / np.sum(made.designed**2)
            error = np.abs(made.response(frequencies) - scale * made.designed_response(frequencies)).max()
            # Each coefficient is within half a word.
            self.assertLessEqual(error, len(made.words) * 0.5 / 32768 * 1.1)

    def test_notch_is_deep(self) -> None:
        for frequency in (50, 60, 400, 1000, 3000):
            for scale in design.SCALES:
                with self.subTest(frequency=frequency, scale=scale):
                    made = design.notch(frequency, 20, scale=scale)
                    depth = design.decibels(made.response([frequency]))[0] - design.decibels(made.response([frequency + 500]))[0]
                    self.assertLess(depth, -60)


class Overflow(Case):
    """What is said to saturate nothing doesn't, in the program; and what is said to saturate does."""

    def error(self, made: design.Biquads | design.Fir, given: np.ndarray) -> float:
        """The largest difference between the program's output and the words' filter in floats."""
        (gave,), _ = process("\n".join([*made.lines(), "feed 0 all"]), given)
        exact = signal.sosfilt(made.sections, given.astype(float)) if isinstance(made, design.Biquads) else signal.lfilter(np.array(made.words) / 32768, 1, given.astype(float))
        return float(np.abs(gave - exact).max())

    def test_tones_of_full_scale(self) -> None:
        for name, (make, _) in FILTERS.items():
            made = make("tones")
            self.assertLessEqual(made.overflow(), 1)
            for part in (0.003, 0.1, 0.25, 0.6, 0.85, 0.97):
                # It begins at 0 and swells, so that it is a tone and no step.
                count = 4000
                swell = np.minimum(np.arange(count) / 2000, 1)
                given = np.round(32700 * swell * np.sin(np.pi * part * np.arange(count))).astype(np.int16)
                with self.subTest(filter=name, part=part):
                    self.assertLess(self.error(made, given), 60)

    def test_any_input(self) -> None:
        """The worst input of a filter is the sign of its impulse response, turned round."""
        for name, (make, _) in FILTERS.items():
            made = make("any")
            self.assertLessEqual(made.overflow(any_input=True), 1)
            pulse = np.zeros(2000)
            pulse[0] = 1
            worst = np.where(signal.sosfilt(made.sections, pulse)[::-1] >= 0, 32767, -32768).astype(np.int16)
            with self.subTest(filter=name):
                self.assertLess(self.error(made, worst), 60)
                self.assertLess(self.error(made, noise(4000, peak=32767)), 60)

    def test_fir_of_full_scale(self) -> None:
        for made in (design.fir("low", [1000]), design.fir("band", [300, 3400], scale="any")):
            for frequency in (0, 300, 1000, 3900):
                self.assertLess(self.error(made, np.round(np.minimum(np.arange(2000) / 1000, 1) * tone(frequency, 32700, 2000)).astype(np.int16)), 60)
        made = design.fir("low", [1000], scale="any")
        worst = np.where(np.array(made.words)[::-1] >= 0, 32767, -32768).astype(np.int16)
        self.assertLess(self.error(made, worst), 2)

    def test_what_saturates_is_told(self) -> None:
        made = design.notch(50, scale="words")
        self.assertGreater(made.overflow(), 1.5)
        self.assertIn("a tone of full scale saturates", made.warnings()[0])
        high = tone(3950, 32700, 2000)
        self.assertGreater(self.error(made, high), 1000)
        self.assertLess(self.error(made, np.round(high / (made.overflow() * 1.05)).astype(np.int16)[400:]), 6000)
        flat = design.Fir((20000, 20000), np.array([20000, 20000]) / 32768)
        self.assertGreater(self.error(flat, np.full(10, 32767, np.int16)), 5000)
        self.assertTrue(flat.warnings())


class Tones(Case):
    def test_levels(self) -> None:
        """A detector's level is the program's."""
        for frequency, peak, shift in ((697, 7000, None), (1633, 7000, 9), (1209, 30000, None), (440, 20000, None)):
            made = design.tones([frequency], 205, shift)
            (gave,), _ = process("\n".join([*made.lines(), "feed 0 all"]), tone(frequency, peak, 205 * 4))
            one = made.detectors[0]
            with self.subTest(frequency=frequency):
                self.assertEqual(len(gave), 4)
                self.assertLess(abs(gave[0] - one.level(peak)), 3 + 0.12 * one.level(peak))

    def test_no_full_scale_tone_saturates(self) -> None:
        made = design.tones([697, 1633, 2500], 102)
        for one in made.detectors:
            self.assertLessEqual(one.overflow(), 1)
            (gave,), _ = process("\n".join([*design.Tones((one,)).lines(), "feed 0 all"]), tone(one.asked, 32700, 1020))
            self.assertLess(abs(gave[0] - one.level(32700)), 3 + 0.1 * one.level(32700))
        self.assertEqual(made.lines()[-1], "chain 2 2")

    def test_one_shift_for_the_tones_of_a_call(self) -> None:
        """So tones of one peak have one level, within a fifth, whatever their frequency."""
        made = design.tones([697, 770, 852, 941, 1209, 1336, 1477, 1633], 102)
        self.assertEqual(len({one.shift for one in made.detectors}), 1)
        levels = [one.level(20000) for one in made.detectors]
        self.assertLess(max(levels), 1.2 * min(levels))
        self.assertNotIn("shifts differ", " ".join(made.warnings()))
        self.assertIn("shifts differ", " ".join(design.Tones((*design.tones([697], 102).detectors, *design.tones([1633], 102).detectors)).warnings()))

    def test_warnings(self) -> None:
        self.assertIn("saturates", design.tones([1633], 102, 6, rate=4000).warnings()[0])
        self.assertIn("the nearest k is that of", " ".join(design.tones([7], 1024).warnings()))
        self.assertIn("has level 0", " ".join(design.tones([1000], 50, 12).warnings()))


class Generators(Case):
    """Tones by name, and echo cancellers."""

    def test_frequencies_of_names(self) -> None:
        for name, (frequencies, times) in design.PROGRESS_TONES.items():
            one = design.signal(name).parts[0]
            with self.subTest(name=name):
                np.testing.assert_allclose(one.frequencies, frequencies, atol=0.1)
                self.assertEqual(one.words[6], 0)
                if times:
                    self.assertEqual(one.words[4:6], tuple(round(8000 * it) for it in times))
        for at, key in enumerate(design.KEYS):
            one = design.signal(key).parts[0]
            np.testing.assert_allclose(one.frequencies, (design.ROWS[at // 4], design.COLUMNS[at % 4]), atol=0.1)
            self.assertEqual(one.words[4:], (800, 800, 1))

    def test_levels_and_seams(self) -> None:
        """The tone that is asked for in each sample, at its seams too."""
        for name, frequencies, level in (("us-dial", (350, 440), -10), ("eu-dial", (425,), -20), ("5", (770, 1336), -13)):
            made = design.signal(name, level)
            words = made.parts[0].words
            count = words[4] + 400 if name != "5" else 800
            (gave,), _ = process("\n".join([*made.lines(), "feed 0 all"]), np.zeros(count, np.int16))
            exact = np.zeros(count)
            for frequency in made.parts[0].frequencies:
                exact += 32768 * 10 ** (level / 20) * np.sin(2 * np.pi * frequency * np.arange(count) / 8000)
            error = np.abs(gave - exact)
            with self.subTest(name=name):
                self.assertLess(np.sqrt(np.mean(error[:800] ** 2)), 0.01 * np.abs(exact).max())
                self.assertLess(abs(20 * np.log10(np.std(gave[: words[4]]) / np.std(exact[: words[4]]))), 0.2)

    def test_dialled(self) -> None:
        """What a detector finds is what was dialled."""
        digits = "0123456789*#ABCD558"
        made = design.signal(digits)
        self.assertEqual((len(made.creations), made.samples), (16, 1600 * len(digits)))
        (gave,), result = process("\n".join(made.lines()), np.zeros(made.samples, np.int16))
        self.assertTrue(all(reply.startswith("ok") for reply in result.replies), result.replies)
        (codes,), _ = process("\n".join([*design.dtmf().lines(), "feed 0 all"]), gave)
        self.assertEqual(design.dtmf().dialled(codes), digits)

    def test_commands(self) -> None:
        for words, lines in (
            (["signal", "55"], design.signal("55").lines()), (["signal", "us-busy", "--level", "-20"], design.signal("us-busy", -20).lines()),
            (["signal", "1", "--on", "50", "--off", "60", "--first", "4", "--channel", "1"], design.signal("1", on=0.05, off=0.06).lines(4, 0, 1)),
            (["echo"], ["create 0 echo 0 128 8192 16384 240", "chain 0 0"]), (["activity"], design.activity().lines()), (["activity", "--ms", "20", "--margin", "6", "--rate", "16000"], design.activity(20, 6, rate=16000).lines()), (["echo", "--ms", "32", "--step", "0.5", "--loud", "0.25", "--hold", "10"], ["create 0 echo 0 256 16384 8192 80", "chain 0 0"]),
        ):
            done = self.command("dsp_design", *words)
            self.assertEqual((done.stdout.splitlines(), done.returncode), (lines, 0), done.stderr)
            self.assertTrue(done.stderr)
        self.assertIn("saturate", self.command("dsp_design", "signal", "5", "--level", "-3").stderr)

    def test_activity(self) -> None:
        """A second of noise at -50 dB, half a second of a tone 30 dB above it, and noise again: the tone and its hangover are speech."""
        made = design.activity()
        self.assertEqual(made.creations, (("activity", (80, 7, 3, 7, 134, 15)),))
        self.assertAlmostEqual(made.margin, 9, delta=0.1)
        self.assertAlmostEqual(made.rise, 3.4, delta=0.1)
        self.assertAlmostEqual(made.least, -70, delta=0.1)
        heard = noise(20000, peak=180).astype(int)
        heard[8000:12000] += tone(500, 4600, 4000)
        (gave,), _ = process("\n".join([*made.lines(), "feed 0 all"]), heard.astype(np.int16))
        np.testing.assert_array_equal(gave, np.array([100 <= at < 150 + 15 for at in range(250)], np.int16))

    def test_echo(self) -> None:
        """After a second the far end's echo is 20 dB below what it was."""
        far = noise(16000)
        near = np.concatenate([np.zeros(30, np.int16), far[:-30] // 4])
        (gave,), _ = process("\n".join([*design.echo().lines(), "feed 0 all"]), np.ravel(np.column_stack([far, near])).astype(np.int16))
        self.assertEqual(len(gave), len(near))
        self.assertLess(np.std(gave[8000:].astype(float)), 0.1 * np.std(near[8000:].astype(float)))


class Own(Case):
    """Designs of the user's own, in Python and by the command."""

    def test_sections(self) -> None:
        sos = signal.ellip(6, 0.5, 40, [500, 2000], "bandpass", fs=8000, output="sos")
        made = design.biquads(sos)
        beside = design.decibels(made.response([600, 1000, 1900])) - design.decibels(made.designed_response([600, 1000, 1900]))
        self.assertLess(np.ptp(beside), 0.3)
        np.save(self.room / "sos.npy", sos)
        np.savetxt(self.room / "sos.txt", sos)
        np.savetxt(self.room / "sos.csv", sos, delimiter=",", header="b0 b1 b2 a0 a1 a2")
        for name in ("sos.npy", "sos.txt", "sos.csv"):
            done = self.command("dsp_design", "sos", name)
            self.assertEqual((done.stdout.splitlines(), done.returncode), (made.lines(), 0), done.stderr)

    def test_taps(self) -> None:
        values = signal.remez(31, [0, 1000, 1500, 4000], [1, 0], fs=8000)
        made = design.taps(values)
        np.testing.assert_allclose(made.response([200, 3000]), made.designed_response([200, 3000]) * (np.abs(made.response([0])) / np.abs(made.designed_response([0]))), atol=0.002)
        (gave,), _ = process("\n".join([*made.lines(), "feed 0 all"]), noise(500, 8000))
        exact = signal.lfilter(np.array(made.words) / 32768, 1, noise(500, 8000).astype(float))
        self.assertLess(np.abs(gave - exact).max(), 2)
        np.savetxt(self.room / "column.txt", values)
        np.savetxt(self.room / "row.txt", values[None])
        np.save(self.room / "taps.npy", values)
        for name in ("column.txt", "row.txt", "taps.npy"):
            self.assertEqual(self.command("dsp_design", "taps", name).stdout.splitlines(), made.lines(), name)
        self.assertEqual(self.command("dsp_design", "taps", "-", given="0.5\n0.25 # the past\n").stdout, "create 0 fir 0 16384 8192\nchain 0 0\n")

    def test_gains_meters_and_digits(self) -> None:
        for words, lines in (
            (["gain", "6"], design.gain(6).lines()), (["gain", "-6", "--first", "3"], ["create 3 gain 0 2053", "chain 0 3"]), (["level"], design.level().lines()),
            (["level", "--frame", "80", "--group", "2", "--channel", "1"], design.level(80).lines(0, 2, 1)), (["dtmf"], design.dtmf().lines()), (["dtmf", "--set", "b"], design.dtmf("b").lines()),
        ):
            done = self.command("dsp_design", *words)
            self.assertEqual((done.stdout.splitlines(), done.returncode), (lines, 0), done.stderr)
            self.assertTrue(done.stderr)

    def test_files_that_hold_something_else(self) -> None:
        self.write("text", "no numbers\n")
        self.write("five", "1 2 3 4 5\n")
        self.write("uneven", "1 2\n3\n")
        self.write("empty", "")
        self.write("odd.npy", b"no array")
        np.save(self.room / "object.npy", np.array([{}]), allow_pickle=True)
        for what in ("sos", "taps"):
            for name in ("text", "uneven", "empty", "odd.npy", "object.npy", "none", ".") + (("five",) if what == "sos" else ()):
                done = self.command("dsp_design", what, name)
                with self.subTest(what=what, name=name):
                    self.assertEqual((done.stdout, done.returncode, len(done.stderr.splitlines())), ("", 3, 1), done.stderr)


class Decimators(Case):
    def test_aliases_are_told(self) -> None:
        self.assertIn("half of the new rate", " ".join(design.decim(16).warnings()))
        self.assertNotIn("half of the new rate", " ".join(design.decim(4, edge=600).warnings()))

    def test_lines(self) -> None:
        made = design.decim(4, 8)
        (gave,), result = process("\n".join([*made.lines(3, 2, 0), "feed 0 all"]), noise(401))
        self.assertEqual(len(gave), 100)
        self.assertEqual(result.replies, ["ok", "ok", "ok 100"])
        self.assertTrue(made.lines(3, 2, 1)[0].startswith("create 3 decim 2 4 "))


class Refused(unittest.TestCase):
    def test_what_can_not_be(self) -> None:
        for call, said in (
            (lambda: design.low(4000), "between 0 and 4000"),
            (lambda: design.band(3400, 300), "the lower edge comes first"),
            (lambda: design.low(1000, 0), "order"),
            (lambda: design.low(1000, ripple=-1), "ripple"),
            (lambda: design.low(1000, scale="loud"), "scale"),
            (lambda: design.fir("low", [1000], 65), "1 to 64"),
            (lambda: design.fir("high", [1000], 50), "odd"),
            (lambda: design.fir("flat", [1000]), "FIR is"),
            (lambda: design.decim(17), "1 to 16"),
            (lambda: design.tones([1000], 1025), "1 to 1024"),
            (lambda: design.tones([]), "no frequency"),
            (lambda: design.band(300, 3400, 9).lines(), "at most 8 members"),
            (lambda: design.band(300, 3400).lines(group=6), "share"),
            (lambda: design.band(300, 3400).lines(first=62), "instances are 0 to 63"),
            (lambda: design.tones([500] * 2).lines(channel=15), "a tone takes a channel"),
            (lambda: design.signal("5x"), "a tone is a key"),
            (lambda: design.signal(""), "no tone"),
            (lambda: design.signal("5", 1), "-90 to 0 dB"),
            (lambda: design.signal("5", on=0), "of which one sounds"),
            (lambda: design.signal("us-busy", off=4), "32767 samples"),
            (lambda: design.echo(33), "1 to 256 coefficients"),
            (lambda: design.echo(step=1), "just below 1"),
            (lambda: design.activity(200), "1 to 1024 samples"),
            (lambda: design.activity(margin=60), "a margin is 0 to 46"),
            (lambda: design.biquads(np.ones((2, 5))), "shape"),
            (lambda: design.notch(50, 9000), "width"),
        ):
            with self.subTest(said=said), self.assertRaisesRegex(DesignError, said):
                call()

    def test_not_stable(self) -> None:
        """Poles this near to the circle are rounded onto it."""
        with self.assertRaisesRegex(DesignError, "edge is too low"):
            design.low(2, 4)
        with self.assertRaises(NotStable):
            design.biquads(np.array([[0.1, 0, 0, 1, -1.99999, 0.99999]]))

    def test_not_stable_at_the_top(self) -> None:
        with self.assertRaises(DesignError):
            design.biquads(np.array([[1.0, 0, 0, 1, 2.1, 1.2]]))
