# SPDX-License-Identifier: Apache-2.0
"""`rokdaum.Host`: its refusals, its arrays, its memory, its threads, and the same answers as the model.

    /usr/bin/python3 -B -m unittest discover -s python/tests -p 'long_*.py'       the same at length: 2,000 scripts, a million creations

SEED seeds the random scripts.
"""

from __future__ import annotations

import functools
import gc
import io
import os
import subprocess
import sys
import tempfile
import threading
from collections.abc import Callable, Iterable
from pathlib import Path
from typing import Any
from unittest import mock

from library_case import PYTHON, REPOSITORY, LibraryCase
from signals import keypad, noise, tone

import numpy as np
import rokdaum
from calls import random_differences
from rokdaum import Host, design, errors, g711, library, maps, operators
from rokdaum.host import Design, Line, options_of
from rokdaum.errors import FloatsRefused, Missing, OutOfRange
from rokdaum_model import companding
from rokdaum_model import operators as model
from rokdaum_model.gateway import GATEWAY
from rokdaum_model.sets import GATEWAY_SET

EXAMPLES = REPOSITORY / "examples" / "python"
SEED = os.environ.get("SEED", "1")
# Seconds after which a thread that says nothing has failed.
PATIENCE = 60
# What memory of the process may grow by, in bytes, where nothing is leaked: less than one host takes, or a thousandth of what would leak.
GROWTH = 400_000


def wrong(value: object) -> Any:
    """A value that a call isn't to be given by its types, to see how it is refused."""
    return value


def resident() -> int:
    """The bytes of this process that are in memory."""
    gc.collect()
    with open("/proc/self/statm", encoding="ascii") as file:
        return int(file.read().split()[1]) * os.sysconf("SC_PAGE_SIZE")


def shown(host: Host) -> list:
    """All that a host tells of itself."""
    return [[host.map(space) for space in library.SPACES], [host.stat(group) for group in range(8)], host.copied(), host.instances, host.lines]


def create_and_delete(times: int) -> int:
    """Makes instances of each kind, refused ones and chains so many times, and deletes them; how many bytes the process grew by."""
    params: dict[str, Iterable[int] | Design] = {"fir": [16384, 1], "decim": [2, 16384], "biquad": [8192, 0, 0, 0, 0], "tone": [27980, 102, 8], "g711": [1, 1], "gain": [4096], "level": [160, 4], "dtmf": design.dtmf()}
    params |= {"echo": [4, 8192, 16384, 240], "adpcm": [32, 0], "signal": [0, 0, 0, 0, 2, 1, 1], "activity": [40, 6, 3, 6, 320, 5]}
    with Host(daram=2048, saram=64) as host:
        for at in range(times):
            if at == times // 10:
                before = resident()
            kind = library.KINDS[at % len(library.KINDS)]
            one = host.create(kind, at % 8, params[kind])
            try:
                host.create("fir", 7, [1] * 64)
            except errors.Room:
                pass
            line = host.chain(one)
            try:
                one.delete()
            except errors.Busy:
                line.unchain()
            one.delete()
        return resident() - before


class Refusals(LibraryCase):
    def setUp(self) -> None:
        self.host = Host(daram=4096, saram=256, external=256, channels=2)
        self.addCleanup(self.host.close)
        self.fir = self.host.create("fir", 0, [16384, 16384])
        self.line = self.host.chain(self.fir)
        self.gone = self.host.create("g711", 0, [0, 0])
        self.gone.delete()
        self.dropped = self.host.chain(self.host.create("biquad", 1, [16384, 0, 0, 0, 0]))
        self.dropped.unchain()
        self.line.feed(noise(100))

    def refuse(self, wanted: type[Exception], text: str, call: Callable[[], object]) -> Exception:
        """A call is refused by an exception with a text, and the host is as it was."""
        before = shown(self.host)
        with self.assertRaisesRegex(wanted, text) as caught:
            call()
        self.assertIs(type(caught.exception), wanted)
        self.assertEqual(shown(self.host), before)
        return caught.exception

    def test_each_refusal(self) -> None:
        host, fir, line, gone = self.host, self.fir, self.line, self.gone
        calls: tuple[tuple[type[Exception], str, Callable[[], object]], ...] = (
            (errors.Range, "0 to 63, and 64", lambda: host.create("fir", 0, [1], 64)),
            (errors.Range, "0 to 7, and 8", lambda: host.create("fir", 8, [1])),
            (errors.Range, "0 to 7, and 256", lambda: host.create("fir", 256, [1])),
            (errors.Range, "0 to 63, and -1", lambda: host.create("fir", 0, [1], -1)),
            (errors.Range, "32768 isn't.*Q14", lambda: host.create("biquad", 0, [0, 32768, 0, 0, 0])),
            (errors.Range, "0 to 1, and 2", lambda: host.chain(1, channel=2)),
            (errors.Range, "0 to 63, and 64", lambda: host.chain(64)),
            (errors.Range, "0 to 7", lambda: host.stat(8)),
            (errors.Range, "0 to 7", lambda: host.release(-1)),
            (errors.Taken, "create 0, a fir", lambda: host.create("fir", 0, [1], 0)),
            (errors.Taken, "members already", lambda: host.chain(1, channel=0)),
            (errors.Missing, "instance 1 doesn't live any more", gone.get),
            (errors.Missing, "instance 1 doesn't live any more", gone.reset),
            (errors.Missing, "instance 1 doesn't live any more", gone.delete),
            (errors.Missing, "instance 1 doesn't live any more", lambda: gone.set([1])),
            (errors.Missing, "instance 1 doesn't live any more", lambda: host.chain(gone)),
            (errors.Missing, "channel 1 has no members any more", self.dropped.unchain),
            (errors.Missing, "channel 1 has no members any more", lambda: self.dropped.feed([1])),
            (errors.Missing, "chain 1 instances", lambda: host.chain(40)),
            (errors.Missing, "instance 40", lambda: host.instance(40)),
            (errors.Missing, "channel 1", lambda: host.line(1)),
            (errors.Params, "five words b0 b1 b2 a1 a2 in Q14", lambda: host.create("biquad", 0, [1, 2])),
            (errors.Params, "2 instances.*create_all", lambda: host.create("biquad", 0, design.low(1000, order=4))),
            (errors.Params, r"\(fir\), and not of one biquad", lambda: host.create("biquad", 0, design.fir("low", [1000], 15))),
            (errors.Busy, "unchain its line first", fir.delete),
            (errors.Busy, "named twice", lambda: host.chain(1, 1)),
            (errors.Busy, "a member of a channel", lambda: host.chain(fir)),
            (errors.Command, "as many coefficients as it has", lambda: fir.set([1])),
            (errors.BadLength, "too many", lambda: host.create("fir", 0, [1] * 73)),
            (errors.BadLength, "1 to 8 members", host.chain),
            (errors.BadKind, "fir, decim, biquad, tone, g711, gain, level, dtmf, echo, adpcm, signal, activity, and not iir", lambda: host.create("iir", 0, [1])),
            (errors.BadSpace, "daram, saram, external, and not rom", lambda: host.map("rom")),
            (errors.BadSpace, "not rom", lambda: host.step("rom")),
            (errors.BadSpace, "not rom", lambda: host.compact("rom")),
            (errors.OutOfRange, "70000", lambda: line.feed([70000])),
            (errors.OutOfRange, "shape", lambda: line.feed(np.zeros((2, 2), np.int16))),
            (TypeError, "integer", lambda: host.create("fir", wrong(0.0), [1])),
            (TypeError, "iterable", lambda: host.create("fir", 0, wrong(1))),
        )
        for wanted, text, call in calls:
            with self.subTest(text=text):
                self.refuse(wanted, text, call)

    def test_room_names_its_space(self) -> None:
        for sizes, text in (({"daram": 1024}, "daram has no room: 0 of 1024 words are used, the largest free range has 1024"), ({"saram": 4}, "saram has no"), ({"external": 0}, "external has no")):
            with Host(**sizes) as host, self.subTest(sizes=sizes):
                before = shown(host)
                with self.assertRaisesRegex(errors.Room, text) as caught:
                    host.create("fir", 0, [1] * 8)
                self.assertEqual(([caught.exception.space], caught.exception.code), ([*sizes], 7))
                self.assertEqual(shown(host), before)

    def test_none_is_free(self) -> None:
        with Host(channels=1) as host:
            made = [host.create("g711", 0, [0, 0]) for _ in range(64)]
            self.assertRaisesRegex(errors.Taken, "all 64 instances", host.create, "g711", 0, [0, 0])
            host.chain(made[0])
            self.assertRaisesRegex(errors.Taken, "all 1 channels", host.chain, made[1])
            made[5].delete()
            self.assertEqual(host.create("g711", 0, [0, 0]).number, 5)

    def test_options(self) -> None:
        for bad in ({"daram": 2}, {"saram": 65540}, {"external": -4}, {"channels": 0}, {"channels": 17}):
            with self.subTest(bad=bad):
                self.assertRaises(errors.BadSize, Host, **bad)
        self.assertRaises(errors.Range, Host, poison=65536)
        sizes = dict.fromkeys(library.SPACES, 4)
        self.assertEqual([(it.poisoned, it.poison) for it in (options_of(sizes, 1, word) for word in (None, 0, 65535, -1, 7))], [(0, 0), (1, 0), (1, -1), (1, -1), (1, 7)])
        with Host(0, 0, 0, 1, 65535) as host:
            self.assertEqual(dict(host.sizes), {"daram": 0, "saram": 0, "external": 0})

    def test_floats(self) -> None:
        for kind, text in (("fir", r"round\(32768 \* value\)"), ("decim", "32768"), ("biquad", r"round\(16384 \* value\)"), ("tone", "cos"), ("g711", "law"), ("gain", r"round\(4096 \* value\)"), ("level", "1,024"), ("dtmf", r"design.dtmf\(\)")):
            with self.subTest(kind=kind):
                self.refuse(errors.FloatsRefused, text, lambda: self.host.create(kind, 0, wrong([0.5, 1])))
                self.refuse(errors.FloatsRefused, text, lambda: self.host.create(kind, 0, np.array([0.5])))
        self.refuse(errors.FloatsRefused, "Q15", lambda: self.fir.set(wrong([0.5, 0.5])))
        self.refuse(errors.FloatsRefused, "from_floats", lambda: self.line.feed(np.array([0.5])))
        self.refuse(errors.FloatsRefused, "from_floats", lambda: self.line.feed([0.25, 1]))

    def test_none_of_a_design_is_left(self) -> None:
        """Of four sections the last two have no group: the first two are deleted."""
        self.refuse(errors.Range, "0 to 7, and 8", lambda: self.host.create_all(design.band(300, 3400, order=4), 6))

    def test_closed(self) -> None:
        self.host.close()
        self.host.close()
        for call in (self.fir.get, self.fir.delete, lambda: self.line.feed([1]), self.line.unchain, lambda: self.host.map("daram"), lambda: self.host.create("fir", 0, [1]), lambda: self.host.instance(0)):
            self.assertRaises(errors.NotOpen, call)
        self.assertEqual(self.host.instances, ())

    def test_closed_by_an_error(self) -> None:
        with self.assertRaises(errors.Params):
            with Host() as host:
                host.create("biquad", 0, [1])
        self.assertRaises(errors.NotOpen, host.map, "daram")

    def test_another_host(self) -> None:
        with Host() as other:
            one = other.create("fir", 0, [1])
            self.refuse(errors.Missing, "another host", lambda: self.host.chain(one))

    def test_the_number_of_one_that_is_gone(self) -> None:
        """An instance that was deleted isn't the one that has its number now."""
        self.line.unchain()
        self.fir.delete()
        new = self.host.create("fir", 0, [1, 2], self.fir.number)
        self.assertRaises(errors.Missing, self.fir.get)
        self.assertEqual(new.get().tolist(), [1, 2])


class Arrays(LibraryCase):
    def test_types(self) -> None:
        """Whole numbers of any type, lists, views and nothing at all go in; int16 comes out."""
        for given in ([100, -200], (100, -200), np.array([100, -200]), np.array([100, 0, -200, 0], ">i4")[::2], np.array([100, -200], "<i2")):
            with Host() as host:
                out = host.chain(host.create("fir", 0, [16384])).feed(given)
                self.assertEqual((out.tolist(), out.dtype, out.shape), ([50, -100], np.dtype(np.int16), (2,)))
        with Host() as host:
            line = host.chain(host.create("fir", 0, [16384]))
            self.assertEqual((line.feed([]).shape, line.feed(np.empty(0, np.int16)).dtype), ((0,), np.dtype(np.int16)))

    def test_input_stays(self) -> None:
        given = noise(3000)
        kept = given.copy()
        with Host() as host:
            out = host.chain(host.create("fir", 0, [16384])).feed(given)
        self.assertTrue((given == kept).all())
        self.assertFalse(np.shares_memory(given, out))

    def test_cuts_do_not_show(self) -> None:
        """One call, calls of odd lengths, and calls of one sample give the same."""
        given = noise(5000, peak=30000)
        kinds: tuple[tuple[str, Iterable[int] | Design], ...] = (("fir", design.fir("low", [1000], 31)), ("decim", [3, 9000, 9000, 9000]), ("biquad", design.low(800, order=2)), ("tone", [27980, 102, 8]), ("g711", [1, 0]), ("gain", [-9000]), ("level", [80, 4]), ("dtmf", design.dtmf("b")))
        for kind, params in kinds:
            whole, *others = (self.cut(kind, params, given, length) for length in (5000, 1, 7, 160, 1024, 1025, 4999))
            self.assertGreater(len(whole), 40)
            for other in others:
                self.assertEqual(other.tolist(), whole.tolist(), kind)

    @staticmethod
    def cut(kind: str, params: Iterable[int] | Design, given: np.ndarray, length: int) -> np.ndarray:
        """The output for a signal that is cut into calls of a length."""
        with Host() as host:
            line = host.chain(host.create(kind, 0, params))
            return np.concatenate([line.feed(given[at : at + length]) for at in range(0, len(given), length)])

    def test_controls(self) -> None:
        with Host() as host:
            fir, tone_, law = host.create("fir", 0, [16384, 1]), host.create("tone", 0, [27980, 102, 8]), host.create("g711", 0, [1, 0])
            fir.set(np.array([-32768, 32767]))
            self.assertEqual((fir.get().tolist(), fir.get().dtype), ([-32768, 32767], np.dtype(np.int16)))
            line = host.chain(tone_)
            line.feed(noise(150))
            self.assertEqual(tone_.get().tolist(), [48])
            tone_.reset()
            self.assertEqual((tone_.get().tolist(), law.get().tolist()), ([0], [1, 0]))

    def test_a_band_is_heard(self) -> None:
        """The gain of a band at tones is that of its response."""
        band = design.band(300, 3400)
        for frequency in (150, 1000, 3800):
            with Host() as host, self.subTest(frequency=frequency):
                given = tone(frequency, 8000, 8000)
                out = host.chain(*host.create_all(band)).feed(given)
                gain = 20 * np.log10(out[4000:].std() / given[4000:].std())
                self.assertAlmostEqual(gain, float(design.decibels(band.response([frequency]))[0]), delta=0.1)

    def test_companding(self) -> None:
        with Host() as host:
            codes = host.chain(host.create("g711", 0, [1, 0])).feed([0, 1000, -1000])
            back = host.chain(host.create("g711", 0, [1, 1])).feed(codes.astype(np.uint8))
        self.assertEqual(back.tolist(), [0, 988, -988])

    def test_groups_take_turns(self) -> None:
        with Host() as host:
            first, second = (host.chain(host.create("fir", 3, [16384])) for _ in range(2))
            self.assertEqual(host.stat(3), (None, 0))
            first.feed([1])
            second.feed([1])
            self.assertEqual(host.stat(3), (1, 2))
            self.assertEqual([host.release(3), host.release(3)], [True, False])


class Columns(LibraryCase):
    """Arrays of two dimensions, and streams."""

    def test_a_column_for_each_line(self) -> None:
        given = np.stack([noise(3000), noise(3000)[::-1]], axis=1)
        with Host() as host, Host() as other:
            for it in (host, other):
                for words in ([16384], [8192, 8192]):
                    it.chain(it.create("fir", params=words))
            out = host.feed(given)
            self.assertEqual((out.shape, out.dtype), ((3000, 2), np.dtype(np.int16)))
            for at, line in enumerate(other.lines):
                np.testing.assert_array_equal(out[:, at], line.feed(given[:, at]))
            second, first = host.lines[1], host.lines[0]
            turned = host.feed(given, second, first)
            np.testing.assert_array_equal(turned[:, 0], other.lines[1].feed(given[:, 0]))

    def test_what_has_no_columns(self) -> None:
        """Refused before anything is fed."""
        with Host() as host:
            host.chain(host.create("fir", params=[16384, 16384]))
            slow = host.chain(host.create("decim", params=[2, 32767]))
            for wrong in (np.zeros((5, 2), np.int16), np.zeros((5, 3), np.int16), np.zeros(5, np.int16), np.zeros((2, 5), np.int16)):
                with self.assertRaises(OutOfRange):
                    host.feed(wrong)
            with self.assertRaises(FloatsRefused):
                host.feed(np.full((5, 1), 0.5), host.lines[0])
            with self.assertRaises(OutOfRange):
                host.feed(np.array([[100], [40000]]), host.lines[0])
            self.assertEqual(host.feed(np.array([[100], [200]]), host.lines[0]).tolist(), [[50], [150]])
            slow.unchain()
            with self.assertRaises(Missing):
                host.feed(np.zeros((5, 1), np.int16), slow)

    def test_streams(self) -> None:
        given = noise(5001)
        with Host() as host:
            half = host.create("fir", params=[16384, 3])
            line = host.chain(half)
            want = line.feed(given)
            for source, block in ((io.BytesIO(given.astype("<i2").tobytes() + b"x"), 160), ([given[:7], [], given[7:]], 1), ((it for it in np.array_split(given, 9)), 1024)):
                half.reset()
                np.testing.assert_array_equal(np.concatenate(list(line.stream(source, block))), want)
            half.reset()
            made = line.stream(io.BytesIO(given.astype("<i2").tobytes()), 100)
            np.testing.assert_array_equal(next(made), want[:100])
            with self.assertRaises(OutOfRange):
                next(line.stream([], 0))

    def test_a_pipe_block_by_block(self) -> None:
        reader, writer = os.pipe()
        with Host() as host, open(reader, "rb", buffering=0) as source:
            made = host.chain(host.create("fir", params=[16384])).stream(source, 80)
            for _ in range(3):
                os.write(writer, np.full(50, 8, "<i2").tobytes())
                os.write(writer, np.full(30, 8, "<i2").tobytes())
                self.assertEqual(next(made).tolist(), [4] * 80)
            os.write(writer, np.full(5, 8, "<i2").tobytes())
            os.close(writer)
            self.assertEqual([it.tolist() for it in made], [[4] * 5])


class Kinds(LibraryCase):
    """Gains, meters of energy and detectors of digits, beside the model and beside plain arithmetic."""

    def test_beside_the_model(self) -> None:
        given = np.concatenate([noise(3000, peak=peak) for peak in (100, 3000, 32000)] + [keypad("147*2580369#ABCD"), np.full(1000, -32768, np.int16)])
        for kind, words in (("gain", (5000,)), ("gain", (-32768,)), ("level", (160, 4)), ("level", (1, 0)), ("level", (1024, 15)), ("dtmf", design.DTMF_SETS["a"][0]), ("dtmf", design.DTMF_SETS["b"][0])):
            with Host() as host, self.subTest(kind=kind, words=words):
                out = host.chain(host.create(kind, params=words)).feed(given)
                self.assertEqual(out.tolist(), GATEWAY[kind].start(words, "running").process(given.tolist()))

    def test_gain(self) -> None:
        with Host() as host:
            one = host.create("gain", params=design.gain(6))
            line = host.chain(one)
            self.assertEqual(line.feed([1000, -1000, 30000]).tolist(), [1995, -1995, 32767])
            one.set(design.gain(-20))
            self.assertEqual((one.get().tolist(), line.feed([1000]).tolist()), ([410], [100]))
            self.assertRaisesRegex(errors.Command, "one word, the factor", one.set, [1, 2])

    def test_level(self) -> None:
        for frame in (1, 4, 160, 1024):
            meter, given = design.level(frame), noise(4096, peak=30000)
            with Host() as host, self.subTest(frame=frame):
                out = host.chain(host.create("level", params=meter)).feed(given)
                self.assertEqual(out.shape, (len(given) // frame,))
                wanted = np.sqrt((given[: len(out) * frame].astype(float).reshape(-1, frame) ** 2).mean(axis=1))
                np.testing.assert_allclose(meter.rms(out), wanted, atol=400)
                self.assertLess(host.line(0).feed([-32768] * frame).max(), 32767)

    def test_digits(self) -> None:
        for name in design.DTMF_SETS:
            receiver = design.dtmf(name)
            with Host() as host, self.subTest(name=name):
                line = host.chain(host.create("dtmf", params=receiver))
                self.assertEqual(receiver.dialled(line.feed(keypad("0123456789ABCD*#55"))), "0123456789ABCD*#55")
                self.assertEqual(receiver.dialled(line.feed(noise(8000, peak=8000))), "")

    def test_as_it_was_asked_for(self) -> None:
        """A band of one section is one biquad."""
        samples = noise(8000)
        with rokdaum.Host(daram=4096) as host:
            band = host.create("biquad", group=0, params=rokdaum.design.bandpass(300, 3400, rate=8000))
            line = host.chain(band)
            out = line.feed(samples)
            host.map("daram").plot()
        self.assertEqual((out.dtype, out.shape), (np.dtype(np.int16), (8000,)))
        with rokdaum.Host() as host:
            self.assertRaisesRegex(errors.Params, "3 instances.*create_all", host.create, "biquad", 0, design.bandpass(300, 3400, order=3))


class WithoutHost(LibraryCase):
    """G.711 and operators over arrays, beside the model's."""

    def test_companding(self) -> None:
        every = np.arange(-32768, 32768)
        for law, number in (("a", companding.LAW_A), ("mu", companding.LAW_MU)):
            codes = g711.encode(every, law)
            self.assertEqual((codes.tolist(), codes.dtype), ([companding.encode(number, x) for x in every.tolist()], np.dtype(np.uint8)))
            back = g711.decode(range(256), law)
            self.assertEqual((back.tolist(), back.dtype), ([companding.decode(number, code) for code in range(256)], np.dtype(np.int16)))
        self.assertEqual((g711.encode([]).shape, g711.decode([]).shape), ((0,), (0,)))

    def test_operators(self) -> None:
        a, b = noise(3000, 1, 32768), noise(3000, 2, 32768)
        for pair, pair_model in ((operators.add, model.add), (operators.sub, model.sub)):
            self.assertEqual(pair(a, b).tolist(), [pair_model(x, y) for x, y in zip(a.tolist(), b.tolist())])
        by_one: tuple[tuple[Callable[..., np.ndarray], Callable[[int, int], int]], ...] = (
            (operators.shl, model.shl), (operators.shr, model.shr), (operators.mult, model.mult))
        for n in (-32768, -17, -3, 0, 1, 7, 15, 16, 32767):
            for ours, theirs in by_one:
                self.assertEqual(ours(a, n).tolist(), [theirs(x, n) for x in a.tolist()])
        wanted = -7
        for x, y in zip(a.tolist(), b.tolist()):
            wanted = model.l_mac(wanted, x, y)
        self.assertEqual((operators.l_mac(-7, a, b), operators.l_mac(5, [], [])), (wanted, 5))
        self.assertEqual([operators.div_s(x, y) for x, y in ((1, 2), (5, 5), (0, 9))], [model.div_s(x, y) for x, y in ((1, 2), (5, 5), (0, 9))])

    def test_fir(self) -> None:
        """Without a host it gives what an instance gives, however it is cut."""
        given = noise(2500, peak=30000)
        for taps in ([32767], [1000, -2000, 3000], [511] * 64):
            with Host() as host, self.subTest(taps=len(taps)):
                wanted = host.chain(host.create("fir", params=taps)).feed(given)
            self.assertEqual(operators.fir(taps, given).tolist(), wanted.tolist())
            self.assertEqual(operators.fir(taps, given[700:], given[:700]).tolist(), wanted[700:].tolist())
            self.assertEqual(operators.fir(taps, given[2:], given[:2]).tolist(), wanted[2:].tolist())

    def test_refusals(self) -> None:
        for wanted, text, call in (
            (errors.FloatsRefused, "from_floats", lambda: g711.encode([0.5])),
            (errors.OutOfRange, "a or mu", lambda: g711.encode([1], "u")),
            (errors.OutOfRange, "a byte is 0 to 255", lambda: g711.decode([256])),
            (errors.OutOfRange, "one length", lambda: operators.add([1], [1, 2])),
            (errors.OutOfRange, "a gain is", lambda: operators.mult([1], 32768)),
            (errors.OutOfRange, "32 bits", lambda: operators.l_mac(1 << 31, [1], [1])),
            (errors.Params, "div_s takes", lambda: operators.div_s(3, 2)),
            (errors.BadLength, "1 to 64 coefficients, and 65", lambda: operators.fir([1] * 65, [1])),
            (errors.BadLength, "and 0 are", lambda: operators.fir([], [1])),
            (errors.DesignError, "18.06 dB", lambda: design.gain(18.07)),
            (errors.DesignError, "-80 dB", lambda: design.gain(-80)),
            (errors.DesignError, "1 to 1024", lambda: design.level(1025)),
            (errors.DesignError, "a or b", lambda: design.dtmf("c")),
            (TypeError, "integer", lambda: operators.shl([1], wrong(0.5))),
        ):
            with self.subTest(text=text):
                self.assertRaisesRegex(wanted, text, call)


class Memory(LibraryCase):
    def test_map(self) -> None:
        with Host(daram=4096) as host:
            host.create("fir", 0, [1, 2, 3])
            host.chain(host.create("decim", 1, [2, 16384]), 0).feed(noise(10))
            found = host.map("daram")
            self.assertEqual(found.blocks, maps.parse_map("ok g0@0+1028 g1@1040+1024", 4096).blocks)
            self.assertEqual((found.used, found.largest_hole, dict(found.active)), (2052, 2032, {0: 0, 1: 1}))
            owner, place, size = found.blocks[1]
            self.assertEqual((owner, place, size, found.blocks[1].number), ("g1", 1040, 1024, 1))

    def test_moves(self) -> None:
        with Host() as host:
            made = [host.create("fir", group, [1] * 8) for group in range(3)]
            made[0].delete()
            moved = host.step("daram"), host.compact("daram"), host.step("daram")
            self.assertEqual(moved, (True, 1, False))
            self.assertEqual([it.place for it in host.map("daram").blocks], [0, 1040])
            self.assertEqual(host.copied(), 2064)

    def test_plot(self) -> None:
        with Host(daram=4096) as host:
            host.chain(host.create("fir", 2, [1] * 8)).feed([1])
            axes = host.map("daram").plot()
            self.assertEqual([it.get_text() for it in axes.texts], ["g2: i0"])
            self.assertEqual(len(axes.patches), 1)
            self.assertIs(host.map("saram").plot(axes), axes)
            self.assertEqual(host.moment(4, "feed").maps["daram"], host.map("daram"))

    def test_creations_and_deletions_leak_nothing(self) -> None:
        self.assertLess(create_and_delete(20_000), GROWTH)

    def test_hosts_leak_nothing(self) -> None:
        """Hosts that are closed, and hosts that nobody closes, give their half a megabyte back."""
        for at in range(400):
            if at == 40:
                before = resident()
            with Host() as host:
                host.chain(host.create("fir", 0, [1])).feed(noise(10))
            left = Host()
            left.chain(left.create("fir", 0, [1]))
            if at % 10 == 0:
                gc.collect()
        del left
        self.assertLess(resident() - before, 4_000_000)


class Held:
    """The library, whose feeds go on once they may."""

    def __init__(self, library: object) -> None:
        self._library, self.begun, self.may_go_on = library, threading.Event(), threading.Event()

    def __getattr__(self, name: str) -> object:
        return getattr(self._library, name)

    def rokdaum_feed_all(self, *arguments: object) -> object:
        """Begins, waits, and feeds."""
        self.begun.set()
        self.may_go_on.wait(PATIENCE)
        return getattr(self._library, "rokdaum_feed_all")(*arguments)


class Threads(LibraryCase):
    def test_a_host_in_each(self) -> None:
        """Eight threads with a host each give what they give one after the other."""
        wanted = [self.work(seed) for seed in range(8)]
        found: list[list[int]] = [[]] * 8

        def run(seed: int) -> None:
            found[seed] = self.work(seed)

        threads = [threading.Thread(target=run, args=(seed,)) for seed in range(8)]
        for one in threads:
            one.start()
        for one in threads:
            one.join()
        self.assertEqual(found, wanted)

    @staticmethod
    def work(seed: int) -> list[int]:
        """What a host with a band gives for noise, and how often it took turns."""
        with Host(daram=4096) as host:
            line, other = host.chain(*host.create_all(design.biquads(np.array([[0.5, 0, 0, 1, -0.5 - seed / 20, 0.3]] * 3)))), host.chain(host.create("fir", 0, [seed]))
            given = noise(20_000, seed)
            out = [line.feed(given[:9999]), other.feed(given), line.feed(given[9999:])]
            return [int(np.abs(it.astype(int)).sum()) for it in out] + [host.stat(0).activations]

    def test_handed_on(self) -> None:
        """A host that eight threads feed by turns, under a lock, and another one closes."""
        host, lock, found = Host(poison=21845), threading.Lock(), []
        lines = [host.chain(host.create("fir", at // 2, [16384, 16384])) for at in range(8)]

        def feed(line: Line) -> None:
            for _ in range(100):
                with lock:
                    found.append(line.feed([2, 4, 0]).tolist())
                    host.compact("saram")

        feeds = [functools.partial(feed, line) for line in lines]
        works: tuple[list[Callable[[], None]], ...] = ([*feeds], [host.close])
        for work in works:
            threads = [threading.Thread(target=one) for one in work]
            for one in threads:
                one.start()
            for one in threads:
                one.join()
        self.assertEqual(found, [[1, 3, 2]] * 800)
        self.assertRaises(errors.NotOpen, host.map, "daram")

    def test_at_once(self) -> None:
        """While one thread feeds, each call of another gets WrongThread, and the feed goes on."""
        said, heard = [], []
        with Host() as host:
            one = host.create("fir", 0, [16384])
            line, held = host.chain(one), Held(host._library)
            with mock.patch.object(host, "_library", held):
                thread = threading.Thread(target=lambda: heard.append(line.feed([200]).tolist()))
                thread.start()
                self.assertTrue(held.begun.wait(PATIENCE))
                for call in (lambda: host.map("daram"), lambda: line.feed([1]), one.get, host.close):
                    with self.assertRaises(errors.WrongThread) as raised:
                        call()
                    said.append(str(raised.exception))
                held.may_go_on.set()
                thread.join()
            self.assertEqual((heard, line.feed([100]).tolist()), ([[100]], [50]))
        self.assertEqual(said, ["another call of this host is under way: threads that share a host order their calls, by a lock for instance"] * 4)


class Finding(LibraryCase):
    def said(self, code: str, **variables: str) -> str:
        """The last line of what a Python says."""
        done = subprocess.run([sys.executable, "-B", "-c", code], env={**os.environ, "PYTHONPATH": str(PYTHON), **variables}, capture_output=True, text=True, check=False)
        return (done.stdout + done.stderr).strip().splitlines()[-1]

    def test_a_variable_names_another(self) -> None:
        for name, text in (("/nowhere/librokdaum.so", "ROKDAUM_LIBRARY names /nowhere/librokdaum.so.*make -C c"), ("libc.so.6", "libc.so.6 is no librokdaum.so")):
            self.assertRegex(self.said("import rokdaum; rokdaum.Host()", ROKDAUM_LIBRARY=name), f"^rokdaum.errors.LibraryMissing: .*{text}")

    def test_the_loader_knows_it(self) -> None:
        """With the package alone in a folder, LD_LIBRARY_PATH finds it, and without it a sentence says where it was looked for."""
        code = f"import sys; sys.path[0] = ''; import shutil, tempfile, os; room = tempfile.mkdtemp(); shutil.copytree({str(PYTHON / 'rokdaum')!r}, room + '/rokdaum'); sys.path.insert(0, room)\n"
        code += "try:\n    import rokdaum; print(rokdaum.Host().sizes)\nfinally:\n    shutil.rmtree(room)"
        folder = str(os.path.dirname(library.load()._name))
        self.assertRegex(self.said(code, PYTHONPATH="", ROKDAUM_LIBRARY="", LD_LIBRARY_PATH=folder), "^{'daram': 65536")
        self.assertRegex(self.said(code, PYTHONPATH="", ROKDAUM_LIBRARY="", LD_LIBRARY_PATH=""), "LibraryMissing: .*isn't beside the package.*make -C c")

    def test_version(self) -> None:
        with mock.patch.object(library, "__version__", "0.0.1"):
            self.assertRaisesRegex(errors.LibraryMissing, "and this package is 0.0.1", library.load.__wrapped__)

    def test_names(self) -> None:
        for name in rokdaum.__all__:
            self.assertIsNotNone(getattr(rokdaum, name))
        self.assertRaises(AttributeError, getattr, rokdaum, "Hosts")
        for code, one in errors.REFUSALS.items():
            self.assertEqual(one.code, code)


class Examples(LibraryCase):
    """The examples in Python, run as their first lines say. The picture that stands beside each is what it draws."""

    def said(self, name: str, *words: str) -> list[str]:
        """The lines that an example prints; it ends with status 0."""
        done = subprocess.run([sys.executable, "-B", str(EXAMPLES / name), *words], capture_output=True, text=True, check=False)
        self.assertEqual((done.returncode, done.stderr), (0, ""))
        return done.stdout.splitlines()

    def look_at(self, drawn: str) -> None:
        """What was drawn is the picture that is kept, but for how letters and lines are smoothed."""
        try:
            from matplotlib.image import imread
        except ImportError:
            self.fail("matplotlib isn't installed")
        made, kept = imread(drawn), imread(EXAMPLES / Path(drawn).name)
        self.assertEqual(made.shape, kept.shape)
        self.assertLess(np.abs(made - kept).mean(), 0.02)

    def test_telephone_band(self) -> None:
        with tempfile.TemporaryDirectory(prefix="rokdaum-test-") as room:
            rokdaum.samples.write(f"{room}/in.wav", noise(80_000, 2))
            picture = f"{room}/telephone_band.png"
            for words in ((picture,), (f"{room}/in.wav", f"{room}/out.wav"), (f"{room}/in.wav", f"{room}/out.wav", f"{room}/own.svg")):
                for line in self.said("telephone_band.py", *words)[1:]:
                    _, heard, designed = map(float, line.split())
                    self.assertAlmostEqual(heard, designed, delta=1)
            self.assertEqual(rokdaum.samples.read(f"{room}/out.wav")[0].shape, (80_000,))
            self.assertGreater(os.path.getsize(f"{room}/own.svg"), 10_000)
            self.look_at(picture)

    def test_dialled_digits(self) -> None:
        with tempfile.TemporaryDirectory(prefix="rokdaum-test-") as room:
            self.assertEqual(self.said("dialled_digits.py", "--picture", f"{room}/dialled_digits.png"), ["0123456789"])
            self.look_at(f"{room}/dialled_digits.png")
            for name, keys in (("a.wav", "12*#"), ("b.raw", "99")):
                rokdaum.samples.write(f"{room}/{name}", np.concatenate([np.zeros(1000, np.int16), keypad(keys)]))
            self.assertEqual(self.said("dialled_digits.py", f"{room}/a.wav", f"{room}/b.raw"), ["12*#", "99"])

    def test_dialled_digits_over_ten_minutes(self) -> None:
        keys = "".join(np.random.default_rng(list(SEED.encode())).choice(list(design.KEYS), 5_000))
        with tempfile.TemporaryDirectory(prefix="rokdaum-test-") as room:
            samples = keypad(keys)
            self.assertEqual(len(samples), 600 * 8_000)
            rokdaum.samples.write(f"{room}/long.wav", samples)
            self.assertEqual(self.said("dialled_digits.py", f"{room}/long.wav"), [keys])

    def test_companding(self) -> None:
        """Both laws keep the ratio over 30 dB; what is heard is what the blocks of G.711 without a host give."""
        with tempfile.TemporaryDirectory(prefix="rokdaum-test-") as room:
            said = self.said("companding.py", f"{room}/companding.png")
            self.look_at(f"{room}/companding.png")
        rows = {int(line.split()[0]): [float(it) for it in line.split()[1:]] for line in said[1:]}
        for law in (0, 1):
            self.assertLess(max(rows[level][law] for level in (0, -10, -20, -30)) - min(rows[level][law] for level in (0, -10, -20, -30)), 5)
        self.assertGreater(rows[0][2] - rows[-30][2], 25)
        sent = rokdaum.samples.from_floats(0.1 * np.sin(2 * np.pi * 1020 / 8000 * np.arange(8000)))
        for law, name in enumerate(("mu", "a")):
            added = g711.decode(g711.encode(sent, name), name).astype(float) - sent
            self.assertAlmostEqual(10 * np.log10((sent.astype(float) ** 2).sum() / (added**2).sum()), rows[-20][law], delta=0.06)

    def test_live_line(self) -> None:
        with tempfile.TemporaryDirectory(prefix="rokdaum-test-") as room:
            said = self.said("live_line.py", "measure", "2", f"{room}/live_line.png")
            self.assertGreater(os.path.getsize(f"{room}/live_line.png"), 10_000)
        self.assertEqual(said[-1], "the samples are those of one feed")
        self.assertEqual(said[0].split(" ms ")[0], "100 blocks of 20")

    def test_sixteen_lines(self) -> None:
        with tempfile.TemporaryDirectory(prefix="rokdaum-test-") as room:
            said = self.said("sixteen_lines.py", f"{room}/sixteen_lines.png")
            self.look_at(f"{room}/sixteen_lines.png")
        self.assertEqual(said[-1], "the outputs are the same")
        self.assertEqual([line.split(", ")[0] for line in said[:2]], ["8 scratch groups: 8704 words of daram", "1 scratch group: 1088 words of daram"])


class Model(LibraryCase):
    def test_random_scripts_of_a_gateway(self) -> None:
        found, counted = random_differences(SEED, 100, GATEWAY_SET)
        self.assertEqual(found, [])
        self.assertGreater(min(counted[kind] for kind in library.KINDS), 5)

    def test_random_scripts(self) -> None:
        found, counted = random_differences(SEED, 200)
        self.assertEqual(found, [])
        self.assertGreater(min(counted[verb] for verb in ("create", "control", "delete", "chain", "unchain", "feed", "step", "compact", "map", "release", "stat")), 20)
        self.assertGreater(min(counted["granted"], counted["refused"]), 500)
