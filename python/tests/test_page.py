# SPDX-License-Identifier: Apache-2.0
"""The page of a history, as a headless Chromium shows it."""

from __future__ import annotations

import json
import random
import re
import shutil
import subprocess
import sys
import tempfile
import unittest
from collections import Counter
from pathlib import Path

import browser
from case import PYTHON, REPOSITORY, Case, noise

from rokdaum import maps, memory, page
from rokdaum.explain import Circuit, Instance
from rokdaum.ports import Settings

LONGEST_SCRIPT = 60_000
SHOWN = ("compaction", "shared_scratch", "sixteen_lines", "no_room")


def page_of(name: str, folder: Path) -> str:
    """The page of an example, made in a folder of its own by a run there."""
    shutil.copytree(REPOSITORY / "examples" / name, folder)
    words = (folder / "arguments").read_text().split()
    subprocess.run([sys.executable, "-B", str(PYTHON / "bin" / "dsp_run"), "--quiet", "--history", "h.json", *words], cwd=folder, capture_output=True, check=False)
    return page.html_of(maps.History.from_json((folder / "h.json").read_text()), f"examples/{name}")


class Data(Case):
    def test_the_page_is_one_file(self) -> None:
        """It names no other file, and its script is small."""
        text = page.TEMPLATE.read_text(encoding="utf-8")
        self.assertEqual(re.findall(r"\b(?:src|href)=|@import|url\((?!#)|https?:|fetch\(|XMLHttp", text), [])
        self.assertLess(len(text.encode()), LONGEST_SCRIPT)

    def test_text_stays_text(self) -> None:
        history = maps.History()
        history.said.append(maps.Said(1, "</script><b>&", "no 2 syntax", "<i>"))
        made = page.html_of(history, "</title><b>")
        self.assertNotIn("</script><b>", made)
        self.assertNotIn("</title><b>", made)
        held = re.search(r'<script type="application/json" id="run">(.*?)</script>', made)
        assert held
        self.assertEqual(json.loads(held[1])["lines"], [[1, "</script><b>&", "no 2 syntax", "<i>"]])

    def test_lives(self) -> None:
        said = [maps.Said(at, text, "ok") for at, text in enumerate(("create 0 fir 1 5", "chain 0 0", "unchain 0", "delete 0", "create 0 biquad 0 1 2 3 4 5"), 1)]
        lives, chains = page.circuit_of(said)
        self.assertEqual(lives, [[0, ["fir", 1, [5]], 1, 4], [0, ["biquad", 0, [1, 2, 3, 4, 5]], 5, 6]])
        self.assertEqual(chains, [[0, [0], 2, 3]])

    def test_each_reply_is_kept(self) -> None:
        self.write("a", noise(100))
        result = self.run_text("create 0 fir 0 1\nfly\nchain 0 0\nfeed 0 all 30\n", "a", "x", history=True)
        assert result.history
        self.assertEqual([(it.line, it.reply) for it in result.history.said], [(1, "ok"), (2, "no 2 syntax"), (3, "ok"), (4, "ok 100")])
        self.assertTrue(result.history.said[1].why)
        self.assertEqual(maps.History.from_json(result.history.to_json()), result.history)


class BesideExamples(Case):
    def test_each_page_is_what_would_be_made(self) -> None:
        """examples/NAME/memory.html, by the commands that its README names: python/tests/test_page.py --write makes them anew."""
        for name in SHOWN:
            with self.subTest(example=name):
                self.assertEqual((REPOSITORY / "examples" / name / "memory.html").read_text(), page_of(name, self.room / name))


class Wants(Case):
    KINDS = (
        lambda it: f"fir {it.randrange(8)} " + "300 " * it.randrange(1, 65), lambda it: f"biquad {it.randrange(8)} 8192 16384 8192 23864 10482", lambda it: f"tone {it.randrange(8)} 27980 102 8",
        lambda it: f"decim {it.randrange(8)} {it.randrange(1, 17)} " + "300 " * it.randrange(1, 12), lambda it: f"g711 {it.randrange(8)} {it.randrange(2)} {it.randrange(2)}",
    )  # fmt: skip

    def script(self, lines: int) -> str:
        """Creations and deletions by chance, with compactions between them."""
        chance = random.Random(7)
        return "".join(
            f"create {chance.randrange(64)} {chance.choice(self.KINDS)(chance)}\n" if chance.random() < 0.6 else f"delete {chance.randrange(64)}\n" if chance.random() < 0.8 else f"step {chance.choice(maps.SPACES)}\n"
            for _ in range(lines)
        )

    def test_what_a_creation_wants(self) -> None:
        """A creation that is granted places what the page says, where it says so; one without room is one for which the page finds none."""
        self.write("a", noise(10))
        history = self.run_text(self.script(1200), "a", "x", settings=Settings(daram=5200, saram=800, external=640), history=True).history
        assert history
        circuit, now, counted = Circuit(), page.emptied(history), Counter[str]()
        at = {one.line: one.maps for one in history.moments}
        for line, text, reply, _ in history.said:
            words = text.split()
            if words[0] == "create" and reply in ("ok", "no 7 room"):
                found = memory.placed(circuit.instances, now, Instance(words[2], int(words[3]), tuple(map(int, words[4:]))), int(words[1]))
                counted[reply] += 1
                if reply == "ok":
                    fresh = [{(space, it.place, it.size) for space in shown for it in shown[space].blocks} for shown in (now, at[line])]
                    self.assertEqual({(want.space, place, want.size) for want, place in found}, fresh[1] - fresh[0], text)
                else:
                    self.assertIn(None, [place for _, place in found], text)
            if words[0] in ("create", "delete") and reply == "ok":
                circuit.follow(words, reply, "")
            now = dict(at.get(line, now))
        self.assertGreater(min(counted["ok"], counted["no 7 room"]), 100)


@unittest.skipIf(browser.find() is None, "there is no Chromium: apt-get install chromium")
class Shown(Case):
    def of_example(self, name: str) -> tuple[Path, maps.History]:
        """The page of an example, by the commands, and its history."""
        for path in (REPOSITORY / "examples" / name).iterdir():
            self.write(path.name, path.read_bytes())
        self.command("dsp_run", "--history", "h.json", *(self.room / "arguments").read_text().split())
        done = self.command("dsp_map", "h.json", "--html", "h.html")
        self.assertEqual((done.returncode, done.stdout, done.stderr), (0, "", ""))
        return self.room / "h.html", maps.History.from_json((self.room / "h.json").read_text())

    def blocks(self, shown: browser.Browser, space: str) -> list[maps.Block]:
        """The blocks of a space that the page shows now."""
        return [maps.Block(it["owner"], int(it["place"]), int(it["size"])) for it in shown.data(f'[data-space="{space}"] .block')]

    def test_each_step_of_the_examples(self) -> None:
        """Behind each line the page shows the blocks and the reply that the history has; it throws nothing, and asks for nothing but itself."""
        for name in SHOWN:
            path, history = self.of_example(name)
            with self.subTest(example=name), browser.Browser() as shown:
                shown.open(path)
                stands: dict[str, tuple[maps.Block, ...]] = {}
                for said in history.said:
                    shown.press("ArrowRight")
                    stands.update({space: it.blocks for one in history.moments if one.line == said.line for space, it in one.maps.items()})
                    self.assertEqual(shown.text("#said h2"), f"line {said.line}")
                    self.assertEqual(shown.text("#reply"), said.reply)
                    for space in shown.get('[...document.querySelectorAll("[data-space]")].map((it) => it.dataset.space)'):
                        self.assertEqual(self.blocks(shown, space), list(stands.get(space, ())), f"{said} {space}")
                shown.press("ArrowRight")
                self.assertEqual(shown.text("#said h2"), f"line {history.last}")
                self.assertEqual((shown.thrown, set(shown.asked)), ([], {path.resolve().as_uri()}))

    def test_a_move(self) -> None:
        path, _ = self.of_example("compaction")
        with browser.Browser() as shown:
            shown.open(path)
            for key, line in (("r", 8), (".", 9), (",", 8), ("End", 22), ("Home", 0), ("r", 8), ("ArrowRight", 9)):
                shown.press(key)
                self.assertEqual(shown.get("document.body.dataset.step"), str(line), key)
            self.assertEqual(shown.data(".move"), [{"owner": "g2", "from": "2080", "to": "1040", "size": "1028"}])
            self.assertEqual(shown.texts("#said li"), ["g2 moved in daram from word 2,080 to 1,040: 1,028 words copied, while i2 is active in it."])
            self.assertEqual(shown.text('[data-space="daram"] .numbers'), "2,056 used; 2 gaps, the largest of 2,028")
            self.assertEqual(shown.texts('[data-space="daram"] .value'), ["2,056", "2,028"])
            shown.hover('[data-owner="i2.r1"].block')
            self.assertEqual(shown.text("#tip"), "i2.r1 in saram, 8 wordsfrom word 8 to 15record 1 of instance 2, a fir of group 2: its coefficients and past samples, kept while it is idle")
            shown.get('(() => { const it = document.getElementById("slide"); it.value = 15; it.oninput(); })()')
            self.assertEqual([it["owner"] for it in shown.data(".move")], ["i2.r1", "i3.r1"])

    def test_who_is_active(self) -> None:
        path, history = self.of_example("shared_scratch")
        with browser.Browser() as shown:
            shown.open(path, 420)
            for said in history.said[:7]:
                shown.press("ArrowRight")
            self.assertEqual(shown.texts("#said li"), ["In group 0 i0 is deactivated, and i1 is active now."])
            self.assertEqual(shown.texts('[data-owner="g0"] text'), ["g0 · i1"])
            self.assertIn("i1 ●", shown.text("#who"))

    def test_no_room(self) -> None:
        """Of a refused creation the page says what found no place."""
        path, _ = self.of_example("no_room")
        with browser.Browser() as shown:
            shown.open(path)
            shown.press("r")
            self.assertEqual(shown.text("#said h2"), "line 2")
            wanted = "It wants 1,028 words of daram for the scratch memory of its group, at a multiple of 16, and no gap has them: the largest has 4."
            self.assertEqual(shown.texts("#said li"), [wanted])
            self.assertEqual(shown.data(".wanted"), [{"size": "1028"}])

    def test_nothing_is_wider_than_the_window(self) -> None:
        path, _ = self.of_example("sixteen_lines")
        with browser.Browser() as shown:
            for wide, look in ((1280, "light"), (420, "dark")):
                shown.open(path, wide, look=look)
                shown.press("End")
                self.assertLessEqual(shown.get("document.documentElement.scrollWidth"), wide)
                self.assertEqual(shown.get('[...document.querySelectorAll(".card")].filter((it) => it.scrollWidth > it.clientWidth).length'), 0)
            # Fifteen decoders share one table, and its owner is the least of them.
            shown.hover('[data-owner="i1.r1"].block rect')
            self.assertIn("used by i1 i2 i3", shown.text("#tip"))


if __name__ == "__main__":
    # --write makes the pages beside the examples anew; FOLDER makes pictures of them there, for the documents.
    with tempfile.TemporaryDirectory(prefix="rokdaum-") as held:
        made = {name: page_of(name, Path(held, name)) for name in SHOWN}
    if sys.argv[1] == "--write":
        for name, text in made.items():
            (REPOSITORY / "examples" / name / "memory.html").write_text(text)
        sys.exit()
    folder = Path(sys.argv[1])
    for name, step, wide, high, look in (
        ("compaction", 9, 1280, 1000, "light"), ("compaction", 15, 420, 1400, "light"), ("shared_scratch", 7, 1280, 1000, "light"), ("shared_scratch", 7, 420, 1400, "dark"),
        ("sixteen_lines", 52, 1280, 760, "light"), ("sixteen_lines", 52, 420, 1500, "dark"), ("no_room", 5, 1280, 1000, "dark"), ("no_room", 5, 420, 1400, "light"),
    ):  # fmt: skip
        shown_page = folder / f"{name}.html"
        shown_page.write_text(made[name])
        with browser.Browser() as shown:
            shown.open(shown_page, wide, high, look)
            for _ in range(step):
                shown.press("ArrowRight")
            shown.picture(folder / f"{name}_{step}_{wide}_{look}.png")
