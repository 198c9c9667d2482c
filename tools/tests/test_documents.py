# SPDX-License-Identifier: Apache-2.0
"""Tests of the tools that keep the documents: python3 -m unittest discover -t tools -s tools/tests."""
from __future__ import annotations

import contextlib
import io
import sys
import tempfile
import unittest
from pathlib import Path

sys.path.insert(0, str(Path(__file__).resolve().parents[1]))
import architecture  # noqa: E402
import closure  # noqa: E402
import documents  # noqa: E402

CRATES = """# from the bottom up
low:
high: low arrayvec
"""
LOW = """//! A crate.
/// Doubles.
pub fn double(x: u32) -> u32
    requires small { IsSmall x }
    ensures value { result ≡ doubled x }
{
    x + x
}
"""
LOW_SPECS = """use Rattle.std.specs.Prelude.{ℕ, ◌+◌}
use Rattle.low.specs.declared.TheConstants.{GREATEST}

-- twice a number
abbrev pub doubled : ℕ → ℕ
doubled x = x + x

-- small enough
pub record IsSmall (x : ℕ) : Type 0 where
  pub least : x ≤ GREATEST
  pub inner : Deep x

abbrev pub Deep : ℕ → Type 0
Deep x = unused x ≡ x

abbrev pub unused : ℕ → ℕ
unused x = x

abbrev pub alone : ℕ → ℕ
alone x = x
"""
README = """# Title

## `low`

`double` is `value` of `double`, by `doubled`; see [above](#title) and [more](docs/MORE.md#a-part).

    crates/low/src/lib.rt
"""
MORE = "# A part\n\nThere are <!-- count: crates -->2<!-- --> crates.\n"


class Checkout(unittest.TestCase):
    """A small repository in a folder of its own."""

    def setUp(self) -> None:
        folder = tempfile.TemporaryDirectory()
        self.addCleanup(folder.cleanup)
        self.root = Path(folder.name)
        self.put("crates.txt", CRATES)
        self.put("crates/low/src/lib.rt", LOW)
        self.put("crates/low/specs/Numbers.antt", LOW_SPECS)
        self.put("crates/low/must-fail/doubles_twice.edit", "file: src/lib.rt\n")
        self.put("crates/high/src/lib.rt", "pub const GREATEST: u32 = 7;\n")
        self.put("README.md", README)
        self.put("docs/MORE.md", MORE)

    def put(self, name: str, text: str) -> None:
        path = self.root / name
        path.parent.mkdir(parents=True, exist_ok=True)
        path.write_text(text, encoding="utf-8")

    def problems(self) -> list[str]:
        return [str(problem) for problem in documents.Checker(documents.Repository(self.root)).check()]

    def assert_one(self, *parts: str) -> None:
        found = self.problems()
        self.assertEqual(len(found), 1, found)
        for part in parts:
            self.assertIn(part, found[0])


class Names(Checkout):
    def test_true_documents_have_no_problem(self) -> None:
        self.assertEqual(self.problems(), [])

    def test_a_name_that_no_source_has(self) -> None:
        self.put("README.md", README + "\n`triple` is new.\n")
        self.assert_one("README.md:9", "`triple`")

    def test_a_clause_that_its_function_lacks(self) -> None:
        self.put("README.md", README + "\n`doubled`, `least` of `double`.\n")
        self.assertEqual(self.problems(), [])  # `least` is a field of the record that the contract cites
        self.put("README.md", README + "\n`alone` of `double`.\n")
        self.assert_one("`alone` isn't of `double`")

    def test_a_word_of_a_comment_is_no_name(self) -> None:
        self.put("README.md", README + "\n`Doubles`\n")
        self.assert_one("`Doubles`")

    def test_an_edit_is_a_name(self) -> None:
        self.put("README.md", README + "\n`doubles_twice`\n")
        self.assertEqual(self.problems(), [])

    def test_a_name_of_another_crate_under_a_heading(self) -> None:
        self.put("docs/PROVED.md", "# Proved\n\n## `low`\n\n`GREATEST` and `doubled`, `alone`.\n\n## `high`\n\n`doubled`\n")
        self.assertEqual(self.problems(), [])
        self.put("crates/high/src/lib.rt", "pub const GREATEST: u32 = 7;\npub fn halve() {}\n")
        self.put("docs/PROVED.md", "# Proved\n\n## `low`\n\n`halve`\n")
        self.assert_one("docs/PROVED.md:5", "`halve`", "these crates")

    def test_a_crate_without_a_row(self) -> None:
        self.put("docs/ARCHITECTURE.md", "| crate | does |\n|---|---|\n| `low` | little |\n")
        self.assert_one("`high` has no row")

    def test_outside_names(self) -> None:
        self.put("README.md", README + "\n`sox`\n")
        self.put("tools/outside_names.txt", "Debian: sox\n")
        self.assertEqual(self.problems(), [])
        self.put("README.md", README)
        self.assert_one("`sox` stands in no document")

    def test_paths(self) -> None:
        self.put("README.md", README + "\n`crates/low/src/none.rt`, `crates/NAME/out/x` and `crates/*/src/lib.rt`.\n\n    docs/none.md\n")
        found = self.problems()
        self.assertEqual([problem.split(": ")[1] for problem in found], ["`crates/low/src/none.rt` isn't there", "`docs/none.md` isn't there"])

    def test_parts_of_the_test_command(self) -> None:
        self.put("check", 'PARTS = (Part("rows", ..), Part("long_rows", ..))\n')
        self.put("README.md", README + "\n`./check rows long_rows`.\n\n    ./check rows    these alone\n")
        self.assertEqual(self.problems(), [])
        self.put("README.md", README + "\n`./check double`\n")
        self.assert_one("README.md:9", "no part double")

    def test_what_git_ignores_may_be_named(self) -> None:
        self.put("README.md", README + "\n    examples/one/out.raw\n")
        self.assert_one("`examples/one/out.raw`")
        self.put(".gitignore", "out/\nexamples/*/out.raw\n")
        self.assertEqual(self.problems(), [])


class Links(Checkout):
    def test_a_link_to_nowhere(self) -> None:
        self.put("README.md", README + "\n[a](docs/NONE.md)\n")
        self.assert_one("leads nowhere")

    def test_an_anchor_that_is_not_there(self) -> None:
        self.put("README.md", README + "\n[a](docs/MORE.md#b)\n")
        self.assert_one("anchor")

    def test_slugs(self) -> None:
        self.assertEqual(documents.slug("`alg_fir`, G.711: what *is* kept?"), "alg_fir-g711-what-is-kept")


class Numbers(Checkout):
    def test_a_stale_number_is_found_and_written(self) -> None:
        self.put("docs/MORE.md", MORE.replace(">2<", ">3<"))
        self.assert_one("crates is 2, and not 3")
        self.assertEqual(documents.write(documents.Repository(self.root)), ["docs/MORE.md"])
        self.assertEqual(self.problems(), [])

    def test_an_unknown_number(self) -> None:
        self.put("docs/MORE.md", MORE.replace("crates -->", "stars -->"))
        self.assert_one("nothing counts stars")

    def test_a_number_without_an_end(self) -> None:
        self.put("docs/MORE.md", MORE + "<!-- count: edits -->1\n")
        self.assert_one("has no end")

    def test_a_long_readme(self) -> None:
        self.put("README.md", README + "\n" * 250)
        self.assert_one("257 lines")
        self.put("README.md", README + "\n" + "x" * 121 + "\n")
        self.assert_one("121 letters")


class Definitions(Checkout):
    """The list of definitions, in a repository whose main theorem is `run` of `dsp_console`."""

    TABLE = "# Definitions\n\n## `low`: `Numbers`\n\n| definition | what it is | headline |\n|---|---|---|\n| `doubled`, `alone` | twice | `doubled` |\n"

    def setUp(self) -> None:
        super().setUp()
        self.put("crates.txt", "low:\nvoice_set:\ndsp_console: low\n")
        self.put("docs/MORE.md", MORE.replace(">2<", ">3<"))
        self.put("crates/dsp_console/src/lib.rt", "ghost use Rattle.low.specs.Numbers.{doubled};\npub fn run()\n    ensures headline { doubled 1 ≡ 2 }\n{\n}\n")
        self.put("crates/voice_set/specs/Voices.antt", "abbrev pub voice_meaning : ℕ\nvoice_meaning = 1\n\nabbrev pub voice_named : ℕ\nvoice_named = 1\n")
        self.rest = "| `voice_meaning`, `voice_named` | both | all |\n"
        self.table = self.TABLE + "\n## `voice_set`: `Voices`\n\n| definition | what it is | headline |\n|---|---|---|\n" + self.rest
        self.put("docs/DEFINITIONS.md", self.table)

    def test_a_true_list(self) -> None:
        self.assertEqual(self.problems(), [])

    def test_a_stale_column_is_found_and_written(self) -> None:
        self.put("docs/DEFINITIONS.md", self.table.replace("| twice | `doubled` |", "| twice | |"))
        self.assert_one("docs/DEFINITIONS.md:7", "stale")
        self.assertEqual(documents.write(documents.Repository(self.root)), ["docs/DEFINITIONS.md"])
        self.assertEqual((self.root / "docs/DEFINITIONS.md").read_text(), self.table)

    def test_a_list_without_a_column_gets_one(self) -> None:
        bare = self.table.replace(" headline |", "").replace("|---|---|---|", "|---|---|").replace("twice | `doubled` |", "twice |").replace("both | all |", "both |")
        self.put("docs/DEFINITIONS.md", bare)
        documents.write(documents.Repository(self.root))
        self.assertEqual((self.root / "docs/DEFINITIONS.md").read_text(), self.table)

    def test_a_definition_that_is_not_listed(self) -> None:
        self.put("docs/DEFINITIONS.md", self.table.replace(self.rest, "| `voice_meaning` | one | all |\n"))
        self.assert_one("`voice_named` of voice_set", "isn't listed")

    def test_a_stale_reading_list(self) -> None:
        self.put("docs/MORE.md", "# A part\n\n<!-- list: headline -->\n<!-- end of the list -->\n")
        self.assert_one("the reading list is stale")
        documents.write(documents.Repository(self.root))
        self.assertEqual(self.problems(), [])
        self.assertIn("| `low` | `Numbers` | 1 | 2 |", (self.root / "docs/MORE.md").read_text())


class Closures(Checkout):
    def setUp(self) -> None:
        super().setUp()
        source = LOW.replace("//! A crate.\n", "//! A crate.\nghost use Rattle.low.specs.Numbers.{doubled, IsSmall};\n")
        self.put("crates/low/src/lib.rt", source)
        self.sources = closure.Sources(self.root)

    def names(self, *clauses: str) -> set[str]:
        return {key[2] for key in closure.closure_of(self.sources, ["low:double"], clauses, (), set()).found}

    def test_all_that_a_contract_names(self) -> None:
        self.assertEqual(self.names(), {"doubled", "IsSmall", "Deep", "unused"})

    def test_one_clause(self) -> None:
        self.assertEqual(self.names("value"), {"doubled"})

    def test_a_stop_leaves_out_what_only_it_needs(self) -> None:
        found = closure.closure_of(self.sources, ["low:double"], (), (), {("low", "Numbers", "Deep")})
        self.assertEqual({key[2] for key in found.found}, {"doubled", "IsSmall"})
        self.assertEqual(found.declared, {("low", "GREATEST")})

    def test_lines(self) -> None:
        found = closure.closure_of(self.sources, ["low:double"], ("value",), (), set())
        self.assertEqual(found.lines(), (2, 3))

    def test_refusals(self) -> None:
        for words, wanted in ((["low:none"], "no such function"), (["low:double", "--clause", "none"], "has no clause"), (["low:double", "--also", "low.Numbers.none"], "no such definition")):
            said = io.StringIO()
            with contextlib.redirect_stderr(said):
                self.assertEqual(closure.main([*words, "--root", str(self.root)]), 2)
            self.assertIn(wanted, said.getvalue())


class Style(Checkout):
    """Lengths, forms, figures of speed, the notebook and the picture."""

    def test_a_line_of_120_letters(self) -> None:
        self.put("docs/MORE.md", MORE + "\n" + "x" * 120 + "\n")
        self.assertEqual(self.problems(), [])
        self.put("docs/MORE.md", MORE + "\n" + "x" * 121 + "\n")
        self.assert_one("docs/MORE.md:5", "121 letters: at most 120")

    def test_what_cannot_be_broken_is_exempt_but_in_the_readme(self) -> None:
        long = "x" * 130
        written = f"<!-- table: one -->\n{long}\n<!-- end of the table -->\n"
        self.put("docs/MORE.md", f"{MORE}\n| {long} |\n\n    {long}\n\n```\n{long}\n```\n\n## {long}\n\n{written}")
        self.assertEqual(self.problems(), [])
        self.put("README.md", f"{README}\n| {long} |\n")
        self.assert_one("README.md:9", "134 letters")

    def test_lines_and_words_of_the_readme(self) -> None:
        self.put("README.md", README + "\n" + "word " * 15 + "\n")
        self.assertEqual(self.problems(), [])
        self.put("README.md", README + ("\n" + "word " * 15) * 120 + "\n")
        self.assert_one("README.md", "words: at most 1800")
        self.put("README.md", README + "\n" * 250)
        self.assert_one("README.md", "lines: at most 250")

    def test_forms_that_may_not_come_back(self) -> None:
        for text, better in (
            ("A refused line is told at once.", "report"),
            ("It takes some ten minutes.", "about ten"),
            ("It takes some 1,000 words.", "about ten"),
            ("A kind of one's own.", "your own"),
            ("The commands stand in a folder.", "is in"),
            ("Write what stands behind it.", "what is"),
            ("Where nothing is said it is 0.", "default"),
            ("Who wants to know reads on.", "if you want"),
            ("A creation is granted.", "accepted"),
        ):
            self.put("docs/MORE.md", f"{MORE}\n{text}\n")
            self.assertTrue(any(better in problem and "docs/MORE.md:5" in problem for problem in self.problems()), text)

    def test_quoted_forms_are_no_forms(self) -> None:
        self.put("docs/MORE.md", MORE + '\nThe clause `doubled` says "is told"; the people who want more.\n\n    stands in\n')
        self.assertEqual(self.problems(), [])
        self.put("docs/STYLE.md", "# Style\n\nNever: the program is told.\n")
        self.assertEqual(self.problems(), [])
        self.put("docs/PROVED.md", "# Proved\n\n| what is told |\n")
        self.assertEqual(self.problems(), [])
        self.put("docs/PROVED.md", "# Proved\n\nThe program is told.\n")
        self.assert_one("docs/PROVED.md:3", "'is told'")

    def test_a_figure_of_speed_among_the_decisions(self) -> None:
        decided = "# Decisions\n\n- `double`: **twice**, since 1,024 words are few and a feed of 20 ms has 160 samples.\n"
        self.put("docs/DECISIONS.md", decided)
        self.assertEqual(self.problems(), [])
        for figure in ("318 instructions", "one instruction, 5 more instructions", "13 ns", "0.5 microseconds", "2 per cent", "15 %", "15%"):
            self.put("docs/DECISIONS.md", f"{decided}- `double`: it takes {figure} each.\n")
            self.assert_one("docs/DECISIONS.md:4", "is a figure of speed: bench/NOTEBOOK.md")
        self.put("docs/DECISIONS.md", f"{decided}- **Twice** is what `double` gives.\n")
        self.assert_one("docs/DECISIONS.md:4", "begins with what it is about")
        self.put("docs/DECISIONS.md", decided)
        self.put("docs/MORE.md", MORE + "\nIt takes 318 instructions.\n")
        self.assertEqual(self.problems(), [])

    def test_a_row_of_the_notebook(self) -> None:
        head = "# Notebook\n\n| date | machine | command | minutes |\n|---|---|---|---|\n"
        self.put("bench/NOTEBOOK.md", head + "| 2026-12-01 | one, bound to 2 | `rt ci` | 42 |\n\n| date | machine | command |\n|---|---|---|\n")
        self.put("tools/outside_names.txt", "kit: ci\n")
        self.assertEqual([problem for problem in self.problems() if "NOTEBOOK" in problem], [])
        for row, what in (("| yesterday | one | `rt ci` | 42 |", "date"), ("| 2026-12-01 | | `rt ci` | 42 |", "machine"), ("| 2026-12-01 | one | by hand | 42 |", "command")):
            self.put("bench/NOTEBOOK.md", head + row + "\n")
            self.assertEqual([problem for problem in self.problems() if "NOTEBOOK" in problem], [f"bench/NOTEBOOK.md:5: the row has no {what}"])
        self.put("bench/NOTEBOOK.md", "# Notebook\n\n| date | machine | minutes |\n|---|---|---|\n")
        self.assertEqual([problem for problem in self.problems() if "NOTEBOOK" in problem], ["bench/NOTEBOOK.md:3: the table has no column command"])

    def test_the_picture(self) -> None:
        root = Path(__file__).resolve().parents[2]
        self.put("crates.txt", (root / "crates.txt").read_text(encoding="utf-8"))
        self.put("README.md", "# Title\n")
        self.put("docs/MORE.md", "# A part\n")
        crates = architecture.House.read(self.root).crates
        self.put("docs/architecture.svg", architecture.draw(crates))
        self.assertEqual(self.problems(), [])
        self.put("docs/architecture.svg", architecture.draw(crates).replace("mem_rec", "mem"))
        self.assert_one("docs/architecture.svg", "the picture is stale")
        self.assertIn("docs/architecture.svg", documents.write(documents.Repository(self.root)))
        self.assertEqual(self.problems(), [])
        self.put("crates.txt", (root / "crates.txt").read_text(encoding="utf-8").replace("\nbasic_op:", "\nbasic_op: ialg"))
        self.put("docs/architecture.svg", architecture.draw(architecture.House.read(self.root).crates))
        self.assert_one("crates.txt", "basic_op (height 0) uses ialg (height 1)")


class Pictures(unittest.TestCase):
    """The map of the crates, over checkouts of a few crates of their own."""

    def setUp(self) -> None:
        folder = tempfile.TemporaryDirectory()
        self.addCleanup(folder.cleanup)
        self.root = Path(folder.name)
        (self.root / "docs").mkdir()

    def house(self, text: str) -> architecture.House:
        (self.root / "crates.txt").write_text(text, encoding="utf-8")
        return architecture.House.read(self.root)

    def run_tool(self, word: str) -> tuple[int, str]:
        said = io.StringIO()
        with contextlib.redirect_stderr(said):
            return architecture.main([word, "--root", str(self.root)]), said.getvalue()

    def test_headings_are_layers(self) -> None:
        house = self.house("## base\nlow:\n## top\nhigh: low arrayvec  # a library\n")
        self.assertEqual(house.layers, ["top", "base"])
        self.assertEqual((house.of_layer("top"), house.of_layer("base")), (["high"], ["low"]))
        self.assertEqual(house.crates["high"].uses, ("low",))

    def test_a_crate_uses_what_is_lower(self) -> None:
        places = {"low": architecture.Place(architecture.RUNS, 0, "low"), "high": architecture.Place(architecture.KINDS, 1, "high")}
        self.assertEqual(architecture.broken_rules(self.house("low:\nhigh: low\n").crates, places), [])
        found = architecture.broken_rules(self.house("low: high\nhigh:\n").crates, places)
        self.assertEqual(found, ["low (height 0) uses high (height 1), which isn't lower"])
        level = {name: architecture.Place(architecture.RUNS, 0, name) for name in places}
        self.assertEqual(len(architecture.broken_rules(self.house("low:\nhigh: low\n").crates, level)), 1)

    def test_a_crate_without_a_place_and_a_place_without_a_crate(self) -> None:
        places = {"low": architecture.Place(architecture.RUNS, 0, "low")}
        found = architecture.broken_rules(self.house("high:\n").crates, places)
        self.assertEqual([text.split(":")[0] for text in found], ["high has no place", "low has a place and isn't in crates.txt"])

    def test_the_check_refuses_a_broken_rule_in_a_fresh_picture(self) -> None:
        self.house("basic_op: ialg\nialg:\n")
        self.assertEqual(self.run_tool("--write")[0], 1)
        status, said = self.run_tool("--check")
        self.assertEqual(status, 1)
        self.assertIn("basic_op (height 0) uses ialg (height 1), which isn't lower", said)
        self.assertNotIn("stale", said)

    def test_a_stale_picture(self) -> None:
        root = Path(__file__).resolve().parents[2]
        self.house((root / "crates.txt").read_text(encoding="utf-8"))
        self.assertIn("stale", self.run_tool("--check")[1])
        self.assertEqual(self.run_tool("--write"), (0, ""))
        self.assertEqual(self.run_tool("--check"), (0, ""))
        source = self.root / "crates/ialg/src/lib.rt"
        source.parent.mkdir(parents=True)
        source.write_text("//! More.\n" * 100)
        status, said = self.run_tool("--check")
        self.assertEqual(status, 1)
        self.assertIn("stale", said)

    def test_each_crate_has_its_box_and_each_walk_its_dots(self) -> None:
        root = Path(__file__).resolve().parents[2]
        house = architecture.House.read(root)
        picture = architecture.draw(house.crates)
        for name in house.crates:
            self.assertIn(f">{name}</text>", picture)
        for walk in architecture.WALKS:
            self.assertEqual(picture.count(f'r="8.5" fill="{walk.colour}"'), len(walk.crates) + 1)
            self.assertLessEqual(set(walk.crates), set(house.crates))


if __name__ == "__main__":
    unittest.main()
