# SPDX-License-Identifier: Apache-2.0
"""Random scripts: what must not matter doesn't, and they are the same each time."""

from __future__ import annotations

import random
import unittest
from dataclasses import replace

from rokdaum_model.console import Undetermined, serve_with_undetermined
from rokdaum_model.invariants import check_case
from rokdaum_model.mutations import Corpus
from rokdaum_model.random_scripts import random_case
from rokdaum_model.rows import config_of, inputs_of, read_rows, script_of
from rokdaum_model.sets import GATEWAY_SET, MIXED


class RandomScripts(unittest.TestCase):
    """Scripts that are made line by line."""

    def test_what_must_not_matter(self) -> None:
        for number in range(60):
            case = random_case(random.Random(f"invariants/{number}"))
            self.assertEqual(check_case(random.Random(number), case), [], number)

    def test_what_must_not_matter_to_a_gateway(self) -> None:
        for number in range(40):
            case = random_case(random.Random(f"gateway/{number}"), GATEWAY_SET)
            self.assertEqual(check_case(random.Random(number), case), [], number)

    def test_line_by_line_is_the_whole(self) -> None:
        for number in range(60):
            case = random_case(random.Random(f"mixed/{number}"), MIXED)
            if case.served.status < 2:
                whole = serve_with_undetermined(case.config, case.script.data(), case.inputs)
                self.assertEqual(whole, (case.served, case.undetermined))

    def test_a_seed_gives_the_same_again(self) -> None:
        first, again = (random_case(random.Random("again")) for _ in range(2))
        self.assertEqual((first.config, first.script, first.inputs, first.served),
                         (again.config, again.script, again.inputs, again.served))

    def test_they_reach_every_refusal_and_every_command(self) -> None:
        seen: set[str] = set()
        for number in range(300):
            case = random_case(random.Random(f"reach/{number}"))
            for line, answer in zip(case.script.lines, case.script.answers):
                if answer is not None:
                    seen.add(answer if answer.startswith("no") else line.split()[0].decode("latin-1"))
        self.assertEqual({text.split()[1] for text in seen if text.startswith("no ")}, {str(n) for n in range(1, 11)})
        self.assertLessEqual({"create", "control", "delete", "chain", "unchain", "feed", "compact", "step", "release", "map",
                              "stat"}, seen)


class Mutations(unittest.TestCase):
    """Scripts that are made from the rows'."""

    def test_they_are_served_and_some_are_kept(self) -> None:
        corpus = Corpus([(replace(config_of(row), form="running"), script_of(row), inputs_of(row))
                         for row in read_rows() if "kinds" not in row])
        before, rng = len(corpus.runs), random.Random(2)
        for _ in range(300):
            config, script, inputs, served = corpus.next(rng)
            self.assertEqual(serve_with_undetermined(config, script, inputs), (served, Undetermined()))
        self.assertGreater(len(corpus.runs), before)


if __name__ == "__main__":
    unittest.main()
