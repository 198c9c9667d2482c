# SPDX-License-Identifier: Apache-2.0
"""The tests of `rokdaum.Host` that take minutes: /usr/bin/python3 -B -m unittest discover -s python/tests -p 'long_*.py'"""

from __future__ import annotations

from library_case import LibraryCase
from test_host import GROWTH, SEED, create_and_delete

from calls import random_differences
from rokdaum_model.sets import GATEWAY_SET


class Long(LibraryCase):
    def test_a_million_creations(self) -> None:
        self.assertLess(create_and_delete(1_000_000), GROWTH)

    def test_two_thousand_scripts(self) -> None:
        self.assertEqual(random_differences(SEED, 2_000)[0], [])

    def test_two_thousand_scripts_of_a_gateway(self) -> None:
        self.assertEqual(random_differences(SEED, 2_000, GATEWAY_SET)[0], [])


del LibraryCase
