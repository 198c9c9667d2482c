# SPDX-License-Identifier: Apache-2.0
"""Places, layouts and moves."""

from __future__ import annotations

import random
import unittest

from rokdaum_model.kinds import LAWFUL
from rokdaum_model.memory import (OBJECT, Attr, BadSize, Heap, Piece, Record, Space, Spot, least_place, least_place_by_trial, next_move,
                                  round_up, scratch_layout, valid_table)


def taken(heap: Heap, words: int, align: int) -> Piece:
    """A piece of a heap that has room for it."""
    piece = heap.take(words, align)
    assert piece
    return piece


class Heaps(unittest.TestCase):
    """A space as the set of its pieces."""

    def test_places_in_a_small_space(self) -> None:
        heap = Heap(64)
        first = taken(heap, 5, 4)
        self.assertEqual((first.place, first.length), (0, 8))
        self.assertEqual(taken(heap, 4, 16).place, 16)
        third = taken(heap, 4, 4)
        self.assertEqual(third.place, 8)
        self.assertIsNone(heap.take(48, 4))
        self.assertEqual(taken(heap, 44, 4).place, 20)
        heap.give(first)
        heap.lower(third, 4)
        self.assertEqual((third.place, heap.slid, heap.free()), (0, 4, 12))

    def test_a_full_space(self) -> None:
        heap = Heap(65536)
        self.assertEqual(taken(heap, 65532, 4).place, 0)
        self.assertIsNone(heap.take(4, 1024))
        self.assertEqual(taken(heap, 1, 4).place, 65532)
        self.assertEqual(heap.free(), 0)
        self.assertIsNone(Heap(0).take(1, 4))

    def test_the_least_place_and_not_the_best(self) -> None:
        heap = Heap(24)
        a, _, c, _ = taken(heap, 8, 4), taken(heap, 4, 4), taken(heap, 4, 4), taken(heap, 8, 4)
        heap.give(a)
        heap.give(c)
        self.assertEqual(taken(heap, 4, 4).place, 0)

    def test_sizes_that_are_refused(self) -> None:
        for words in (6, -4, 65540, 65537):
            with self.assertRaises(BadSize):
                Heap(words)

    def test_the_search_finds_what_a_trial_of_each_place_finds(self) -> None:
        rng = random.Random(3)
        for _ in range(300):
            ranges, at = [], 0
            while at < 400:
                start = at + 4 * rng.randrange(6)
                at = start + 4 * rng.randrange(1, 10)
                ranges.append((start, at))
            words, align = 4 * rng.randrange(1, 12), 4 << rng.randrange(5)
            self.assertEqual(least_place(600, words, align, ranges), least_place_by_trial(600, words, align, ranges))

    def test_a_space_is_packed_in_the_end(self) -> None:
        rng = random.Random(4)
        for _ in range(100):
            spots, end = [], 0
            for _ in range(rng.randrange(8)):
                align = 4 << rng.randrange(4)
                place = round_up(end, align) + align * rng.randrange(3)
                spots.append(Spot(place, 4 * rng.randrange(1, 9), align))
                end = place + spots[-1].size
            moved: set[int] = set()
            while (move := next_move(spots)) is not None:
                index, to = move
                self.assertLess(to, spots[index].place)
                self.assertNotIn(index, moved)
                moved.add(index)
                spots[index] = spots[index]._replace(place=to)


class Tables(unittest.TestCase):
    """Records and layouts."""

    def test_every_kind_has_valid_tables(self) -> None:
        given = {"fir": (1,) * 64, "decim": (16,) + (1,) * 64, "biquad": (1,) * 5, "tone": (0, 1, 0), "g711": (0, 1)}
        for name, kind in LAWFUL.items():
            table = kind.table(given[name])
            assert table
            self.assertTrue(valid_table(table))
            self.assertIsNone(kind.table(()))

    def test_scratch_records_stand_one_behind_the_other(self) -> None:
        def scratch(size: int, align: int) -> Record:
            return Record(size, align, Space.DARAM, Attr.SCRATCH)
        layout = scratch_layout((OBJECT, scratch(5, 4), scratch(3, 16), scratch(1, 4)), Space.DARAM)
        self.assertEqual(layout, ((0, 16, 20), 24, 16))
        self.assertEqual(scratch_layout((OBJECT,), Space.DARAM), ((), 0, 4))


if __name__ == "__main__":
    unittest.main()
