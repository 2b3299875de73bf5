"""Divided recordings: the ways to divide one, and the situations that are counted."""

import unittest
from random import Random

from ..generator import divided_recordings, division_coverage
from ..generator.division_coverage import DivisionCoverage
from ..generator.divisions import at_places, at_random, byte_by_byte, in_two, limits_of, with_empty_parts
from ..rules.replay import replay
from .recorded_events import EVENTS, MARKER, record_of, recorded

POWER_ON = recorded(EVENTS["power-on"])
LINK_UP = recorded(EVENTS["link-up"])
LONG = record_of(bytes(1_025))


class Ways(unittest.TestCase):
    def test_byte_by_byte(self):
        self.assertEqual(byte_by_byte(b"abc"), [b"a", b"b", b"c"])
        self.assertEqual(byte_by_byte(b""), [])

    def test_in_two(self):
        self.assertEqual(list(in_two(b"ab")), [[b"", b"ab"], [b"a", b"b"], [b"ab", b""]])
        self.assertEqual(list(in_two(b"ab", [1])), [[b"a", b"b"]])

    def test_at_places(self):
        self.assertEqual(at_places(b"abc", [2, 1]), [b"a", b"b", b"c"])
        self.assertEqual(at_places(b"abc", [0, 1, 1, 3]), [b"", b"a", b"", b"bc", b""])

    def test_limits(self):
        self.assertEqual(limits_of(MARKER + LINK_UP), [0, 2, 4, 6, 17])
        self.assertEqual(limits_of(MARKER + b"\x01"), [0, 2, 4, 6, 7])

    def test_joined_they_are_the_recording(self):
        recording = POWER_ON + LONG + LINK_UP[:5]
        for seed in range(100):
            parts = with_empty_parts(Random(seed), at_random(Random(seed), recording))
            self.assertEqual(b"".join(parts), recording)

    def test_empty_parts_at_each_place(self):
        made = [with_empty_parts(Random(seed), [b"a", b"b"]) for seed in range(100)]
        for parts in ([b"", b"a", b"b"], [b"a", b"", b"b"], [b"a", b"b", b""], [b"a", b"", b"", b"b"]):
            self.assertIn(parts, made)


class Situations(unittest.TestCase):
    def met(self, *parts):
        coverage = DivisionCoverage()
        coverage.note(parts, replay(b"".join(parts)))
        return {name for name, times in coverage.counts.items() if times}

    def assertMet(self, name, *parts):
        self.assertIn(name, division_coverage.NAMES)
        self.assertIn(name, self.met(*parts))

    def test_where_a_part_ends(self):
        places = {1: "in the length field", 2: "behind the length field", 3: "in the body"}
        places |= {12: "one byte before the end", 13: "at the end", 14: "one byte behind the end"}
        for place, words in places.items():
            joined = LINK_UP + MARKER
            parts = joined[:place], joined[place:]
            self.assertMet(f"a short record, a part ends {words}, before power-on", *parts)
            self.assertMet(f"a short record, a part ends {words}, after power-on", POWER_ON + parts[0], parts[1])

    def test_sizes(self):
        for length, size in ((1_023, "short record"), (1_024, "record of 1,024"), (1_025, "record of 1,025")):
            record = record_of(bytes(length))
            self.assertMet(f"a {size}, a part ends one byte before the end, before power-on", record[:-1], record[-1:])
            self.assertMet(f"a {size} in two parts, before power-on", record[:-1], record[-1:])
        self.assertFalse([name for name in self.met(record_of(bytes(1_026))) if name.startswith("a record")])

    def test_how_many_parts(self):
        for places, words in (([], "one part"), ([1], "two parts"), ([1, 5], "three parts"), ([1, 2, 5], "more parts")):
            self.assertMet(f"a short record in {words}, before power-on", *at_places(LINK_UP, places))
        self.assertMet("a short record in one part, before power-on", MARKER, MARKER)
        self.assertMet("several records end in one part", MARKER + MARKER)
        self.assertNotIn("several records end in one part", self.met(MARKER, MARKER))
        self.assertMet("two records that are too long end in one part", LONG + LONG)
        self.assertNotIn("two records that are too long end in one part", self.met(LONG, LONG))
        self.assertMet("the first taken power-on is divided", POWER_ON[:5], POWER_ON[5:])
        self.assertNotIn("the first taken power-on is divided", self.met(POWER_ON + POWER_ON[:5], POWER_ON[5:]))

    def test_empty_parts(self):
        self.assertMet("an empty part at the beginning", b"", MARKER)
        places = {1: "in the length field", 2: "behind the length field", 3: "in the body", 13: "between records"}
        for place, words in places.items():
            joined = LINK_UP + MARKER
            self.assertMet(f"an empty part {words}, before power-on", joined[:place], b"", joined[place:])
        for place in (2, 3, 1_026):
            self.assertMet("an empty part while skipping, after power-on", POWER_ON, LONG[:place], b"", LONG[place:])
        self.assertMet("an empty part in the length field, before power-on", LONG[:1], b"", LONG[1:])
        self.assertMet("an empty part at the end, after power-on", POWER_ON, b"")
        self.assertMet("an empty part at the end, before power-on", LINK_UP[:5], b"")
        self.assertMet("two empty parts in a row", MARKER, b"", b"")
        self.assertMet("a recording of empty parts alone", b"")
        self.assertMet("a recording of no part")

    def test_ends(self):
        ends = {1: "one byte held", 2: "a length field held", 3: "more held", 12: "one byte missing"}
        for size, words in ends.items():
            self.assertMet(f"ends with {words}, before power-on", LINK_UP[:size])
            self.assertMet(f"ends with {words}, after power-on", POWER_ON + LINK_UP[:size])
        ends = {2: "all to be skipped", 3: "more to be skipped", 1_026: "one byte to be skipped", 1_027: "nothing held"}
        for size, words in ends.items():
            self.assertMet(f"ends with {words}, before power-on", LONG[:size])

    def test_all_are_reached(self):
        coverage = DivisionCoverage()
        self.assertEqual(coverage.missed(), list(division_coverage.NAMES))
        for parts in divided_recordings.at_limits(1):
            coverage.note(parts, replay(b"".join(parts)))
        self.assertEqual(coverage.missed(), [])


if __name__ == "__main__":
    unittest.main()
