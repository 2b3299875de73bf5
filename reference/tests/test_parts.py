"""Recordings in parts: lines, device and a cut record are those of the joined recording, wherever it is divided."""

import unittest
from random import Random

from ..generator.divisions import at_random, byte_by_byte, in_two, with_empty_parts
from ..generator.recordings import random_run
from ..rules.parts import Replay, end, feed, read_on
from ..rules.recording import read_recording
from ..rules.replay import next_line, replay
from .recorded_events import EVENTS, MARKER, record_of, recorded

POWER_ON = recorded(EVENTS["power-on"])
LINK_UP = recorded(EVENTS["link-up"])
# The longest record that is read, and the shortest that is skipped: account key writes with long blocks.
WRITE = recorded(EVENTS["account-key-write"])[2:]
LONGEST, SKIPPED = record_of(WRITE.ljust(1_024)), record_of(WRITE.ljust(1_025))
# What is not read as a record, if it is skipped rightly.
FAR = record_of((MARKER * 20_000)[:65_535])


def device_of(recording):
    """The device at the end of a joined recording."""
    device = None
    for event in read_recording(recording):
        device, _, _ = next_line(device, 0, event)
    return device


class Parts(unittest.TestCase):
    def fed(self, parts):
        """The replay before the end, and all lines up to there."""
        fed, lines = Replay(), []
        for part in parts:
            fed, more = feed(fed, part)
            self.assertLessEqual(len(fed.held), 1_025)
            self.assertFalse(fed.held and fed.skip)
            lines += more
        return fed, lines

    def ended(self, parts):
        """The replay after the end, and all lines."""
        fed, lines = self.fed(parts)
        fed, cut = end(fed)
        return fed, lines + ([cut] if cut else [])

    def assertJoined(self, parts):
        """These parts give what the joined recording gives."""
        recording = b"".join(parts)
        fed, lines = self.ended(parts)
        self.assertEqual(lines, replay(recording))
        self.assertEqual(fed, Replay(device_of(recording), len(lines)))

    def assertJoinedInAllWays(self, recording):
        random = Random(1)
        self.assertJoined([recording])
        for parts in (*in_two(recording), byte_by_byte(recording)):
            self.assertJoined(parts)
            self.assertJoined(with_empty_parts(random, parts))


class Joined(Parts):
    def test_no_parts(self):
        for parts in ([], [b""], [b"", b""]):
            self.assertEqual(self.ended(parts), (Replay(), []))

    def test_every_kind_at_every_place(self):
        for event in EVENTS.values():
            self.assertJoinedInAllWays(POWER_ON + recorded(event) + MARKER)

    def test_before_power_on(self):
        for record in (MARKER, LINK_UP, record_of(b""), record_of(b"\x02\x02")):
            self.assertJoinedInAllWays(record + MARKER)
        self.assertJoinedInAllWays(LINK_UP + POWER_ON + LINK_UP)

    def test_cut_at_every_place(self):
        for record in (MARKER, LINK_UP, POWER_ON):
            for size in range(1, len(record)):
                self.assertJoinedInAllWays(POWER_ON + record[:size])
                self.assertJoinedInAllWays(record[:size])

    def test_random_divisions(self):
        for seed in range(4):
            random, recording = Random(seed), b"".join(random_run(seed, 20))
            for size in (len(recording), random.randrange(len(recording))):
                for _ in range(5):
                    parts = at_random(random, recording[:size])
                    self.assertJoined(with_empty_parts(random, parts))


class Lengths(Parts):
    def test_at_every_place(self):
        for record in (LONGEST, SKIPPED):
            for begin in (b"", POWER_ON):
                recording = begin + record + LINK_UP
                self.assertJoined(byte_by_byte(recording))
                for parts in in_two(recording):
                    self.assertJoined(parts)

    def test_1024_are_read_and_1025_skipped(self):
        for record, line in ((LONGEST, "account-key-write 9 0"), (SKIPPED, "marker 0 0")):
            shown = ["1 power-on 0 0", f"2 {line}", "3 marker 0 0"]
            self.assertEqual(self.ended([POWER_ON + record[:500], record[500:] + MARKER])[1], shown)

    def test_the_longest(self):
        recording = POWER_ON + FAR + MARKER
        for place in (1, 2, 3, 1_026, 1_027, 65_536, 65_537, 65_538):
            self.assertJoined([recording[: len(POWER_ON) + place], b"", recording[len(POWER_ON) + place :]])

    def test_cut_as_well_is_one_marker(self):
        for record in (LONGEST, SKIPPED, FAR):
            for size in (1, 2, 3, 1_025, len(record) - 1):
                for place in (0, 1, 2, size - 1, size):
                    parts = [POWER_ON, record[:place], b"", record[place:size]]
                    self.assertEqual(self.ended(parts)[1], ["1 power-on 0 0", "2 marker 0 0"])

    def test_two_in_a_row(self):
        for place in range(1_020, 1_035):
            joined = SKIPPED + SKIPPED + MARKER
            self.assertJoined([joined[:place], joined[place:]])


class Held(Parts):
    def test_one_unfinished_record(self):
        for size in range(1, len(LINK_UP)):
            self.assertEqual(self.fed([POWER_ON + LINK_UP[:size]])[0].held, LINK_UP[:size])
        self.assertEqual(self.fed([POWER_ON + LINK_UP])[0].held, b"")

    def test_all_but_one_byte_of_the_longest(self):
        self.assertEqual(self.fed([LONGEST[:-1]])[0].held, LONGEST[:-1])
        self.assertEqual(len(LONGEST[:-1]), 1_025)

    def test_nothing_of_what_is_skipped(self):
        for size in (2, 3, 1_026, 65_536):
            self.assertEqual(self.fed([FAR[:size]])[0], Replay(skip=65_537 - size))

    def test_an_empty_part_changes_nothing(self):
        for held in (b"", b"\x00", LINK_UP[:2], LINK_UP[:-1], FAR[:2], FAR[:-1]):
            fed, _ = self.fed([POWER_ON + held])
            self.assertEqual(feed(fed, b""), (fed, []))

    def test_nothing_after_the_end(self):
        for held in (b"", b"\x00", LINK_UP[:-1], FAR[:-1]):
            fed, _ = self.ended([POWER_ON + held])
            self.assertEqual((fed.held, fed.skip), (b"", 0))
            self.assertEqual(end(fed), (fed, None))


class OneCall(unittest.TestCase):
    """One line at most, and the place behind it."""

    def test_a_line_for_each_record(self):
        fed, part = Replay(), MARKER + LINK_UP + LINK_UP[:5]
        fed, line, at = read_on(fed, part, 0)
        self.assertEqual((line, at), ("1 marker 14 0", 4))
        fed, line, at = read_on(fed, part, at)
        self.assertEqual((line, at), ("2 link-up 14 0", 17))
        fed, line, at = read_on(fed, part, at)
        self.assertEqual((fed, line, at), (Replay(None, 2, LINK_UP[:5]), None, 22))

    def test_places_behind_the_part(self):
        for fed in (Replay(), Replay(held=LINK_UP[:5]), Replay(skip=3)):
            for at in (4, 5, 2**64 - 1):
                self.assertEqual(read_on(fed, MARKER, at), (fed, None, at))

    def test_a_line_comes_with_the_last_byte(self):
        for record in (MARKER, LINK_UP, LONGEST, SKIPPED, record_of(b"")):
            fed, lines = feed(Replay(), record[:-1])
            self.assertEqual(lines, [])
            self.assertEqual(len(feed(fed, record[-1:])[1]), 1)

    def test_numbers_in_64_bits(self):
        fed, lines = feed(Replay(number=2**64 - 2), MARKER + MARKER + MARKER)
        self.assertEqual([line.split()[0] for line in lines], [str(2**64 - 1), "0", "1"])
        self.assertEqual(fed.number, 1)


if __name__ == "__main__":
    unittest.main()
