"""Random recordings: their faults, their sizes, and the situations that are counted."""

import unittest
from random import Random

from ..generator import recording_coverage, recordings
from ..generator.record_situations import situations
from ..generator.recording_coverage import RecordingCoverage
from ..generator.recording_faults import FAULTS, another_length, byte_added, byte_removed, length_field_changed
from ..rules.recording import read_recording
from ..rules.replay import replay
from .recorded_events import EVENTS, MARKER, record_of, recorded

RECORDS = [recorded(event) for event in EVENTS.values()]


def told(record):
    """What a record's length field says."""
    return int.from_bytes(record[:2], "big")


class Faults(unittest.TestCase):
    def test_each_can_change_a_record(self):
        for fault in FAULTS:
            changed = [(record, fault(Random(seed), record)) for record in RECORDS for seed in range(20)]
            self.assertTrue(any(after not in (None, record) for record, after in changed), fault.__name__)

    def test_sizes_that_the_length_field_tells(self):
        for seed, record in enumerate(RECORDS * 10):
            for fault, more in ((byte_removed, -1), (byte_added, 1)):
                changed = fault(Random(seed), record)
                if changed is not None:
                    self.assertEqual((told(changed), len(changed)), (len(record) - 2 + more, len(record) + more))
            self.assertEqual(told(another_length(Random(seed), record)) + 2, len(another_length(Random(seed), record)))

    def test_a_length_field_may_tell_something_else(self):
        changed = [length_field_changed(Random(seed), RECORDS[1]) for seed in range(100)]
        self.assertTrue(all(one[2:] == RECORDS[1][2:] for one in changed))
        self.assertTrue({0, 1, 1_024, 1_025, 65_535} <= {told(one) for one in changed})


class Made(unittest.TestCase):
    def test_same_seed_same_recordings(self):
        self.assertEqual(list(recordings.of_a_run("1")), list(recordings.of_a_run("1")))
        self.assertNotEqual(recordings.random_run("1"), recordings.random_run("2"))

    def test_runs_are_whole_records(self):
        records = recordings.random_run("1", 30)
        self.assertEqual(len(records), 30 + 13)
        self.assertEqual(len(read_recording(b"".join(records))), len(records))

    def test_writes_of_a_size(self):
        for size in (13, 14, 1_025, 1_026):
            self.assertEqual(len(recordings.write_of_size(Random(1), size)), size)

    def test_filled(self):
        for size in range(5_000, 5_020):
            filled = recordings.filled(Random(size), MARKER, size)
            self.assertEqual(len(filled), size)
            self.assertTrue(filled.startswith(MARKER))

    def test_cut_at_the_last_places(self):
        sizes = [len(recording) for recording in recordings.cut_at_the_last_places("1")]
        self.assertEqual(sizes[:40], list(range(sizes[0], sizes[0] - 40, -1)))

    def test_large(self):
        self.assertGreater(len(recordings.large("1")), 500_000)


class Situations(unittest.TestCase):
    def assertMet(self, name, data, size=None):
        self.assertIn(name, situations(data, len(data) if size is None else size))
        self.assertIn(name, recording_coverage.NAMES)

    def test_lengths(self):
        for length in (0, 1, 1_024, 1_025, 65_535):
            self.assertMet(f"length {length}", record_of(bytes(length)))

    def test_cut(self):
        up = recorded(EVENTS["link-up"])
        self.assertMet("one byte of a length field", up[:1], 2)
        self.assertMet("cut behind the length field", up[:2], 13)
        self.assertMet("cut elsewhere", up[:11], 13)
        self.assertMet("link-up cut by one byte", up[:12], 13)
        self.assertMet("marker cut by one byte", MARKER[:3], 4)
        self.assertMet("over-long and cut", b"\x04\x01\x01", 1_027)

    def test_versions_and_kinds(self):
        self.assertMet("version 2", record_of(b"\x02\x01"))
        self.assertMet("kind 15", record_of(b"\x01\x0f"))
        self.assertNotIn("kind 15", situations(record_of(b"\x02\x0f"), 4))

    def test_sizes(self):
        up, power_on = recorded(EVENTS["link-up"])[2:], recorded(EVENTS["power-on"])[2:]
        self.assertMet("link-up too short", record_of(up[:-1]))
        self.assertMet("link-up too long", record_of(up + b"\x00"))
        self.assertMet("power-on too short", record_of(power_on[:20]))
        self.assertMet("list's length above what is left by one", record_of(power_on[:3] + b"\x0c" + power_on[4:]))
        fits = record_of(power_on[:3] + b"\x0b" + power_on[4:])
        self.assertNotIn("list's length above what is left by one", situations(fits, len(fits)))

    def test_values(self):
        request = recorded(EVENTS["key-based-write"])
        flag = len(request) - 66
        self.assertMet("key-based-write with flag 2", request[:flag] + b"\x02" + request[flag + 1 :])
        self.assertMet("accepted point with a secret of zeros", request[:flag] + b"\x01" + request[flag + 1 :])
        self.assertMet("rejected point with a secret", request[: flag + 32] + b"\x01" + request[flag + 33 :])
        self.assertMet(f"key-based-write with a length of {2**64 - 1}", request[:-8] + b"\xff" * 8)

    def test_coverage(self):
        coverage = RecordingCoverage()
        self.assertEqual(coverage.missed(), list(recording_coverage.NAMES))
        for recording in (b"", recorded(EVENTS["power-on"]) + MARKER + b"\x00\x00"):
            coverage.note(recording, replay(recording))
        met = {name: times for name, times in coverage.counts.items() if times}
        of_lines = {"power-on shows 0": 1, "marker shows 0": 1, "shows answer 0": 3, "shows size 0": 3}
        self.assertEqual(met, {"an empty recording": 1, "length 0": 1, "bad record shows 0": 1, **of_lines})


if __name__ == "__main__":
    unittest.main()
