"""The replay: what each line shows, before the first power-on, after a refused one, and at a cut end."""

import unittest
from dataclasses import replace

from ..generator.generate import Generator
from ..generator.seeker_blocks import request_block
from ..rules.events import Overflow, PowerOn
from ..rules.model import step
from ..rules.replay import replay
from ..rules.stored_list import pack
from . import recording_page
from .device_under_test import account_key
from .recorded_events import EVENTS, record_of, recorded

POWER_ON = EVENTS["power-on"]
TWO_KEYS = replace(POWER_ON, stored=pack([account_key(1), account_key(2)]))
MALFORMED = replace(POWER_ON, stored=b"\x00\x02\x01\x01")
BAD_NAME = replace(POWER_ON, name=b"\xff")


def lines(*events):
    return replay(b"".join(map(recorded, events)))


class Page(unittest.TestCase):
    def test_its_lines(self):
        examples = recording_page.examples()
        joined = examples["power-on"] + examples["marker"]
        self.assertEqual(replay(joined), recording_page.replayed_lines())

    def test_every_name(self):
        shown = [line.split()[1] for line in lines(POWER_ON, *EVENTS.values())]
        self.assertEqual(shown, ["power-on", *EVENTS])


class ProgramsInput(unittest.TestCase):
    """What `rt ci` runs fp_replay on, and holds it to."""

    def test_its_lines(self):
        folder = recording_page.PAGE.parents[1] / "crates" / "fp_replay"
        expected = (folder / "stdout").read_text().splitlines()
        self.assertEqual(replay((folder / "stdin").read_bytes()), expected)


class BeforePowerOn(unittest.TestCase):
    def test_nothing(self):
        self.assertEqual(replay(b""), [])

    def test_every_event_shows_14_and_0(self):
        others = [event for event in EVENTS.values() if not isinstance(event, PowerOn)]
        shown = lines(*others)
        self.assertTrue(all(line.endswith(" 14 0") for line in shown), shown)

    def test_what_would_get_1_2_3_or_13(self):
        early = (
            replace(EVENTS["link-up"], link=8),
            replace(EVENTS["key-based-write"], data=bytes(17)),
            replace(EVENTS["confirmation-needed"], passkey=1_000_000),
            replace(EVENTS["passkey-write"], out=bytes(15)),
        )
        self.assertEqual([line.split()[2:] for line in lines(*early)], [["14", "0"]] * 4)

    def test_bad_records_and_refused_power_ons(self):
        bad, long = record_of(b"\x02\x02"), record_of(bytes(1_025))
        refused = recorded(MALFORMED) + recorded(BAD_NAME)
        expected = ["1 marker 14 0", "2 marker 14 0", "3 power-on 14 0", "4 power-on 14 0", "5 marker 14 0"]
        self.assertEqual(replay(bad + long + refused + b"\x00"), expected)

    def test_the_first_taken_one_ends_it(self):
        expected = ["1 marker 14 0", "2 power-on 14 0", "3 power-on 0 2", "4 marker 0 2"]
        self.assertEqual(lines(Overflow(), MALFORMED, TWO_KEYS, Overflow()), expected)


class AfterPowerOn(unittest.TestCase):
    def test_refused_power_on_leaves_the_device(self):
        up = replace(EVENTS["link-up"], clock=5)
        earlier = replace(up, clock=4)
        for refused in (MALFORMED, BAD_NAME):
            shown = lines(TWO_KEYS, up, refused, earlier)
            self.assertEqual(shown, ["1 power-on 0 2", "2 link-up 0 2", "3 power-on 14 2", "4 link-up 4 2"])

    def test_taken_power_on_begins_again(self):
        up = replace(EVENTS["link-up"], clock=5)
        shown = lines(TWO_KEYS, up, POWER_ON, replace(up, clock=0))
        self.assertEqual(shown, ["1 power-on 0 2", "2 link-up 0 2", "3 power-on 0 0", "4 link-up 0 0"])

    def test_early_answers(self):
        early = {
            1: replace(EVENTS["link-up"], link=8),
            2: replace(EVENTS["key-based-write"], data=bytes(17)),
            3: replace(EVENTS["confirmation-needed"], passkey=1_000_000),
            13: replace(EVENTS["passkey-write"], out=bytes(15)),
        }
        shown = lines(POWER_ON, *early.values())
        self.assertEqual([int(line.split()[2]) for line in shown], [0, *early])

    def test_outputs_are_lent_as_long_as_recorded(self):
        request = EVENTS["key-based-write"]
        for lengths, answer in (((15, 80), 13), ((16, 79), 13), ((16, 80), 7), ((2**64 - 1, 2**64 - 1), 7)):
            shown = replay(recorded(POWER_ON) + recorded(request, lengths))
            self.assertEqual(shown[1], f"2 key-based-write {answer} 0")

    def test_reset_shows_an_empty_list(self):
        self.assertEqual(lines(TWO_KEYS, EVENTS["factory-reset"])[1], "2 factory-reset 0 0")

    def test_bad_records_are_markers(self):
        up = recorded(EVENTS["link-up"])
        bad = (record_of(b""), record_of(b"\x01"), record_of(b"\x02" + up[3:]), record_of(up[2:] + b"\x00"))
        for one in (*bad, record_of(bytes(1_025)), record_of(bytes(65_535))):
            shown = replay(recorded(TWO_KEYS) + one + up)
            self.assertEqual(shown[1:], ["2 marker 0 2", "3 link-up 0 2"])

    def test_cut_end_is_a_marker(self):
        up = recorded(EVENTS["link-up"])
        for size in range(1, len(up)):
            self.assertEqual(replay(recorded(TWO_KEYS) + up[:size])[1:], ["2 marker 0 2"])


class SameAnswers(unittest.TestCase):
    """ "If the writer took every event from a taken power-on on, replay .. gives the answers that the events gave." """

    def test_random_runs(self):
        for seed in range(3):
            generator, device, recording, expected = Generator(seed), None, b"", []
            while len(expected) < 300:
                event = generator.next_event(device)
                device, reply = step(device, event)
                if device is not None:
                    recording += recorded(event)
                    expected.append((reply.answer, len(device.keys)))
            shown = [tuple(map(int, line.split()[2:])) for line in replay(recording)]
            self.assertEqual(shown, expected)


class LostStretch(unittest.TestCase):
    def test_a_marker_drops_what_was_begun(self):
        key = account_key(1)
        first = replace(POWER_ON, stored=pack([key]))
        request = replace(EVENTS["key-based-write"], data=request_block(key, 0, POWER_ON.ble, bytes(8)))
        begun, started = (first, request), EVENTS["pairing-started"]
        self.assertEqual(lines(*begun, started)[1:], ["2 key-based-write 0 1", "3 pairing-started 0 1"])
        self.assertEqual(lines(*begun, Overflow(), started)[2:], ["3 marker 0 1", "4 pairing-started 9 1"])


if __name__ == "__main__":
    unittest.main()
