"""The clock step: stage timers, the five minutes of the failure count, large clocks."""

import unittest

from ..rules.events import FactoryReset, LinkUp, PairingMode
from .device_under_test import DeviceUnderTest, account_key

KEY = account_key(1)
LAST_CLOCK = 2**64 - 1
EXPECTED_EVENT = {
    "asked": lambda tested, clock: tested.pairing_started(0, clock),
    "pairing": lambda tested, clock: tested.confirmation_needed(0, clock),
    "confirming": lambda tested, clock: tested.passkey_write(KEY, 0, clock),
    "proved": lambda tested, clock: tested.pairing_ended(0, clock),
    "paired": lambda tested, clock: tested.account_key_write(KEY, account_key(2), 0, clock),
}


class StageTimers(unittest.TestCase):
    def answer_after(self, stage, wait):
        """The answer to the event that a link waits for, `wait` after its stage began."""
        tested = DeviceUnderTest([KEY])
        tested.bring_to(stage, KEY, clock=1_000)
        return EXPECTED_EVENT[stage](tested, 1_000 + wait)

    def test_timed_stages(self):
        for stage in ("asked", "confirming", "paired"):
            self.assertEqual(self.answer_after(stage, 9_999), 0)
            self.assertEqual(self.answer_after(stage, 10_000), 9)
            self.assertEqual(self.answer_after(stage, 10_001), 9)

    def test_pairing_and_proved_have_no_timer(self):
        for stage in ("pairing", "proved"):
            self.assertEqual(self.answer_after(stage, 10_000), 0)
            self.assertEqual(self.answer_after(stage, 2**40), 0)

    def test_a_stage_begins_with_its_own_event(self):
        tested = DeviceUnderTest([KEY])
        tested.bring_to("pairing", KEY, clock=0)
        self.assertEqual(tested.confirmation_needed(0, 50_000), 0)
        self.assertEqual(tested.passkey_write(KEY, 0, 59_999), 0)
        self.assertEqual(tested.pairing_ended(0, 90_000), 0)
        self.assertEqual(tested.account_key_write(KEY, account_key(2), 0, 99_999), 0)

    def test_events_elsewhere_drop_too(self):
        for event in (LinkUp(7, 11_000), PairingMode(True, 11_000)):
            tested = DeviceUnderTest([KEY])
            tested.bring_to("asked", KEY, link=0, clock=1_000)
            tested.bring_to("asked", KEY, link=1, clock=1_001)
            tested.send(event)
            self.assertEqual((tested.stage(0), tested.stage(1)), (None, "asked"))

    def test_refusals_before_the_clock_step_drop_nothing(self):
        tested = DeviceUnderTest([KEY])
        tested.bring_to("asked", KEY, clock=0)
        self.assertEqual(tested.send(LinkUp(8, 99_999)), 1)
        self.assertEqual(tested.raw_request(b"", clock=99_999), 2)
        self.assertEqual(tested.confirmation_needed(0, 99_999, 1_000_000), 3)
        self.assertEqual(tested.request(KEY, 0, 99_999, out=b""), 13)
        self.assertEqual((tested.stage(), tested.device.clock), ("asked", 0))

    def test_near_the_last_clock(self):
        tested = DeviceUnderTest([KEY])
        tested.bring_to("asked", KEY, clock=LAST_CLOCK - 9_999)
        self.assertEqual(tested.pairing_started(0, LAST_CLOCK), 0)
        tested = DeviceUnderTest([KEY])
        tested.bring_to("asked", KEY, clock=LAST_CLOCK - 10_000)
        self.assertEqual(tested.pairing_started(0, LAST_CLOCK), 9)
        self.assertEqual(tested.pairing_started(0, LAST_CLOCK), 9)
        self.assertEqual(tested.pairing_started(0, LAST_CLOCK - 1), 4)

    def test_equal_clock_is_not_back(self):
        tested = DeviceUnderTest([KEY])
        self.assertEqual(tested.send(LinkUp(0, 7)), 0)
        self.assertEqual(tested.send(LinkUp(0, 7)), 0)
        self.assertEqual(tested.send(LinkUp(0, 6)), 4)


class FailureCount(unittest.TestCase):
    def locked(self, moment=1_000):
        """A device after ten failures, the last one at the moment."""
        tested = DeviceUnderTest([KEY])
        for i in range(10):
            self.assertEqual(tested.request(account_key(9), clock=moment - 9 + i), 7)
        return tested

    def test_299_999_and_300_000(self):
        tested = self.locked()
        self.assertEqual(tested.request(KEY, clock=1_000 + 299_999), 5)
        self.assertEqual(tested.request(KEY, clock=1_000 + 300_000), 0)

    def test_a_failure_after_five_minutes_is_the_first(self):
        tested = self.locked()
        self.assertEqual(tested.request(account_key(9), clock=301_000), 7)
        self.assertEqual((tested.device.failures, tested.device.failed_at), (1, 301_000))

    def test_5_changes_nothing_but_the_clock(self):
        tested = self.locked()
        before = tested.device
        for clock in (2_000, 100_000):
            self.assertEqual(tested.request(account_key(9), clock=clock), 5)
            self.assertEqual(tested.device, before.copy(clock=clock))

    def test_nine_failures_also_end_after_five_minutes(self):
        tested = DeviceUnderTest([KEY])
        for _ in range(9):
            tested.request(account_key(9), clock=0)
        tested.request(account_key(9), clock=300_000)
        self.assertEqual(tested.device.failures, 1)

    def test_counted_from_the_last_failure(self):
        tested = DeviceUnderTest([KEY])
        for clock in range(0, 1_000_000, 100_000):
            self.assertEqual(tested.request(account_key(9), clock=clock), 7)
        self.assertEqual(tested.request(KEY, clock=1_199_999), 5)
        self.assertEqual(tested.request(KEY, clock=1_200_000), 0)

    def test_success_ends_the_count(self):
        tested = DeviceUnderTest([KEY])
        for _ in range(9):
            tested.request(account_key(9))
        self.assertEqual(tested.request(KEY), 0)
        for _ in range(10):
            self.assertEqual(tested.request(account_key(9)), 7)
        self.assertEqual(tested.request(KEY), 5)

    def test_6_and_8_are_not_counted(self):
        tested = DeviceUnderTest([KEY])
        tested.request(KEY, salt=bytes(8))
        for _ in range(9):
            tested.request(account_key(9), clock=10)
        before = tested.device
        for _ in range(20):
            self.assertEqual(tested.public_request(clock=20), 6)
            self.assertEqual(tested.request(KEY, clock=20, salt=bytes(8)), 8)
        self.assertEqual(tested.device, before.copy(clock=20))

    def test_factory_reset_unlocks(self):
        tested = self.locked()
        tested.send(FactoryReset(1_001))
        self.assertEqual(tested.request(KEY, clock=1_001), 7)

    def test_lock_holds_on_every_link_and_survives_the_last_clock(self):
        tested = self.locked(LAST_CLOCK - 299_999)
        for link in range(8):
            self.assertEqual(tested.request(KEY, link, LAST_CLOCK), 5)
        tested = self.locked(LAST_CLOCK - 300_000)
        self.assertEqual(tested.request(KEY, 0, LAST_CLOCK), 0)


if __name__ == "__main__":
    unittest.main()
