"""The filter that the device keeps: after every event the one built afresh, and built only where keys or salt change."""

import unittest
from contextlib import ExitStack
from unittest import mock

from ..generator.filters import Filters
from ..generator.generate import Generator
from ..rules import control, pairing
from ..rules.advertising import account_key_filter, advertisement
from ..rules.device import MOST_KEYS
from ..rules.events import AddressRotated, FactoryReset, LinkUp, Overflow, PowerOn
from ..rules.model import step
from ..rules.stored_list import pack
from .device_under_test import BLE, FILTER_SALT, MODEL, NAME, PUBLIC, DeviceUnderTest, account_key, power_on

KEYS = [account_key(i) for i in range(MOST_KEYS)]
NEW = account_key(17)
OTHER_SALT = bytes.fromhex("D1D2")


def afresh(device):
    return account_key_filter(device.keys, device.salt)


class Counted(DeviceUnderTest):
    """A device under test that counts how often a filter is built, and notes its situations."""

    def __init__(self, keys=()):
        self.built = 0
        self.filters = Filters()
        super().__init__(keys)
        self.built = 0

    def send(self, event):
        def build(keys, salt):
            self.built += 1
            return account_key_filter(keys, salt)

        before = self.device
        with ExitStack() as patched:
            for module in (control, pairing):
                patched.enter_context(mock.patch.object(module, "account_key_filter", build))
            answer = super().send(event)
        self.filters.note(before, event, self.device, self.reply)
        return answer

    def write(self, key):
        self.bring_to("paired", KEYS[0])
        return self.account_key_write(KEYS[0], key)

    def situations(self):
        return {name: times for name, times in self.filters.counts.items() if times}


class EveryEvent(unittest.TestCase):
    def test_random_runs(self):
        for seed in range(4):
            generator, device = Generator(f"kept filter {seed}"), None
            for _ in range(1_500):
                device, _ = step(device, generator.next_event(device))
                if device is not None:
                    self.assertEqual(device.filter, afresh(device))


class Building(unittest.TestCase):
    def check(self, tested, times, *situations):
        """The filter is right, it was built so often, and these situations were met since power-on."""
        self.assertEqual(tested.device.filter, afresh(tested.device))
        self.assertEqual(tested.built, times)
        met = tested.situations()
        self.assertEqual([name for name in met if "at power-on" not in name], list(situations))

    def test_power_on(self):
        for count in range(MOST_KEYS + 1):
            tested = Counted(KEYS[:count])
            self.assertEqual(tested.device.filter, account_key_filter(KEYS[:count], FILTER_SALT))
            self.assertEqual(tested.situations(), {f"filter built at power-on, {count} keys": 1})

    def test_rotation(self):
        for count in range(MOST_KEYS + 1):
            tested = Counted(KEYS[:count])
            tested.send(AddressRotated(BLE, OTHER_SALT, 0))
            self.check(tested, 1, f"filter built at a rotation, {count} keys")
            self.assertEqual(tested.device.filter, account_key_filter(KEYS[:count], OTHER_SALT))

    def test_rotation_to_the_same_salt(self):
        tested = Counted(KEYS)
        before = tested.device.filter
        tested.send(AddressRotated(BLE, FILTER_SALT, 0))
        self.check(tested, 1, "filter built at a rotation, 10 keys", "filter built at a rotation to the same salt")
        self.assertEqual(tested.device.filter, before)

    def test_pairing_mode(self):
        tested = Counted(KEYS[:2])
        tested.pairing_mode(True)
        self.check(tested, 0)
        tested.send(AddressRotated(BLE, OTHER_SALT, 0))
        tested.write(NEW)
        self.assertEqual(advertisement(tested.device, False).hex(), "06162cfe123456")
        tested.pairing_mode(False)
        self.assertEqual(advertisement(tested.device, False)[6:12], account_key_filter([KEYS[1], KEYS[0], NEW], OTHER_SALT))
        self.assertEqual(tested.built, 2)

    def test_new_keys(self):
        for count in range(1, MOST_KEYS + 1):
            tested = Counted(KEYS[:count])
            self.assertEqual(tested.write(NEW), 0)
            self.check(tested, 1, f"filter built for a new key, {count} before it", *self.moved(count))
            self.assertEqual(len(tested.device.keys), min(count + 1, MOST_KEYS))

    def moved(self, count):
        """The owner's request moves the first key, unless it is alone."""
        return ["filter left by a request whose key moves"] if count > 1 else []

    def test_the_bits_of_an_evicted_key_go(self):
        tested = Counted(KEYS)
        tested.write(NEW)
        self.assertEqual(tested.device.filter, account_key_filter([*KEYS[2:], KEYS[0], NEW], FILTER_SALT))

    def test_held_keys(self):
        for key in KEYS[1:]:
            tested = Counted(KEYS)
            before = tested.device.filter
            self.assertEqual(tested.write(key), 0)
            moves = "filter left by a held key that moves", "filter left by a request whose key moves"
            self.check(tested, 0, *moves)
            self.assertEqual(tested.device.filter, before)

    def test_reset(self):
        for count, situations in ((9, ()), (10, ("filter emptied by a reset of a full list",))):
            tested = Counted(KEYS[:count])
            tested.send(FactoryReset(0))
            self.check(tested, 1, *situations)
            self.assertFalse(any(tested.device.filter))


class Leaving(unittest.TestCase):
    def test_refusals(self):
        """Each leaves keys, salt and filter as they were, and builds nothing."""
        malformed = PowerOn(pack(KEYS)[:-1], NAME, PUBLIC, BLE, MODEL, OTHER_SALT)
        for event, answer, name in (
            (AddressRotated(BLE, OTHER_SALT, 99), 4, "rotation"),
            (FactoryReset(99), 4, "reset"),
            (malformed, 14, "power-on"),
            (power_on(KEYS, b"\xff"), 14, "power-on"),
        ):
            tested = Counted(KEYS[:3])
            tested.send(LinkUp(0, 100))
            before = tested.device
            self.assertEqual(tested.send(event), answer)
            self.assertEqual((tested.device.filter, tested.built), (before.filter, 0))
            self.assertEqual(tested.filters.counts[f"filter left by a refused {name}"], 1)

    def test_account_key_writes(self):
        tested = Counted(KEYS[:2])
        self.assertEqual(tested.account_key_write(KEYS[0], NEW), 9)
        self.assertEqual(tested.filters.counts["filter left by a refused account key write"], 1)
        self.assertEqual((tested.device.filter, tested.built), (afresh(tested.device), 0))

    def test_other_events(self):
        tested = Counted(KEYS[:3])
        before = tested.device.filter
        tested.send(Overflow())
        tested.bring_to("proved", KEYS[2])
        self.assertEqual((tested.device.filter, tested.built), (before, 0))


if __name__ == "__main__":
    unittest.main()
