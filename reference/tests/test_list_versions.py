"""The situations of the stored list's versions: each is counted where it occurs, and beside it not."""

import unittest

from ..generator.list_versions import NAMES, ListVersions
from ..rules.device import MOST_KEYS
from ..rules.events import PowerOn
from ..rules.stored_list import pack
from .device_under_test import BLE, FILTER_SALT, MODEL, NAME, PUBLIC, DeviceUnderTest, account_key

KEYS = [account_key(i) for i in range(MOST_KEYS + 1)]
NEW = account_key(17)


class Counted(DeviceUnderTest):
    """A device under test whose steps are noted."""

    def __init__(self, keys=()):
        self.situations = ListVersions()
        super().__init__(keys)
        self.situations = ListVersions()

    def send(self, event):
        before = self.device
        answer = super().send(event)
        self.situations.note(before, event, self.device, self.reply)
        return answer

    def power_on(self, stored, name=NAME):
        return self.send(PowerOn(stored, name, PUBLIC, BLE, MODEL, FILTER_SALT))

    def write(self, key):
        owner = self.device.keys[-1]
        self.bring_to("paired", owner)
        self.account_key_write(owner, key)

    def counts(self):
        return {name: times for name, times in self.situations.counts.items() if times}


class Lists(unittest.TestCase):
    def check(self, stored, answer, *situations, name=NAME):
        tested = Counted()
        self.assertEqual(tested.power_on(stored, name), answer)
        self.assertEqual(tested.counts(), dict.fromkeys(situations, 1))

    def test_read(self):
        for version, most in ((1, 5), (2, 10)):
            for n in range(most + 1):
                self.check(pack(KEYS[:n], version), 0, f"version {version} read with {n} keys")

    def test_refused(self):
        for n in range(6, 12):
            self.check(pack(KEYS[:n], 1), 14, f"version 1 refused with {n} keys")
        self.check(pack(KEYS, 2), 14, "version 2 refused with 11 keys")
        for version in (0, 3):
            for n in (0, 5, 10):
                self.check(pack(KEYS[:n], version), 14, f"version {version} refused, all else well-formed")

    def test_refused_for_something_else(self):
        twice, no_account_key = pack([*KEYS[:5], KEYS[0]], 1), pack([bytes(16)], 3)
        for stored in (b"", pack(KEYS[:2])[:-1], pack(KEYS[:6], 1) + b"\x00", twice, no_account_key):
            self.check(stored, 14)
        self.check(pack(KEYS[:2]), 14, name=b"\xff")
        self.check(pack(KEYS[:2], 0x81), 14)

    def test_fewer_keys_than_before(self):
        more = "list of version 1 read where more keys were held"
        for held, counted in ((5, 0), (6, 1)):
            tested = Counted(KEYS[:held])
            tested.power_on(pack(KEYS[:5], 1))
            self.assertEqual(tested.situations.counts[more], counted)


class NewKeys(unittest.TestCase):
    def test_behind_a_full_list_of_version_1(self):
        behind = "new key behind a full list of version 1"
        for count, version, counted in ((5, 1, 1), (5, 2, 0), (4, 1, 0)):
            tested = Counted()
            tested.power_on(pack(KEYS[:count], version))
            tested.write(NEW)
            tested.write(account_key(18))
            self.assertEqual(tested.situations.counts[behind], counted)

    def test_last_place_and_full_list(self):
        for count, name in ((8, None), (9, "last place taken by a new key"), (10, "new key in a full list")):
            tested = Counted(KEYS[:count])
            tested.write(NEW)
            self.assertEqual(tested.counts(), {name: 1} if name else {})

    def test_a_held_key_is_none(self):
        tested = Counted(KEYS[:10])
        tested.write(KEYS[0])
        self.assertEqual(tested.counts(), {})

    def test_every_situation_has_a_name(self):
        self.assertEqual(len(NAMES), len(set(NAMES)))
        self.assertEqual(ListVersions().missed(), list(NAMES))


if __name__ == "__main__":
    unittest.main()
