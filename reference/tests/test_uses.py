"""The situations of the use of account keys: each is counted where it occurs, and beside it not."""

import unittest

from ..generator.seeker_blocks import session_key
from ..generator.uses import Uses
from ..rules.device import MOST_KEYS
from ..rules.events import FactoryReset
from .device_under_test import SECRET, SECRET_OF_ACCOUNT_KEY, DeviceUnderTest, account_key

KEYS = [account_key(i) for i in range(MOST_KEYS)]
NEW = account_key(17)
HELD_K = session_key(SECRET_OF_ACCOUNT_KEY)
KEPT = "key stored longest ago kept, for its use by "


class Counted(DeviceUnderTest):
    """A device under test whose steps are noted."""

    def __init__(self, keys=()):
        self.uses = Uses()
        super().__init__(keys)

    def send(self, event):
        before = self.device
        answer = super().send(event)
        self.uses.note(before, event, self.device, self.reply)
        return answer

    def write(self, owner, key):
        self.bring_to("paired", owner)
        self.account_key_write(owner, key)

    def counts(self):
        return {name: times for name, times in self.uses.counts.items() if times}


class Requests(unittest.TestCase):
    def test_places_of_a_full_list(self):
        for place, key in enumerate(KEYS, start=1):
            tested = Counted(KEYS)
            tested.request(key)
            self.assertEqual(tested.counts(), {f"full list, request by the key at place {place}": 1})

    def test_no_full_list(self):
        tested = Counted(KEYS[:-1])
        tested.request(KEYS[0])
        self.assertEqual(tested.counts(), {})

    def test_k_on_another_link(self):
        for link, counted in ((0, 0), (1, 1)):
            tested = Counted(KEYS[:4])
            tested.request(KEYS[0])
            tested.request(KEYS[0], link=link)
            self.assertEqual(tested.uses.counts["request by a key that is K on another link"], counted)

    def test_8(self):
        for key, counted in ((KEYS[0], 1), (KEYS[2], 1), (KEYS[3], 0)):
            tested = Counted(KEYS[:4])
            tested.request(KEYS[3], salt=bytes(8))
            self.assertEqual(tested.request(key, salt=bytes(8)), 8)
            self.assertEqual(tested.uses.counts["8 for a key that is not last"], counted)

    def test_80_bytes(self):
        for keys, counted in (([HELD_K, KEYS[0]], 1), ([KEYS[0], HELD_K], 0), (KEYS[:2], 0)):
            tested = Counted(keys)
            tested.pairing_mode(True)
            self.assertEqual(tested.public_request(secret=SECRET_OF_ACCOUNT_KEY), 0)
            self.assertEqual(tested.uses.counts["80 bytes, K equals a held key that is not last"], counted)


class Writes(unittest.TestCase):
    def test_places_of_a_full_list(self):
        for place, key in enumerate(KEYS, start=1):
            tested = Counted(KEYS)
            tested.write(KEYS[-1], key)
            self.assertEqual(tested.uses.counts[f"full list, key at place {place} written again"], 1)

    def test_no_full_list(self):
        tested = Counted(KEYS[:-1])
        tested.write(KEYS[-2], KEYS[0])
        self.assertEqual(tested.counts(), {})

    def evictions(self, tested):
        return {name.removeprefix(KEPT): times for name, times in tested.counts().items() if name.startswith(KEPT)}

    def test_the_key_stored_longest_ago_is_evicted(self):
        tested = Counted(KEYS)
        tested.request(KEYS[1])
        tested.write(KEYS[-1], NEW)
        self.assertEqual(self.evictions(tested), {})

    def test_it_is_kept(self):
        tested = Counted(KEYS)
        tested.request(KEYS[0])
        tested.write(KEYS[-1], NEW)
        self.assertEqual(self.evictions(tested), {"a request": 1})
        tested = Counted(KEYS)
        tested.write(KEYS[-1], KEYS[0])
        tested.write(KEYS[-1], NEW)
        self.assertEqual(self.evictions(tested), {"being written again": 1})

    def test_the_last_use_counts(self):
        tested = Counted(KEYS)
        tested.request(KEYS[0])
        tested.write(KEYS[-1], KEYS[0])
        tested.write(KEYS[-1], NEW)
        self.assertEqual(self.evictions(tested), {"being written again": 1})

    def test_a_reset_begins_another_order(self):
        tested = Counted(KEYS)
        tested.request(KEYS[0])
        tested.send(FactoryReset(0))
        tested.pairing_mode(True)
        for key in (KEYS[1], KEYS[0], *KEYS[2:], NEW):
            tested.bring_to("paired", session_key(SECRET), secret=SECRET)
            tested.account_key_write(session_key(SECRET), key)
        # The one that was stored first after the reset.
        self.assertNotIn(KEYS[1], tested.device.keys)
        self.assertEqual(self.evictions(tested), {})


if __name__ == "__main__":
    unittest.main()
