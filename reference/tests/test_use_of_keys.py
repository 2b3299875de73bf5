"""The order of use: what uses an account key and what does not, what is removed, and what follows the order."""

import unittest

from ..generator import seeker_blocks
from ..rules.account_keys import used, with_key
from ..rules.advertising import advertisement
from ..rules.device import MOST_KEYS
from ..rules.events import (
    AccountKeyWrite,
    AddressRotated,
    FactoryReset,
    LinkDown,
    LinkUp,
    Overflow,
    PairingMode,
)
from ..rules.stored_list import pack, stored_list
from .device_under_test import BLE, SECRET_OF_ACCOUNT_KEY, DeviceUnderTest, account_key, power_on

KEYS = tuple(account_key(i) for i in range(MOST_KEYS))
A, B, C, *MORE, D, E = KEYS
NEW = account_key(17)
# K of an 80-byte request that can be held as an account key.
HELD_K = seeker_blocks.session_key(SECRET_OF_ACCOUNT_KEY)


def moved(keys, key):
    """The key at the end, the others in their order: written without the rule that is tested."""
    place = keys.index(key)
    return (*keys[:place], *keys[place + 1 :], key)


def every_key_of_every_list():
    for size in range(1, MOST_KEYS + 1):
        for key in KEYS[:size]:
            yield KEYS[:size], key


class OrderTest(unittest.TestCase):
    def assert_order(self, tested, *keys):
        """The list in the state, and as it is stored."""
        self.assertEqual(tested.device.keys, keys)
        self.assertEqual(stored_list(tested.device), pack(keys))

    def request(self, tested, key, **parts):
        self.assertEqual(tested.request(key, **parts), 0)

    def write(self, tested, key, link=0):
        """This account key is written by the owner of the last key, whose request leaves the order."""
        owner = tested.device.keys[-1]
        tested.bring_to("paired", owner, link, tested.device.clock)
        self.assertEqual(tested.account_key_write(owner, key, link, tested.device.clock), 0)


class Using(OrderTest):
    def test_the_key_moves_to_the_end(self):
        for keys, key in every_key_of_every_list():
            self.assertEqual(used(keys, key), moved(keys, key))
            self.assertEqual(with_key(keys, key), moved(keys, key))

    def test_a_new_key_goes_last(self):
        for size in range(MOST_KEYS):
            self.assertEqual(with_key(KEYS[:size], NEW), (*KEYS[:size], NEW))
        self.assertEqual(with_key(KEYS, NEW), (*KEYS[1:], NEW))


class Stored(OrderTest):
    def test_into_lists_with_room(self):
        for size in range(1, MOST_KEYS):
            tested = DeviceUnderTest(KEYS[:size])
            self.write(tested, NEW)
            self.assert_order(tested, *KEYS[:size], NEW)

    def test_into_an_empty_list(self):
        tested = DeviceUnderTest()
        tested.pairing_mode(True)
        tested.bring_to("paired", HELD_K, secret=SECRET_OF_ACCOUNT_KEY)
        self.assertEqual(tested.account_key_write(HELD_K, A), 0)
        self.assert_order(tested, A)

    def test_into_a_full_list(self):
        tested = DeviceUnderTest(KEYS)
        self.write(tested, NEW)
        self.assert_order(tested, B, C, *MORE, D, E, NEW)


class WrittenAgain(OrderTest):
    def test_at_each_place_of_each_list(self):
        for keys, key in every_key_of_every_list():
            tested = DeviceUnderTest(keys)
            self.write(tested, key)
            self.assert_order(tested, *moved(keys, key))

    def test_refused_writes_use_no_key(self):
        block = seeker_blocks.account_key_block(E, A)
        for answer, stage, data in ((12, "paired", block[:15]), (10, "proved", block), (9, None, block)):
            tested = DeviceUnderTest(KEYS)
            if stage:
                tested.bring_to(stage, E)
            self.assertEqual(tested.send(AccountKeyWrite(0, 0, data)), answer)
            self.assert_order(tested, *KEYS)

    def test_the_writing_owners_key_is_not_used(self):
        tested = DeviceUnderTest(KEYS)
        tested.bring_to("paired", A)
        self.request(tested, B, link=1)
        self.assertEqual(tested.account_key_write(A, C), 0)
        self.assert_order(tested, *MORE, D, E, A, B, C)


class Requested(OrderTest):
    def test_at_each_place_of_each_list(self):
        for keys, key in every_key_of_every_list():
            tested = DeviceUnderTest(keys)
            self.request(tested, key)
            # The told place is the one before the move.
            self.assertEqual(tested.reply.tried, keys.index(key) + 1)
            self.assertEqual(tested.device.links[0].key, key)
            self.assert_order(tested, *moved(keys, key))

    def test_the_next_place_follows_the_new_order(self):
        tested = DeviceUnderTest(KEYS)
        for key, place in ((B, 2), (B, 10), (A, 1), (E, 8), (A, 9), (C, 1)):
            self.request(tested, key)
            self.assertEqual(tested.reply.tried, place)
        self.assert_order(tested, *MORE, D, B, E, A, C)

    def test_in_pairing_mode(self):
        tested = DeviceUnderTest(KEYS)
        tested.pairing_mode(True)
        self.request(tested, C)
        self.assert_order(tested, A, B, *MORE, D, E, C)

    def test_on_two_links(self):
        tested = DeviceUnderTest((A, B, C))
        self.request(tested, A, link=0)
        self.request(tested, B, link=1)
        self.request(tested, A, link=2)
        self.assertEqual(tested.reply.tried, 2)
        self.assert_order(tested, C, B, A)
        self.assertEqual([tested.device.links[link].key for link in range(3)], [A, B, A])
        self.assertEqual(tested.pairing_started(link=0), 0)
        self.assertEqual(tested.pairing_started(link=2), 0)

    def test_again_on_its_own_link(self):
        tested = DeviceUnderTest((A, B, C))
        self.request(tested, A)
        self.request(tested, B)
        self.request(tested, A)
        self.assert_order(tested, C, B, A)


class Refused(OrderTest):
    """ "any refusal": none of them uses the key of the request."""

    def refused(self, tested, answer, send):
        before = tested.device.keys
        self.assertEqual(send(), answer)
        self.assert_order(tested, *before)

    def test_8_at_each_place(self):
        tested = DeviceUnderTest(KEYS)
        self.request(tested, E, salt=bytes(8))
        for place, key in enumerate(KEYS, start=1):
            self.refused(tested, 8, lambda: tested.request(key, salt=bytes(8)))
            self.assertEqual(tested.reply.tried, place)

    def test_7(self):
        tested = DeviceUnderTest(KEYS)
        self.refused(tested, 7, lambda: tested.request(NEW))
        # A held key that names another address, and one of another type.
        for key in KEYS[:4]:
            self.refused(tested, 7, lambda: tested.request(key, address=BLE[::-1]))
            self.refused(tested, 7, lambda: tested.request(key, kind=0x10))

    def test_5(self):
        tested = DeviceUnderTest(KEYS)
        for _ in range(10):
            tested.request(NEW)
        for key in KEYS:
            self.refused(tested, 5, lambda: tested.request(key))

    def test_1_2_13_and_4(self):
        tested = DeviceUnderTest(KEYS)
        tested.pairing_mode(False, clock=50)
        block = tested.request_block(A)
        self.refused(tested, 1, lambda: tested.request(A, link=8, clock=60))
        self.refused(tested, 2, lambda: tested.raw_request(block[:15], clock=60))
        self.refused(tested, 2, lambda: tested.raw_request(block + bytes(1), clock=60))
        self.refused(tested, 13, lambda: tested.request(A, clock=60, out=bytes(15)))
        self.refused(tested, 13, lambda: tested.request(A, clock=60, packet=bytes(79)))
        self.refused(tested, 4, lambda: tested.request(A, clock=49))
        self.request(tested, A, clock=60)
        self.assert_order(tested, B, C, *MORE, D, E, A)

    def test_6_with_a_held_key(self):
        tested = DeviceUnderTest((HELD_K, A))
        self.refused(tested, 6, lambda: tested.public_request(secret=SECRET_OF_ACCOUNT_KEY))


class EightyBytes(OrderTest):
    def test_k_is_no_key_of_the_list(self):
        tested = DeviceUnderTest(KEYS)
        tested.pairing_mode(True)
        self.assertEqual(tested.public_request(), 0)
        self.assert_order(tested, *KEYS)

    def test_k_equals_a_held_key_at_each_place(self):
        self.assertEqual(HELD_K[0], 0x04)
        for place in range(MOST_KEYS):
            keys = (*KEYS[:place], HELD_K, *KEYS[place:-1])
            tested = DeviceUnderTest(keys)
            tested.pairing_mode(True)
            self.assertEqual(tested.public_request(secret=SECRET_OF_ACCOUNT_KEY), 0)
            self.assertEqual((tested.reply.tried, tested.device.links[0].key), (1, HELD_K))
            self.assert_order(tested, *keys)
            # The same key by 16 bytes is used.
            self.request(tested, HELD_K)
            self.assert_order(tested, *KEYS[:-1], HELD_K)

    def test_refused(self):
        tested = DeviceUnderTest((HELD_K, A))
        tested.pairing_mode(True)
        secret = SECRET_OF_ACCOUNT_KEY
        self.assertEqual(tested.public_request(secret=secret, salt=bytes(8)), 0)
        self.assertEqual(tested.public_request(secret=secret, salt=bytes(8)), 8)
        self.assertEqual(tested.public_request(secret=secret, accepted=False), 7)
        self.assertEqual(tested.public_request(secret=secret, address=BLE[::-1]), 7)
        self.assert_order(tested, HELD_K, A)

    def test_an_account_key_of_its_own_pairing(self):
        tested = DeviceUnderTest((A, HELD_K, B))
        tested.pairing_mode(True)
        tested.bring_to("paired", HELD_K, secret=SECRET_OF_ACCOUNT_KEY)
        self.assert_order(tested, A, HELD_K, B)
        self.assertEqual(tested.account_key_write(HELD_K, HELD_K), 0)
        self.assert_order(tested, A, B, HELD_K)


class Evicted(OrderTest):
    def test_the_first_stays_if_a_request_used_it(self):
        tested = DeviceUnderTest(KEYS)
        self.request(tested, A, link=3)
        self.write(tested, NEW)
        self.assert_order(tested, C, *MORE, D, E, A, NEW)
        self.assertEqual(tested.request(B, link=1), 7)
        self.request(tested, A, link=1)
        self.assertEqual(tested.reply.tried, 9)

    def test_the_first_stays_if_it_was_written_again(self):
        tested = DeviceUnderTest(KEYS)
        self.write(tested, A)
        self.write(tested, NEW)
        self.assert_order(tested, C, *MORE, D, E, A, NEW)

    def test_a_refused_request_saves_no_key(self):
        tested = DeviceUnderTest(KEYS)
        self.request(tested, E, salt=bytes(8))
        self.assertEqual(tested.request(A, salt=bytes(8)), 8)
        self.write(tested, NEW)
        self.assert_order(tested, B, C, *MORE, D, E, NEW)

    def test_80_bytes_save_no_key(self):
        tested = DeviceUnderTest((HELD_K, *KEYS[1:]))
        tested.pairing_mode(True)
        self.assertEqual(tested.public_request(secret=SECRET_OF_ACCOUNT_KEY, link=3), 0)
        self.write(tested, NEW)
        self.assert_order(tested, B, C, *MORE, D, E, NEW)
        self.assertEqual(tested.stage(3), "asked")

    def test_with_one_place_left_none_is_removed(self):
        tested = DeviceUnderTest(KEYS[:-1])
        self.request(tested, A)
        self.write(tested, NEW)
        self.assert_order(tested, B, C, *MORE, D, A, NEW)

    def test_the_writing_owner_was_the_first(self):
        tested = DeviceUnderTest(KEYS)
        tested.bring_to("paired", A)
        self.assertEqual(tested.account_key_write(A, NEW), 0)
        self.assert_order(tested, C, *MORE, D, E, A, NEW)

    def test_a_removed_key_is_new_when_it_is_written_again(self):
        tested = DeviceUnderTest(KEYS)
        self.write(tested, NEW)
        self.write(tested, A)
        self.assert_order(tested, C, *MORE, D, E, NEW, A)

    def test_all_used_in_turn(self):
        tested = DeviceUnderTest(KEYS)
        for key in reversed(KEYS):
            self.request(tested, key)
        self.write(tested, NEW)
        self.assert_order(tested, *KEYS[-2::-1], NEW)

    def test_a_removed_key_stays_k_of_its_link(self):
        tested = DeviceUnderTest(KEYS)
        self.request(tested, A, link=3)
        for key in KEYS[1:]:
            self.request(tested, key)
        self.write(tested, NEW)
        self.assert_order(tested, B, C, *MORE, D, E, NEW)
        self.assertEqual(tested.device.links[3].key, A)
        self.assertEqual(tested.pairing_started(link=3), 0)


class OtherEvents(OrderTest):
    def test_they_use_no_key(self):
        tested = DeviceUnderTest(KEYS)
        self.request(tested, A)
        self.request(tested, E, link=1)
        order = B, C, *MORE, D, A, E
        for send in (
            lambda: tested.name_write(A, b"name"),
            lambda: tested.pairing_started(),
            lambda: tested.confirmation_needed(),
            lambda: tested.passkey_write(A),
            lambda: tested.pairing_ended(),
            lambda: tested.pairing_ended(success=False),
            lambda: tested.send(LinkUp(0, 0)),
            lambda: tested.send(LinkDown(0, 0)),
            lambda: tested.send(PairingMode(True, 0)),
            lambda: tested.send(AddressRotated(BLE[::-1], b"12", 0)),
            lambda: tested.send(Overflow()),
        ):
            self.assertEqual(send(), 0)
            self.assert_order(tested, *order)

    def test_a_pairing_uses_its_key_once(self):
        tested = DeviceUnderTest(KEYS)
        tested.bring_to("proved", A)
        self.request(tested, B, link=1)
        tested.pairing_ended()
        self.assert_order(tested, C, *MORE, D, E, A, B)

    def test_factory_reset(self):
        tested = DeviceUnderTest(KEYS)
        self.request(tested, A)
        self.assertEqual(tested.send(FactoryReset(0)), 0)
        self.assert_order(tested)


class Read(OrderTest):
    """ "an old one is read as if its order were use" """

    def test_the_first_is_the_least_recently_used(self):
        tested = DeviceUnderTest((C, A, E, *MORE, B, D))
        self.assert_order(tested, C, A, E, *MORE, B, D)
        self.write(tested, NEW)
        self.assert_order(tested, A, E, *MORE, B, D, NEW)

    def test_power_on_uses_no_key(self):
        tested = DeviceUnderTest(KEYS)
        self.request(tested, A)
        self.assertEqual(tested.send(power_on(KEYS)), 0)
        self.assert_order(tested, *KEYS)

    def test_a_stored_order_comes_back(self):
        tested = DeviceUnderTest(KEYS)
        self.request(tested, B)
        stored = tested.device.keys
        self.assertEqual(tested.send(power_on(stored)), 0)
        self.assert_order(tested, A, C, *MORE, D, E, B)

    def test_a_refused_power_on(self):
        tested = DeviceUnderTest(KEYS)
        self.request(tested, A)
        self.assertEqual(tested.send(power_on((*KEYS, NEW))), 14)
        self.assert_order(tested, B, C, *MORE, D, E, A)


class Payload(OrderTest):
    def test_a_use_changes_no_byte(self):
        for keys, key in every_key_of_every_list():
            tested = DeviceUnderTest(keys)
            before = [advertisement(tested.device, hide) for hide in (False, True)]
            self.request(tested, key)
            self.write(tested, keys[0])
            self.assertEqual([advertisement(tested.device, hide) for hide in (False, True)], before)

    def test_an_eviction_changes_it(self):
        tested = DeviceUnderTest(KEYS)
        before = advertisement(tested.device, False)
        self.write(tested, NEW)
        self.assertNotEqual(advertisement(tested.device, False), before)


if __name__ == "__main__":
    unittest.main()
