"""The key-based write: which key, which salt, what is handed out."""

import unittest

from ..generator import seeker_blocks
from ..rules.aes import decrypt
from ..rules.device import MOST_KEYS
from ..rules.events import FactoryReset, KeyBasedWrite
from ..rules.key_based import salt_of
from .device_under_test import (
    BLE,
    NONCE,
    OUT,
    PACKET,
    PUBLIC,
    RESPONSE_SALT,
    SECRET,
    SEEKER,
    DeviceUnderTest,
    account_key,
)

KEYS = [account_key(i) for i in range(MOST_KEYS)]


class Secret(unittest.TestCase):
    def test_hash_of_the_ecdh_secret(self):
        secret = "9DADE4F86AC3488BBAC2AC34B5FE68A0EE5A6706F543D9061AD57889498AE6BA"
        key = seeker_blocks.session_key(bytes.fromhex(secret))
        self.assertEqual(key.hex().upper(), "B07F1F17C236CBD33523C515F350AE57")


class Trying(unittest.TestCase):
    def test_place_of_the_fitting_key(self):
        for place, key in enumerate(KEYS, start=1):
            tested = DeviceUnderTest(KEYS)
            self.assertEqual(tested.request(key), 0)
            self.assertEqual(tested.reply.tried, place)
            self.assertEqual(tested.device.links[0].key, key)

    def test_none_fits(self):
        for n in range(MOST_KEYS + 1):
            tested = DeviceUnderTest(KEYS[:n])
            self.assertEqual(tested.request(account_key(19), clock=4), 7)
            self.assertEqual((tested.reply.tried, tested.reply.out), (n, OUT))
            self.assertEqual((tested.device.failures, tested.device.failed_at), (1, 4))

    def test_type_and_address(self):
        tested = DeviceUnderTest(KEYS)
        self.assertEqual(tested.request(KEYS[0], kind=0x10), 7)
        self.assertEqual(tested.request(KEYS[0], kind=0x01), 7)
        self.assertEqual(tested.request(KEYS[0], address=SEEKER), 7)
        self.assertEqual(tested.request(KEYS[0], address=BLE[:5] + b"\x00"), 7)
        self.assertEqual(tested.request(KEYS[0], address=b"\x00" + BLE[1:]), 7)
        self.assertEqual(tested.request(KEYS[0], address=PUBLIC), 0)
        self.assertEqual(tested.request(KEYS[0], address=BLE), 0)

    def test_a_failure_leaves_the_links_k(self):
        tested = DeviceUnderTest(KEYS)
        tested.bring_to("proved", KEYS[1])
        tested.request(account_key(19))
        self.assertEqual(tested.stage(), "proved")


class PublicKey(unittest.TestCase):
    def setUp(self):
        self.tested = DeviceUnderTest(KEYS)

    def test_mode_off(self):
        self.assertEqual(self.tested.public_request(), 6)
        self.assertEqual((self.tested.reply.tried, self.tested.reply.out), (0, OUT))
        self.assertEqual(self.tested.device.failures, 0)

    def test_mode_on(self):
        self.tested.pairing_mode(True)
        self.assertEqual(self.tested.public_request(), 0)
        self.assertEqual(self.tested.reply.tried, 1)
        self.assertEqual(self.tested.device.links[0].key, seeker_blocks.session_key(SECRET))

    def test_rejected_point(self):
        self.tested.pairing_mode(True)
        self.assertEqual(self.tested.public_request(accepted=False), 7)
        self.assertEqual((self.tested.reply.tried, self.tested.device.failures), (0, 1))

    def test_account_keys_are_no_candidates(self):
        self.tested.pairing_mode(True)
        self.assertEqual(self.tested.public_request(key=KEYS[0]), 7)
        self.assertEqual(self.tested.reply.tried, 1)

    def test_sixteen_bytes_never_read_the_secret(self):
        self.tested.pairing_mode(True)
        self.assertEqual(self.tested.request(seeker_blocks.session_key(SECRET)), 7)
        self.assertEqual(self.tested.reply.tried, 10)
        block = self.tested.request_block(KEYS[2])
        write = KeyBasedWrite(0, 0, block, False, bytes(32), RESPONSE_SALT, NONCE, OUT, PACKET)
        self.assertEqual(self.tested.send(write), 0)

    def test_mode_on_serves_account_keys(self):
        self.tested.pairing_mode(True)
        self.assertEqual(self.tested.request(KEYS[4]), 0)


class Response(unittest.TestCase):
    def test_bytes(self):
        for size in (16, 17, 40):
            tested = DeviceUnderTest(KEYS)
            out = bytes(range(size))
            self.assertEqual(tested.request(KEYS[3], out=out), 0)
            response = decrypt(KEYS[3], tested.reply.out[:16])
            self.assertEqual(response, b"\x01" + PUBLIC + RESPONSE_SALT)
            self.assertEqual(tested.reply.out[16:], out[16:])

    def test_bonding_address(self):
        for flags in (0x40, 0x50, 0xC0, 0xFF):
            tested = DeviceUnderTest(KEYS)
            tested.request(KEYS[0], flags=flags, seeker_address=SEEKER, salt=b"\x01\x02")
            self.assertEqual(tested.reply.bond, SEEKER)
        for flags in (0x00, 0x80, 0x20, 0x0F):
            tested = DeviceUnderTest(KEYS)
            tested.request(KEYS[0], flags=flags)
            self.assertEqual((tested.reply.answer, tested.reply.bond), (0, None))
        tested = DeviceUnderTest(KEYS)
        tested.request(KEYS[0], flags=0x10, seeker_address=SEEKER, salt=b"\x01\x02")
        self.assertEqual((tested.reply.answer, tested.reply.bond), (0, None))

    def test_no_address_is_handed_out_on_refusal(self):
        tested = DeviceUnderTest(KEYS)
        parts = {"flags": 0x40, "seeker_address": SEEKER, "salt": b"\x01\x02"}
        tested.request(KEYS[0], **parts)
        self.assertEqual(tested.request(KEYS[0], **parts), 8)
        self.assertEqual((tested.reply.bond, tested.reply.out), (None, OUT))


class Salts(unittest.TestCase):
    def test_place_of_the_salt(self):
        request = bytes(range(16))
        for flags in (0x00, 0x80, 0x20, 0xAF):
            self.assertEqual(salt_of(bytes([0, flags]) + request[2:]), request[8:])
        for flags in (0x40, 0x10, 0x50, 0xFF):
            self.assertEqual(salt_of(bytes([0, flags]) + request[2:]), request[14:])

    def test_replay_of_both_lengths(self):
        tested = DeviceUnderTest(KEYS)
        two = {"flags": 0x10, "seeker_address": SEEKER, "salt": b"\x08\x08"}
        eight = {"flags": 0x00, "salt": b"\x08" * 8}
        for parts in (two, eight):
            self.assertEqual(tested.request(KEYS[1], 1, 5, **parts), 0)
            before = tested.device
            self.assertEqual(tested.request(KEYS[2], 2, 6, **parts), 8)
            # The key before it has moved to the end.
            self.assertEqual((tested.reply.tried, tested.reply.out), (2, OUT))
            self.assertEqual(tested.device, before.copy(clock=6))
            tested.device = tested.device.copy(clock=5)

    def test_lengths_do_not_meet(self):
        tested = DeviceUnderTest(KEYS)
        short = {"flags": 0x40, "seeker_address": b"\x07" * 6, "salt": b"\x07\x07"}
        self.assertEqual(tested.request(KEYS[0], **short), 0)
        self.assertEqual(tested.request(KEYS[0], salt=b"\x07" * 8), 0)
        self.assertEqual(tested.request(KEYS[0], **short), 8)

    def test_sixteen_are_remembered(self):
        tested = DeviceUnderTest(KEYS)
        for i in range(16):
            self.assertEqual(tested.request(KEYS[0], salt=bytes(7) + bytes([i])), 0)
        self.assertEqual(tested.request(KEYS[0], salt=bytes(8)), 8)
        self.assertEqual(tested.request(KEYS[0], salt=b"\xff" * 8), 0)
        self.assertEqual(tested.request(KEYS[0], salt=bytes(7) + b"\x01"), 8)
        self.assertEqual(tested.request(KEYS[0], salt=bytes(8)), 0)
        self.assertEqual(tested.request(KEYS[0], salt=bytes(7) + b"\x01"), 0)
        self.assertEqual(len(tested.device.spent), 16)

    def test_both_lengths_share_the_sixteen_places(self):
        tested = DeviceUnderTest(KEYS)
        first = {"flags": 0x40, "seeker_address": SEEKER, "salt": b"\x01\x01"}
        tested.request(KEYS[0], **first)
        for _ in range(16):
            tested.request(KEYS[0])
        self.assertEqual(tested.request(KEYS[0], **first), 0)

    def test_refused_requests_leave_no_salt(self):
        tested = DeviceUnderTest(KEYS)
        tested.request(KEYS[0], salt=bytes(8), address=SEEKER)
        tested.public_request(salt=bytes(8))
        self.assertEqual(tested.request(KEYS[0], salt=bytes(8)), 0)

    def test_factory_reset_empties_them(self):
        tested = DeviceUnderTest(KEYS)
        tested.pairing_mode(True)
        tested.public_request(salt=bytes(8))
        tested.send(FactoryReset(0))
        self.assertEqual(tested.public_request(salt=bytes(8)), 0)

    def test_salts_are_shared_by_links_and_ways(self):
        tested = DeviceUnderTest(KEYS)
        tested.pairing_mode(True)
        tested.public_request(link=1, salt=bytes(8))
        self.assertEqual(tested.request(KEYS[0], link=2, salt=bytes(8)), 8)


class Replacing(unittest.TestCase):
    def test_an_accepted_request_replaces_k_in_any_stage(self):
        for stage in ("asked", "pairing", "confirming", "proved", "paired"):
            tested = DeviceUnderTest(KEYS)
            tested.bring_to(stage, KEYS[0], clock=3)
            self.assertEqual(tested.request(KEYS[1], clock=4), 0)
            session = tested.device.links[0]
            self.assertEqual((session.key, tested.stage(), session.began), (KEYS[1], "asked", 4))


if __name__ == "__main__":
    unittest.main()
