"""The pairing, passkey and account key events."""

import unittest

from ..generator import seeker_blocks
from ..rules.aes import decrypt
from ..rules.device import MOST_KEYS
from ..rules.events import AccountKeyWrite
from ..rules.stored_list import stored_list
from .device_under_test import OUT, PASSKEY_SALT, DeviceUnderTest, account_key

KEYS = [account_key(i) for i in range(MOST_KEYS)]
NEW = account_key(17)
STAGES = ("asked", "pairing", "confirming", "proved", "paired")
NEEDED = {
    "asked": lambda tested: tested.pairing_started(),
    "pairing": lambda tested: tested.confirmation_needed(),
    "confirming": lambda tested: tested.passkey_write(KEYS[0]),
    "proved": lambda tested: tested.pairing_ended(),
    "paired": lambda tested: tested.account_key_write(KEYS[0], NEW),
}


def device_at(stage):
    tested = DeviceUnderTest(KEYS)
    # A second link shows that other links are left as they are.
    tested.bring_to("proved", KEYS[1], link=5)
    tested.bring_to(stage, KEYS[0])
    return tested


class Stages(unittest.TestCase):
    def test_every_event_in_every_stage(self):
        for needed, send in NEEDED.items():
            for stage in STAGES:
                tested = device_at(stage)
                self.assertEqual(send(tested), 0 if stage == needed else 10)
                if stage != needed:
                    self.assertIsNone(tested.stage())
                    self.assertIn(tested.reply.out, (b"", OUT))
                self.assertEqual(tested.stage(5), "proved")

    def test_next_stage(self):
        for stage, after in zip(STAGES, STAGES[1:] + (None,)):
            tested = device_at(stage)
            NEEDED[stage](tested)
            self.assertEqual(tested.stage(), after)

    def test_idle(self):
        for send in NEEDED.values():
            tested = DeviceUnderTest(KEYS)
            before = tested.device
            self.assertEqual(send(tested), 9)
            self.assertEqual(tested.device, before)

    def test_failure_drops_k_in_any_stage(self):
        for stage in STAGES:
            tested = device_at(stage)
            self.assertEqual(tested.pairing_ended(success=False), 0)
            self.assertEqual((tested.stage(), tested.stage(5)), (None, "proved"))

    def test_failure_on_an_idle_link(self):
        self.assertEqual(DeviceUnderTest(KEYS).pairing_ended(success=False), 9)


class Capability(unittest.TestCase):
    def test_taken(self):
        for capability in (0, 1, 2, 4):
            tested = device_at("asked")
            self.assertEqual(tested.pairing_started(capability=capability), 0)
            self.assertEqual(tested.stage(), "pairing")

    def test_refused(self):
        for capability in (3, 5, 6, 255):
            tested = device_at("asked")
            self.assertEqual(tested.pairing_started(capability=capability), 11)
            self.assertIsNone(tested.stage())


class Passkey(unittest.TestCase):
    def raw_response(self, ours):
        """Our passkey in the response, seen by the seeker that wrote 5."""
        tested = device_at("pairing")
        tested.confirmation_needed(passkey=ours)
        tested.passkey_write(KEYS[0], passkey=5)
        return decrypt(KEYS[0], tested.reply.out[:16])

    def test_response(self):
        self.assertEqual(self.raw_response(123_456), b"\x03\x01\xe2\x40" + PASSKEY_SALT)
        self.assertEqual(self.raw_response(5), b"\x03\x00\x00\x05" + PASSKEY_SALT)
        self.assertEqual(self.raw_response(999_999), b"\x03\x0f\x42\x3f" + PASSKEY_SALT)

    def test_equal(self):
        tested = device_at("confirming")
        self.assertEqual(tested.passkey_write(KEYS[0], passkey=123_456), 0)
        self.assertIs(tested.reply.confirm, True)
        self.assertEqual(tested.stage(), "proved")
        self.assertEqual(tested.reply.out[16:], OUT[16:])

    def test_unequal(self):
        for passkey in (0, 123_455, 123_457, 2**24 - 1):
            tested = device_at("confirming")
            self.assertEqual(tested.passkey_write(KEYS[0], passkey=passkey), 0)
            self.assertIs(tested.reply.confirm, False)
            self.assertIsNone(tested.stage())
            self.assertEqual(decrypt(KEYS[0], tested.reply.out[:16])[1:4].hex(), "01e240")
            self.assertEqual(tested.reply.out[16:], OUT[16:])

    def test_wrong_first_byte(self):
        for kind in (0x00, 0x01, 0x03, 0x04, 0xFF):
            tested = device_at("confirming")
            self.assertEqual(tested.passkey_write(KEYS[0], kind=kind), 12)
            self.assertIsNone(tested.stage())
            self.assertEqual((tested.reply.confirm, tested.reply.out), (None, OUT))

    def test_wrong_length(self):
        block = seeker_blocks.passkey_block(KEYS[0], 123_456, bytes(12))
        for wrong in (b"", block[:1], block[:15], block + b"\x00", block * 2):
            tested = device_at("confirming")
            self.assertEqual(tested.raw_passkey_write(wrong), 12)
            self.assertIsNone(tested.stage())
            self.assertEqual((tested.reply.confirm, tested.reply.out), (None, OUT))

    def test_seekers_salt_is_free(self):
        tested = device_at("confirming")
        block = seeker_blocks.passkey_block(KEYS[0], 123_456, b"\xff" * 12)
        self.assertEqual(tested.raw_passkey_write(block), 0)
        self.assertIs(tested.reply.confirm, True)


class AccountKeys(unittest.TestCase):
    def write(self, keys, new):
        """The device after this key was written by the owner of the last key, whose request leaves the order."""
        tested = DeviceUnderTest(keys)
        tested.bring_to("paired", keys[-1])
        self.assertEqual(tested.account_key_write(keys[-1], new), 0)
        self.assertIsNone(tested.stage())
        return tested

    def test_new_one_goes_last(self):
        for n in range(1, MOST_KEYS):
            tested = self.write(KEYS[:n], NEW)
            self.assertEqual(tested.device.keys, (*KEYS[:n], NEW))

    def test_full_list_loses_the_first(self):
        tested = self.write(KEYS, NEW)
        self.assertEqual(tested.device.keys, (*KEYS[1:], NEW))
        self.assertEqual(stored_list(tested.device)[4:20], KEYS[1])
        self.assertEqual(tested.request(KEYS[0]), 7)
        self.assertEqual(tested.request(NEW), 0)
        self.assertEqual(tested.reply.tried, 10)

    def test_refused_blocks_drop_k(self):
        block = seeker_blocks.account_key_block(KEYS[0], NEW)
        wrong_first = seeker_blocks.account_key_block(KEYS[0], b"\x05" + NEW[1:])
        for wrong in (wrong_first, b"", block[:15], block + b"\x00"):
            tested = device_at("paired")
            keys = tested.device.keys
            self.assertEqual(tested.send(AccountKeyWrite(0, 0, wrong)), 12)
            self.assertEqual((tested.stage(), tested.device.keys), (None, keys))
            self.assertEqual(tested.send(AccountKeyWrite(0, 0, block)), 9)

    def test_k_is_used_once(self):
        tested = self.write(KEYS[:1], NEW)
        self.assertEqual(tested.account_key_write(KEYS[0], account_key(18)), 9)


if __name__ == "__main__":
    unittest.main()
