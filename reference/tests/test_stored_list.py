"""The stored list: its bytes, each malformed form, and power-on from it."""

import unittest
from unittest import mock

from .. import older_stored_list
from ..rules import control
from ..rules.advertising import account_key_filter
from ..rules.device import Device
from ..rules.events import PowerOn, Reply
from ..rules.lent_output import write_stored_list
from ..rules.model import step
from ..rules.stored_list import pack, read_stored_list, stored_list
from .device_under_test import BLE, FILTER_SALT, MODEL, NAME, PUBLIC, DeviceUnderTest, account_key

KEYS = [account_key(i) for i in range(11)]

MALFORMED = {
    "nothing": b"",
    "one byte": b"\x00",
    "length only": bytes.fromhex("0002"),
    "no count": bytes.fromhex("000201"),
    "no count, version 2": bytes.fromhex("000202"),
    "length too small": bytes.fromhex("00010100"),
    "length too large": bytes.fromhex("00030100"),
    "length little-endian": bytes.fromhex("02000100"),
    "length says one key, count none": bytes.fromhex("00120100") + KEYS[0],
    "count says one key, length none": bytes.fromhex("00020101") + KEYS[0],
    "count says one key, none there": bytes.fromhex("00120101"),
    "a key cut short": pack(KEYS[:2])[:-1],
    "a key missing": pack(KEYS[:2])[:-16],
    "version 0": bytes.fromhex("00020000"),
    "version 3": bytes.fromhex("00120301") + KEYS[0],
    **{f"version 1, {n} keys": pack(KEYS[:n], 1) for n in range(6, 12)},
    "eleven keys": pack(KEYS),
    "eleven keys, the count says ten": bytes.fromhex("00b2020a") + b"".join(KEYS),
    "ten keys, the count says eleven": bytes.fromhex("00a2020b") + b"".join(KEYS[:10]),
    "first key starts with 0x05": pack([b"\x05" + KEYS[0][1:], KEYS[1]]),
    "last key starts with 0x00": pack(KEYS[:4] + [bytes(16)]),
    "a key twice, neighbours": pack([KEYS[0], KEYS[0]]),
    "a key twice, first and last": pack(KEYS[:4] + KEYS[:1]),
    "a trailing byte": pack(KEYS[:1]) + b"\x00",
    "a trailing byte counted": bytes.fromhex("00130101") + KEYS[0] + b"\x00",
    "a trailing key": pack(KEYS[:1]) + KEYS[1],
}


def power_on_from(stored):
    return PowerOn(stored, NAME, PUBLIC, BLE, MODEL, FILTER_SALT)


def power_on_of_older_firmware(stored):
    """The answer of firmware before request (vi): its reader in place of ours."""
    with mock.patch.object(control, "read_stored_list", older_stored_list.read_stored_list):
        return step(None, power_on_from(stored))[1].answer


class StoredList(unittest.TestCase):
    def test_empty(self):
        self.assertEqual(stored_list(DeviceUnderTest().device).hex(), "00020200")

    def test_read_undoes_write(self):
        for n in range(11):
            device = DeviceUnderTest(KEYS[:n]).device
            self.assertEqual(len(stored_list(device)), 4 + 16 * n)
            self.assertEqual(read_stored_list(stored_list(device)), KEYS[:n])

    def test_both_versions_are_read(self):
        for n in range(6):
            self.assertEqual(read_stored_list(pack(KEYS[:n], 1)), KEYS[:n])
            self.assertEqual(read_stored_list(pack(KEYS[:n], 2)), KEYS[:n])

    def test_older_firmware(self):
        """ "Old firmware given a 0x02 list answers 14", and its own lists are read as it reads them."""
        for n in range(11):
            written = stored_list(DeviceUnderTest(KEYS[:n]).device)
            self.assertEqual(power_on_of_older_firmware(written), 14)
        for data in (*map(older_stored_list.pack, (KEYS[:n] for n in range(7))), *MALFORMED.values()):
            self.assertEqual(read_stored_list(data), older_stored_list.read_stored_list(data))

    def test_order_is_kept(self):
        device = DeviceUnderTest([KEYS[2], KEYS[0], KEYS[1]]).device
        self.assertEqual(stored_list(device)[4:], KEYS[2] + KEYS[0] + KEYS[1])

    def test_each_malformed_list(self):
        for name, data in MALFORMED.items():
            with self.subTest(name):
                self.assertIsNone(read_stored_list(data))

    def test_lent_output(self):
        for n in range(11):
            device = DeviceUnderTest(KEYS[:n]).device
            whole = stored_list(device)
            for size in (0, 3, len(whole) - 1, len(whole), len(whole) + 1, 200):
                out = bytes([0xEE]) * size
                if size < len(whole):
                    expected = (13, out)
                else:
                    expected = (0, whole + out[len(whole) :])
                self.assertEqual(write_stored_list(device, out), expected)


class PowerOnFromList(unittest.TestCase):
    def test_taken(self):
        device, reply = step(None, power_on_from(pack(KEYS[:2])))
        expected = Device(tuple(KEYS[:2]), NAME, PUBLIC, BLE, MODEL, FILTER_SALT, account_key_filter(KEYS[:2], FILTER_SALT))
        self.assertEqual((device, reply), (expected, Reply(0)))

    def test_taken_again_starts_anew(self):
        tested = DeviceUnderTest(KEYS[:1])
        tested.pairing_mode(True, 5)
        tested.request(KEYS[0], clock=6)
        tested.request(KEYS[1], link=1, clock=7)
        self.assertEqual(tested.send(power_on_from(pack(KEYS[1:3]))), 0)
        expected = Device(tuple(KEYS[1:3]), NAME, PUBLIC, BLE, MODEL, FILTER_SALT, account_key_filter(KEYS[1:3], FILTER_SALT))
        self.assertEqual(tested.device, expected)

    def test_malformed_makes_no_device(self):
        for name, data in MALFORMED.items():
            with self.subTest(name):
                self.assertEqual(step(None, power_on_from(data)), (None, Reply(14)))

    def test_malformed_leaves_an_earlier_device(self):
        tested = DeviceUnderTest(KEYS[:1])
        tested.bring_to("paired", KEYS[0], clock=77)
        for name, data in MALFORMED.items():
            with self.subTest(name):
                after = step(tested.device, power_on_from(data))
                self.assertEqual(after, (tested.device, Reply(14)))


if __name__ == "__main__":
    unittest.main()
