"""The advertising payload: document 01's samples and the filter vectors."""

import unittest
from hashlib import sha256

from ..rules.advertising import account_key_filter, advertisement, filter_place, filter_size
from ..rules.lent_output import write_advertisement
from .device_under_test import FILTER_SALT, DeviceUnderTest, account_key

FIRST = bytes.fromhex("11223344556677889900AABBCCDDEEFF")
SECOND = bytes.fromhex("11112222333344445555666677778888")
THIRD = bytes.fromhex("99990000AAAABBBBCCCCDDDDEEEEFFFF")


class Filter(unittest.TestCase):
    def test_sizes(self):
        self.assertEqual([filter_size(n) for n in range(1, 11)], [4, 5, 6, 7, 9, 10, 11, 12, 13, 15])

    def test_places(self):
        self.assertEqual(filter_place(35, 4), (0, 3))
        self.assertEqual(filter_place(0xFFFFFFFF, 5), (1, 7))
        self.assertEqual(filter_place(0xFFFFFFFF, 9), (4, 7))

    def test_vectors_with_two_byte_salt(self):
        salt = bytes.fromhex("C7C8")
        self.assertEqual(account_key_filter([FIRST], salt).hex(), "020c802a")
        self.assertEqual(account_key_filter([SECOND, THIRD], salt).hex(), "09e660009f")

    def test_vectors_with_one_byte_salt(self):
        salt = bytes.fromhex("C7")
        self.assertEqual(account_key_filter([FIRST], salt).hex(), "0a428810")
        self.assertEqual(account_key_filter([FIRST, SECOND], salt).hex(), "2fba064200")


class Payload(unittest.TestCase):
    def test_off_and_empty(self):
        device = DeviceUnderTest().device
        self.assertEqual(advertisement(device, False).hex(), "05162cfe0000")
        self.assertEqual(advertisement(device, True).hex(), "05162cfe0000")

    def test_pairing_mode_on(self):
        for keys in ((), (account_key(1),)):
            tested = DeviceUnderTest(keys)
            tested.pairing_mode(True)
            for hide in (False, True):
                self.assertEqual(advertisement(tested.device, hide).hex(), "06162cfe123456")

    def test_layout_for_every_number_of_keys(self):
        for n in range(1, 11):
            keys = [account_key(i) for i in range(n)]
            size = filter_size(n)
            for hide in (False, True):
                payload = advertisement(DeviceUnderTest(keys).device, hide)
                self.assertEqual(payload[0], len(payload) - 1)
                self.assertEqual(payload[1:5].hex(), "162cfe00")
                self.assertEqual(payload[5], size * 16 + 2 * hide)
                self.assertEqual(payload[6 : 6 + size], account_key_filter(keys, FILTER_SALT))
                self.assertEqual(payload[6 + size :], b"\x21" + FILTER_SALT)

    def test_five_keys_make_18_bytes_and_ten_24(self):
        for count, size in ((5, 18), (10, 24)):
            keys = [account_key(i) for i in range(count)]
            self.assertEqual(len(advertisement(DeviceUnderTest(keys).device, False)), size)

    def test_first_number_of_the_hash_sets_its_bit(self):
        # Counted from the lowest bit of byte 0 on.
        x = int.from_bytes(sha256(account_key(1) + FILTER_SALT).digest()[:4], "big")
        payload = advertisement(DeviceUnderTest([account_key(1)]).device, False)
        self.assertTrue(int.from_bytes(payload[6:10], "little") >> (x % 32) & 1)


class LentPayload(unittest.TestCase):
    def test_all_output_sizes(self):
        for n in range(11):
            device = DeviceUnderTest([account_key(i) for i in range(n)]).device
            whole = advertisement(device, True)
            for size in range(40):
                out = bytes([0xEE]) * size
                if size < len(whole):
                    expected = (13, out)
                else:
                    expected = (0, whole + out[len(whole) :])
                self.assertEqual(write_advertisement(device, True, out), expected)


if __name__ == "__main__":
    unittest.main()
