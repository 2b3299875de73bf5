"""UTF-8 against Python's own decoder, on both sides of every edge of RFC 3629's table."""

import unittest
from itertools import product

from ..rules.utf8 import ROWS, is_utf8

# The lowest and the highest byte of every part of the table, and the bytes beside them.
FIRST_BYTES = bytes.fromhex("00 7f 80 bf c0 c1 c2 df e0 e1 ec ed ee ef f0 f1 f3 f4 f5 ff")
LATER_BYTES = bytes.fromhex("00 7f 80 8f 90 9f a0 bf c0 ff")
CHARACTERS = (
    0x0, 0x7F, 0x80, 0x7FF, 0x800, 0xFFF, 0x1000, 0xCFFF, 0xD000, 0xD7FF, 0xE000, 0xFFFF, 0x10000, 0x3FFFF,
    0x40000, 0xFFFFF, 0x100000, 0x10FFFF,
)


def decodes(data):
    try:
        data.decode("utf-8")
    except UnicodeDecodeError:
        return False
    return True


class Table(unittest.TestCase):
    def same_as_the_decoder(self, data):
        self.assertEqual(is_utf8(data), decodes(data), data.hex())

    def test_every_one_and_two_bytes(self):
        self.assertTrue(is_utf8(b""))
        for data in (*product(range(256)), *product(range(256), repeat=2)):
            self.same_as_the_decoder(bytes(data))

    def test_edges_of_three_and_four_bytes(self):
        for data in product(FIRST_BYTES, LATER_BYTES, LATER_BYTES):
            self.same_as_the_decoder(bytes(data))
        for data in product(FIRST_BYTES, LATER_BYTES, LATER_BYTES, LATER_BYTES):
            self.same_as_the_decoder(bytes(data))

    def test_each_byte_of_each_row_from_both_sides(self):
        for row in ROWS:
            for place, bounds in enumerate(row):
                for byte in (bounds[0] - 1, *bounds, bounds[1] + 1):
                    data = bytearray(low for low, _ in row)
                    data[place] = byte % 256
                    self.same_as_the_decoder(bytes(data))

    def test_characters(self):
        for number in CHARACTERS:
            self.assertTrue(is_utf8(chr(number).encode()))
        for number in (0xD800, 0xDBFF, 0xDC00, 0xDFFF):
            self.assertFalse(is_utf8(chr(number).encode("utf-8", "surrogatepass")))


class Sequences(unittest.TestCase):
    def test_every_place_counts(self):
        good = "aß€😀".encode()
        self.assertTrue(is_utf8(good * 6))
        for place in range(len(good) + 1):
            for bad in (b"\x80", b"\xc0\x80", b"\xff"):
                self.assertFalse(is_utf8(good[:place] + bad + good[place:]))

    def test_cut_in_a_character(self):
        text = "aß€😀".encode()
        for size in range(len(text) + 1):
            self.assertEqual(is_utf8(text[:size]), size in (0, 1, 3, 6, 10))


if __name__ == "__main__":
    unittest.main()
