"""AES against FIPS 197, the field's laws and the outside vectors."""

import unittest
from random import Random

from ..rules.aes import INVERSE_S_BOX, S_BOX, decrypt, encrypt, inverse, multiply, round_keys


class Field(unittest.TestCase):
    def test_example_of_fips_197(self):
        self.assertEqual(multiply(0x57, 0x83), 0xC1)
        self.assertEqual(multiply(0x57, 0x13), 0xFE)

    def test_every_non_zero_element_times_its_inverse_is_one(self):
        for a in range(1, 256):
            self.assertEqual(multiply(a, inverse(a)), 1)
        self.assertEqual(inverse(0), 0)

    def test_substitution_tables(self):
        self.assertEqual((S_BOX[0x00], S_BOX[0x01], S_BOX[0x53]), (0x63, 0x7C, 0xED))
        for a in range(256):
            self.assertEqual(INVERSE_S_BOX[S_BOX[a]], a)


class Blocks(unittest.TestCase):
    def both_ways(self, key, plain, cipher):
        key, plain, cipher = map(bytes.fromhex, (key, plain, cipher))
        self.assertEqual(encrypt(key, plain), cipher)
        self.assertEqual(decrypt(key, cipher), plain)

    def test_fips_197_appendix_a_1(self):
        keys = round_keys(bytes.fromhex("2b7e151628aed2a6abf7158809cf4f3c"))
        self.assertEqual(keys[1], 0xA0FAFE1788542CB123A339392A6C7605)
        self.assertEqual(keys[10], 0xD014F9A8C9EE2589E13F0CC8B6630CA6)

    def test_fips_197_appendix_b(self):
        self.both_ways(
            "2b7e151628aed2a6abf7158809cf4f3c",
            "3243f6a8885a308d313198a2e0370734",
            "3925841d02dc09fbdc118597196a0b32",
        )

    def test_fips_197_appendix_c_1(self):
        self.both_ways(
            "000102030405060708090a0b0c0d0e0f",
            "00112233445566778899aabbccddeeff",
            "69c4e0d86a7b0430d8cdb78070b4c55a",
        )

    def test_fast_pair_case(self):
        self.both_ways(
            "A0BAF0BB951FF7B6CF5E3F4561C3321D",
            "F30F4E786C59A7BBF3873B5A49BA97EA",
            "AC9A16F0953A3F223DD10CF536E09E9C",
        )

    def test_decryption_undoes_encryption(self):
        random = Random(197)
        for _ in range(300):
            key, block = random.randbytes(16), random.randbytes(16)
            self.assertEqual(decrypt(key, encrypt(key, block)), block)
            self.assertEqual(encrypt(key, decrypt(key, block)), block)


if __name__ == "__main__":
    unittest.main()
