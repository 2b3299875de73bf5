"""The packet: Fast Pair's vectors, RFC 4231, and other implementations of HMAC and AES."""

import hmac
import shutil
import subprocess
import unittest
from random import Random

from ..rules.name_packet import counter_mode, hmac_sha256, open_packet, seal, tag_of

KEY = bytes.fromhex("0123456789ABCDEF0123456789ABCDEF")
NONCE = bytes.fromhex("0001020304050607")
NAME = b"Someone's Google Headphone"
ENCRYPTED = bytes.fromhex("EE4A2483738052E44E9B2A145E5DDFAA44B9E5536AF438E1E5C6")
TAG = bytes.fromhex("55EC5E6055AF6E92")
SIZES = (0, 1, 15, 16, 17, 31, 32, 33, 47, 48, 49, 63, 64)

# The cases 1 to 4 of RFC 4231: their keys are shorter than a block.
RFC_4231 = (
    (b"\x0b" * 20, b"Hi There", "b0344c61d8db38535ca8afceaf0bf12b881dc200c9833da726e9376c2e32cff7"),
    (
        b"Jefe",
        b"what do ya want for nothing?",
        "5bdcc146bf60754e6a042426089575c75a003f089d2739839dec58b964ec3843",
    ),
    (b"\xaa" * 20, b"\xdd" * 50, "773ea91e36800e46854db8ebd09181a72959098b3ef8c122d9635514ced565fe"),
    (
        bytes(range(1, 26)),
        b"\xcd" * 50,
        "82558a389a443c0ea4cc819899f2083a85f0faa3e578f8077a2e3ff46729665b",
    ),
)


class Vectors(unittest.TestCase):
    def test_counter_mode(self):
        self.assertEqual(counter_mode(KEY, NONCE, NAME), ENCRYPTED)
        self.assertEqual(counter_mode(KEY, NONCE, ENCRYPTED), NAME)

    def test_tag(self):
        self.assertEqual(tag_of(KEY, NONCE, ENCRYPTED), TAG)

    def test_packet(self):
        self.assertEqual(seal(KEY, NONCE, NAME), TAG + NONCE + ENCRYPTED)
        self.assertEqual(open_packet(KEY, TAG + NONCE + ENCRYPTED), NAME)

    def test_rfc_4231(self):
        for key, message, digest in RFC_4231:
            self.assertEqual(hmac_sha256(key, message).hex(), digest)


class OtherImplementations(unittest.TestCase):
    def test_hmac(self):
        random = Random(4231)
        for size in range(130):
            key, message = random.randbytes(16), random.randbytes(size)
            expected = hmac.digest(key + bytes(48), message, "sha256")
            self.assertEqual(hmac_sha256(key, message), expected)
            self.assertEqual(hmac_sha256(key, message), hmac.digest(key, message, "sha256"))

    @unittest.skipUnless(shutil.which("openssl"), "there is no openssl")
    def test_counter_mode(self):
        # Of zeros, counter mode leaves the encrypted counters.
        counters = b"".join(bytes([i]) + bytes(7) + NONCE for i in range(4))
        command = ["openssl", "enc", "-aes-128-ecb", "-nopad", "-K", KEY.hex()]
        expected = subprocess.run(command, input=counters, capture_output=True, check=True).stdout
        self.assertEqual(counter_mode(KEY, NONCE, bytes(64)), expected)


class Packets(unittest.TestCase):
    def test_sizes(self):
        random = Random(80)
        for size in SIZES:
            key, nonce, name = random.randbytes(16), random.randbytes(8), random.randbytes(size)
            packet = seal(key, nonce, name)
            self.assertEqual(len(packet), 16 + size)
            self.assertEqual(packet[8:16], nonce)
            self.assertEqual(open_packet(key, packet), name)

    def test_every_bit_counts(self):
        packet = seal(KEY, NONCE, b"a name of more than sixteen bytes")
        for bit in range(8 * len(packet)):
            changed = bytearray(packet)
            changed[bit // 8] ^= 1 << bit % 8
            self.assertIsNone(open_packet(KEY, bytes(changed)))

    def test_cut_and_lengthened(self):
        packet = seal(KEY, NONCE, NAME)
        for other in (packet[:-1], packet + b"\0", packet[:16]):
            self.assertIsNone(open_packet(KEY, other))

    def test_another_key(self):
        packet = seal(KEY, NONCE, NAME)
        for place in range(16):
            other = KEY[:place] + bytes([KEY[place] ^ 1]) + KEY[place + 1 :]
            self.assertIsNone(open_packet(other, packet))

    def test_another_nonce_gives_another_packet(self):
        first, second = seal(KEY, NONCE, NAME), seal(KEY, bytes(8), NAME)
        self.assertNotEqual(first[:8], second[:8])
        self.assertNotEqual(first[16:], second[16:])


if __name__ == "__main__":
    unittest.main()
