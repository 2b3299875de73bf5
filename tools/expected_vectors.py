#!/usr/bin/env python3
"""What the program `vectors` must print, computed by other implementations.

SHA-256 and HMAC-SHA256 come from Python's hashlib and hmac, AES-128 from the command `openssl`; the
payloads of published keys are computed by document 01's formulas. A result that a document publishes
stands here too, and must equal what was computed. None of this reads our code. Without an option it
writes crates/vectors/stdout.
"""
import argparse
import hashlib
import hmac
import pathlib
import shutil
import struct
import subprocess
import sys

ROOT = pathlib.Path(__file__).resolve().parent.parent
STORED = ROOT / "crates" / "vectors" / "stdout"

# FIPS 197, appendix A.1: w0 to w43, as printed.
A1_WORDS = """
2b7e1516 28aed2a6 abf71588 09cf4f3c
a0fafe17 88542cb1 23a33939 2a6c7605
f2c295f2 7a96b943 5935807a 7359f67f
3d80477d 4716fe3e 1e237e44 6d7a883b
ef44a541 a8525b7f b671253b db0bad00
d4d1c6f8 7c839d87 caf2b8bc 11f915bc
6d88a37a 110b3efd dbf98641 ca0093fd
4e54f70e 5f5fc9f3 84a64fb2 4ea6dc4f
ead27321 b58dbad2 312bf560 7f8d292f
ac7766f3 19fadc21 28d12941 575c006e
d014f9a8 c9ee2589 e13f0cc8 b6630ca6
"""

B_KEY = "2b7e151628aed2a6abf7158809cf4f3c"


def arguments():
    parser = argparse.ArgumentParser(description=__doc__, formatter_class=argparse.RawDescriptionHelpFormatter)
    parser.add_argument(
        "--check", action="store_true", help="write nothing; exit 1 unless crates/vectors/stdout is what this computes"
    )
    return parser.parse_args()


def main():
    options = arguments()
    text = "".join(f"{name} {value}\n" for name, value in all_lines())
    if options.check:
        check(text)
    else:
        STORED.write_text(text)


def all_lines():
    return hash_lines() + hmac_lines() + cipher_lines() + fast_pair_lines() + packet_lines() + filter_lines()


def check(text):
    stored = STORED.read_text() if STORED.exists() else ""
    if stored != text:
        sys.exit(f"{STORED.relative_to(ROOT)} is not what expected_vectors.py computes; run it to write the file anew")
    print(f"{STORED.name}: {len(text.splitlines())} lines, as computed")


# FIPS 180-4, its published results beside the computed ones, and lengths around the padding's boundaries.
def hash_lines():
    long = b"abcdbcdecdefdefgefghfghighijhijkijkljklmklmnlmnomnopnopq"
    lines = [
        ("FIPS 180-4 empty", sha256(b"", "e3b0c44298fc1c149afbf4c8996fb92427ae41e4649b934ca495991b7852b855")),
        ("FIPS 180-4 abc", sha256(b"abc", "ba7816bf8f01cfea414140de5dae2223b00361a396177a9cb410ff61f20015ad")),
        ("FIPS 180-4 448 bits", sha256(long, "248d6a61d20638b8e5c026930c3e6039a33ce45964ff2167f6ecedd419db06c1")),
        ("FIPS 180-4 a million a", sha256(b"a" * 1000000, "cdc76e5c9914fb9281a1c7e284d73e67f1809a48a497200e046d39ccc7112cd0")),
    ]
    pattern = bytes((7 * i + 3) % 256 for i in range(4000))
    return lines + [(f"SHA-256 of {n} bytes", sha256(pattern[:n])) for n in (55, 56, 63, 64, 65, 119, 120, 4000)]


# RFC 4231, the test cases whose keys are shorter than a block; of case 5 it prints the first 128 bits.
def hmac_lines():
    cases = (
        (b"\x0b" * 20, b"Hi There", "b0344c61d8db38535ca8afceaf0bf12b881dc200c9833da726e9376c2e32cff7"),
        (b"Jefe", b"what do ya want for nothing?", "5bdcc146bf60754e6a042426089575c75a003f089d2739839dec58b964ec3843"),
        (b"\xaa" * 20, b"\xdd" * 50, "773ea91e36800e46854db8ebd09181a72959098b3ef8c122d9635514ced565fe"),
        (bytes(range(1, 26)), b"\xcd" * 50, "82558a389a443c0ea4cc819899f2083a85f0faa3e578f8077a2e3ff46729665b"),
        (b"\x0c" * 20, b"Test With Truncation", "a3b6167473100ee06e0c796c2955552b"),
    )
    return [(f"RFC 4231 case {n}", hmac_sha256(*case)) for n, case in enumerate(cases, 1)]


# FIPS 197, appendices A.1, B and C.1.
def cipher_lines():
    return (
        [(f"FIPS 197 A.1 round key {i}", key) for i, key in enumerate(round_keys(B_KEY, A1_WORDS))]
        + block_lines("FIPS 197 B", B_KEY, "3243f6a8885a308d313198a2e0370734", "3925841d02dc09fbdc118597196a0b32")
        + block_lines(
            "FIPS 197 C.1",
            "000102030405060708090a0b0c0d0e0f",
            "00112233445566778899aabbccddeeff",
            "69c4e0d86a7b0430d8cdb78070b4c55a",
        )
    )


# The test cases of the Fast Pair specification.
def fast_pair_lines():
    secret = bytes.fromhex("9dade4f86ac3488bbac2ac34b5fe68a0ee5a6706f543d9061ad57889498ae6ba")
    hashed = sha256(secret, "b07f1f17c236cbd33523c515f350ae5759e247ac49513987a371ece35c331dcb")
    return block_lines(
        "Fast Pair AES",
        "a0baf0bb951ff7b6cf5e3f4561c3321d",
        "f30f4e786c59a7bbf3873b5a49ba97ea",
        "ac9a16f0953a3f223dd10cf536e09e9c",
    ) + [
        ("Fast Pair SHA-256 of the ECDH secret", hashed),
        ("Fast Pair anti-spoofing AES key", hashed[:32]),
        ("Fast Pair HMAC-SHA256", hmac_sha256(K + bytes(48), NONCE + CIPHERTEXT, "55ec5e6055af6e92")),
    ]


# The Fast Pair specification's name, with its session key and nonce.
K = bytes.fromhex("0123456789abcdef0123456789abcdef")
NONCE = bytes.fromhex("0001020304050607")
NAME = b"Someone's Google Headphone"
CIPHERTEXT = bytes.fromhex("ee4a2483738052e44e9b2a145e5ddfaa44b9e5536af438e1e5c6")


# Packets of names, each shown in an output of 80 bytes EE, and the name in a room of 64 bytes; then packets with one bit changed.
def packet_lines():
    published(counter_mode(NAME).hex(), CIPHERTEXT.hex())
    letters = bytes(ord("a") + i % 26 for i in range(64))
    lines = sealed_lines("Fast Pair packet", NAME) + sealed_lines("packet of 0 bytes", b"") + sealed_lines("packet of 1 byte", b"a")
    for n in (15, 16, 17, 63, 64):
        lines += sealed_lines(f"packet of {n} bytes", letters[:n])
    places = (("first byte of the tag", 0), ("last byte of the tag", 7), ("nonce", 15), ("last byte", 41))
    return lines + [(f"Fast Pair packet, {name} changed", f"{opens(changed(packet(NAME), at)):02x}") for name, at in places]


def sealed_lines(name, text):
    if not opens(packet(text)):
        sys.exit(f"{name}: the packet does not open")
    return [(name, packet(text).ljust(80, b"\xee").hex()), ("name read from it", text.ljust(64, b"\0").hex())]


# Document 02 (i): the first 8 bytes of HMAC-SHA256 over nonce and ciphertext, the nonce, the data under the counter mode.
def packet(text):
    return signed(NONCE + counter_mode(text))


def signed(message):
    return hmac.digest(K + bytes(48), message, "sha256")[:8] + message


# Source document 004: each block of 16 bytes, and AES of its number in one byte, seven zero bytes and the nonce.
def counter_mode(text):
    blocks = ((bytes([i]) + bytes(7) + NONCE).hex() for i in range((len(text) + 15) // 16))
    stream = bytes.fromhex("".join(openssl_aes("-e", K.hex(), block) for block in blocks))
    return bytes(a ^ b for a, b in zip(text, stream))


def opens(data):
    return data == signed(data[8:])


def changed(data, at):
    return data[:at] + bytes([data[at] ^ 1]) + data[at + 1:]


# Document 01, "Advertising", with the model and salt of its samples: published keys, shown in an output of 24 bytes EE.
def filter_lines():
    one = keys("11223344556677889900aabbccddeeff")
    two = keys("11112222333344445555666677778888", "99990000aaaabbbbccccddddeeeeffff")
    published(account_key_filter(one, SALT).hex(), "020c802a")
    published(account_key_filter(two, SALT).hex(), "09e660009f")
    published(account_key_filter(one, b"\xc7").hex(), "0a428810")
    return [(f"payload, {name}", payload(held).ljust(24, b"\xee").hex()) for name, held in (("one key", one), ("two keys", two))]


SALT = bytes.fromhex("c7c8")


def payload(held):
    s = filter_size(len(held))
    rest = bytes([0x16, 0x2C, 0xFE, 0x00, s * 16]) + account_key_filter(held, SALT) + bytes([0x21]) + SALT
    return bytes([len(rest)]) + rest


def filter_size(n):
    return 6 * n // 5 + 3


# The filter as one number: bit M of it is bit M mod 8 of byte M div 8.
def account_key_filter(held, salt):
    s = filter_size(len(held))
    bits = 0
    for key in held:
        for x in struct.unpack(">8I", hashlib.sha256(key + salt).digest()):
            bits |= 1 << x % (8 * s)
    return bits.to_bytes(s, "little")


def keys(*texts):
    return [bytes.fromhex(text) for text in texts]


# A published block, both ways.
def block_lines(name, key, plain, cipher):
    return [
        (f"{name} encrypt", published(openssl_aes("-e", key, plain), cipher)),
        (f"{name} decrypt", published(openssl_aes("-d", key, cipher), plain)),
    ]


def sha256(message, document=None):
    return published(hashlib.sha256(message).hexdigest(), document)


# The document may print the first bytes alone.
def hmac_sha256(key, message, document):
    computed = hmac.digest(key, message, "sha256").hex()
    published(computed[:len(document)], document)
    return computed


# What was computed, once it is known to be what the document prints, if it prints one.
def published(computed, document):
    if document not in (None, computed):
        sys.exit(f"computed {computed}, published {document}")
    return computed


def openssl_aes(way, key, block):
    if not shutil.which("openssl"):
        sys.exit("the command openssl is not there; Debian's package openssl has it")
    command = ["openssl", "enc", way, "-aes-128-ecb", "-nopad", "-K", key]
    return subprocess.run(command, input=bytes.fromhex(block), capture_output=True, check=True).stdout.hex()


# The round keys as published, once they are known to be what the key expands to.
def round_keys(key, words):
    rows = ["".join(line.split()) for line in words.split("\n") if line]
    for row, computed in zip(rows, expand(bytes.fromhex(key)), strict=True):
        published(computed, row)
    return rows


# FIPS 197, section 5.2, at 128 bits: a round key from the one before.
def expand(key):
    keys, constant = [key], 1
    for _ in range(10):
        before = keys[-1]
        word = bytes(sbox(b) for b in before[13:] + before[12:13])
        word = bytes([word[0] ^ constant]) + word[1:]
        after = b""
        for i in range(0, 16, 4):
            word = bytes(a ^ b for a, b in zip(before[i:i + 4], word))
            after += word
        keys.append(after)
        constant = times(2, constant)
    return [k.hex() for k in keys]


# FIPS 197, section 5.1.1: the inverse in the field, then the affine map; no table.
def sbox(byte):
    inverse = next((x for x in range(256) if times(byte, x) == 1), 0)
    return 0x63 ^ inverse ^ turned(inverse, 1) ^ turned(inverse, 2) ^ turned(inverse, 3) ^ turned(inverse, 4)


def turned(byte, n):
    return (byte << n | byte >> 8 - n) & 0xFF


# The product in FIPS 197's field, section 4.2.
def times(a, b):
    product = 0
    while b:
        product ^= a if b & 1 else 0
        a = a << 1 ^ (0x11B if a & 0x80 else 0)
        b >>= 1
    return product


if __name__ == "__main__":
    main()
