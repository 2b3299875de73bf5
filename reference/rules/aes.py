"""AES-128 of FIPS 197, both directions, computed from the field's definition."""

from functools import lru_cache
from operator import itemgetter

# The polynomial x^8 + x^4 + x^3 + x + 1 (FIPS 197, 4.2).
MODULUS = 0x11B
ROUNDS = 10


def multiply(a, b):
    """The product of two field elements."""
    product = 0
    while b:
        if b & 1:
            product ^= a
        a <<= 1
        if a & 0x100:
            a ^= MODULUS
        b >>= 1
    return product


def inverse(a):
    """The inverse of a field element; 0 stands for itself."""
    # The non-zero elements are 255, so a^254 undoes a; 254 = 2 + 4 + .. + 128.
    result = 1
    for _ in range(7):
        a = multiply(a, a)
        result = multiply(result, a)
    return result


def affine(b):
    """The affine map of FIPS 197, 5.1.1, bit by bit."""
    result = 0
    for i in range(8):
        bit = 0x63 >> i
        for k in (0, 4, 5, 6, 7):
            bit ^= b >> (i + k) % 8
        result |= (bit & 1) << i
    return result


# "inverse in the field of FIPS 197, then its affine map, and the second undoes the first."
S_BOX = bytes(affine(inverse(a)) for a in range(256))
INVERSE_S_BOX = bytes(S_BOX.index(b) for b in range(256))

# Products with the coefficients of both column mixings, kept because they are asked for often.
TIMES = {c: bytes(multiply(c, a) for a in range(256)) for c in (1, 2, 3, 9, 11, 13, 14)}
MIX = (2, 3, 1, 1)
INVERSE_MIX = (14, 11, 13, 9)

# Byte i of a block stands in row i mod 4 and column i div 4 (FIPS 197, 3.4).
SHIFT_ROWS = itemgetter(*((i + 4 * (i % 4)) % 16 for i in range(16)))
INVERSE_SHIFT_ROWS = itemgetter(*((i - 4 * (i % 4)) % 16 for i in range(16)))
TURN_COLUMN = tuple(
    itemgetter(*(i - i % 4 + (i + k) % 4 for i in range(16))) for k in range(4)
)


def number(state):
    """Sixteen bytes as one number, so that they are added at once."""
    return int.from_bytes(state, "big")


def add(state, round_key):
    """AddRoundKey: addition in the field is exclusive or."""
    return (number(state) ^ round_key).to_bytes(16, "big")


def mix_columns(state, coefficients):
    """Each byte becomes the weighted sum of its column, read from itself downwards."""
    mixed = 0
    for turn, c in zip(TURN_COLUMN, coefficients):
        mixed ^= number(turn(state.translate(TIMES[c])))
    return mixed.to_bytes(16, "big")


def next_word(before, first, index):
    """Word `index` of the expanded key, from the one before and the one four back."""
    if index % 4 == 0:
        turned = before[1:] + before[:1]
        before = turned.translate(S_BOX)
        constant = power_of_two(index // 4 - 1)
        before = bytes([before[0] ^ constant]) + before[1:]
    return bytes(a ^ b for a, b in zip(before, first))


def power_of_two(exponent):
    """The round constant: x to the exponent in the field."""
    result = 1
    for _ in range(exponent):
        result = multiply(result, 2)
    return result


@lru_cache(maxsize=4096)
def round_keys(key):
    """The eleven round keys of FIPS 197, 5.2, as numbers."""
    words = [key[i : i + 4] for i in range(0, 16, 4)]
    for index in range(4, 4 * (ROUNDS + 1)):
        words.append(next_word(words[-1], words[-4], index))
    return tuple(number(b"".join(words[i : i + 4])) for i in range(0, len(words), 4))


def encrypt(key, block):
    """One block of 16 bytes under a key of 16 bytes."""
    keys = round_keys(key)
    state = add(block, keys[0])
    for i in range(1, ROUNDS):
        state = bytes(SHIFT_ROWS(state.translate(S_BOX)))
        state = add(mix_columns(state, MIX), keys[i])
    return add(SHIFT_ROWS(state.translate(S_BOX)), keys[ROUNDS])


def decrypt(key, block):
    """The inverse cipher of FIPS 197, 5.3: each step undone, in the opposite order."""
    keys = round_keys(key)
    state = add(block, keys[ROUNDS])
    for i in range(ROUNDS - 1, 0, -1):
        state = bytes(INVERSE_SHIFT_ROWS(state)).translate(INVERSE_S_BOX)
        state = mix_columns(add(state, keys[i]), INVERSE_MIX)
    return add(bytes(INVERSE_SHIFT_ROWS(state)).translate(INVERSE_S_BOX), keys[0])
