"""What the words of a text stand for."""

from reference.generator.seeker_blocks import session_key

from .fields import TextError

# What power-on is given, if its line does not say otherwise.
ADDRESSES = {
    "public": bytes.fromhex("3c5ab4102030"),
    "BLE 1": bytes.fromhex("6a1122334455"),
    "BLE 2": bytes.fromhex("4b66778899aa"),
}
MODEL = bytes.fromhex("123456")
FILTER_SALT = bytes.fromhex("c7c8")

# The shared secret and the seeker's public key of the Fast Pair specification's test cases.
SECRET = bytes.fromhex("9dade4f86ac3488bbac2ac34b5fe68a0ee5a6706f543d9061ad57889498ae6ba")
PUBLIC_KEY = bytes.fromhex(
    "36ac682c508215668fbefe247d01d5eb96e6318e855b2d64b5195d38ee7e37be"
    "1838c0b948c3f75520e07e70f07291419ace2d28143c5adb2dbd98ee3c8e4fbf"
)
# Its key begins with 04, so that it can be held as an account key.
SECOND_SECRET = bytes(range(0x11, 0x31))
SECRETS = {"shared secret": SECRET, "second secret": SECOND_SECRET}

# The salts that come with the events, and the one in a seeker's passkey block.
REQUEST_SALT = bytes(range(0x51, 0x5A))
PASSKEY_SALT = bytes(range(0x61, 0x6D))
SEEKER_SALT = bytes(range(0x71, 0x7D))

# The nonce that comes with a request, and that of a seeker's packet, if its line does not say otherwise.
NONCE = bytes(range(0x31, 0x39))
SEEKER_NONCE = bytes(range(0x21, 0x29))

# The room of a lent output, if its line does not say otherwise: more than anything that is written there.
ROOM = 90
LIST_ROOM = 170
RECORD_ROOM = 1_040


def account_key(digit):
    """Key n is 04 n1 n2 .. nf, with n as a hexadecimal digit, so that it is known again in a stored list."""
    return bytes([0x04, *range(16 * digit + 1, 16 * digit + 16)])


def lent(size):
    """What a lent output holds beforehand."""
    return bytes(0x80 + place % 128 for place in range(size))


def second_lent(size):
    """The same of the second lent output."""
    return bytes(0xFF - place % 128 for place in range(size))


# The keys that a phone can encrypt with.
KEYS = {f"key {digit}": account_key(digit) for digit in range(1, 16)}
KEYS |= {name: session_key(secret) for name, secret in SECRETS.items()}
KEYS["key 0"] = KEYS["second secret"]


def key_named(name):
    if name not in KEYS:
        raise TextError(f"there is no '{name}'")
    return KEYS[name]
