"""Key-based writes: fitting ones, replayed ones, and those that no candidate fits."""

from dataclasses import replace

from ..rules.aes import encrypt
from ..rules.events import KeyBasedWrite
from ..rules.key_based import MOST_FAILURES
from . import known_secrets, seeker_blocks
from .random_values import account_key, lent_output, lent_packet, other_bit, resized, weighted
from .rates import BLE_NAMED

# "The salt is bytes 14 to 15 if flags 0x40 or 0x10 is set, else 8 to 15."
SHORT_SALT_FLAGS = (0x40, 0x40, 0x10, 0x10, 0x50, 0xC0, 0x90, 0x60, 0x30, 0x70, 0xDF, 0xFF)
LONG_SALT_FLAGS = (0x00, 0x00, 0x80, 0x80, 0x20, 0x20, 0xA0, 0x0F, 0x8F, 0xAF)
WRONG_TYPES = (0x10, 0x10, 0x01, 0x02, 0x80, 0xFF)
WRONG_SIZES = (0, 1, 15, 17, 32, 64, 79, 81, 96, 160)

NONFITTING = {
    "random 16": 4,
    "random 80": 2,
    "wrong type": 3,
    "wrong address": 4,
    "earlier key": 3,
    "key of the other way": 2,
    "rejected point": 3,
}
# A locked device must not come to look at the pairing mode.
NONFITTING_WHEN_LOCKED = {"random 16": 3, "random 80": 3, "rejected point": 3}


def write(random, link, clock, key_block, public, accepted=True, secret=None):
    """The event around an encrypted request."""
    data = key_block + random.randbytes(64) if public else key_block
    secret = random.randbytes(32) if secret is None else secret
    salt, nonce = random.randbytes(9), random.randbytes(8)
    outputs = lent_output(random), lent_packet(random)
    return KeyBasedWrite(link, clock, data, accepted, secret, salt, nonce, *outputs)


def encrypted(random, device, link, clock, raw):
    """A request encrypted with a key that the device will try, by one of the two ways."""
    public = not device.keys or (device.pairing_mode and random.random() < 0.4)
    if not public:
        key = random.choice(device.keys)
        # The element's result is not read here, so it may be anything.
        return write(random, link, clock, encrypt(key, raw), False, random.random() < 0.5)
    return public_request(random, device, link, clock, raw, True)


def raw_request(random, device, flags, tail, kind=0x00, address=None):
    """The request before encryption; the tail is its last 8 bytes."""
    if address is None:
        address = device.ble if random.random() < BLE_NAMED else device.public
    return bytes([kind, flags]) + address + tail


def carrying(random, salt):
    """Flags and tail of a request whose salt is this one."""
    if len(salt) == 2:
        return random.choice(SHORT_SALT_FLAGS), random.randbytes(6) + salt
    return random.choice(LONG_SALT_FLAGS), salt


def resembling(random, salt):
    """Flags and tail of a request whose salt is not this one, but looks like it."""
    if random.random() < 0.3:
        return carrying(random, other_bit(random, salt))
    if len(salt) == 2:
        rest = random.choice((random.randbytes(6), bytes(6)))
        return random.choice(LONG_SALT_FLAGS), random.choice((salt + rest, rest + salt))
    return random.choice(SHORT_SALT_FLAGS), random.choice((salt, salt[2:] + salt[:2]))


def fresh(random):
    """Flags and tail with a new salt of either length."""
    return carrying(random, random.randbytes(random.choice((2, 8))))


def fitting(random, device, history, link, clock):
    """A request that fits, with a new salt."""
    flags, tail = fresh(random)
    return encrypted(random, device, link, clock, raw_request(random, device, flags, tail))


def replayed(random, device, history, link, clock):
    """A request that fits, with a salt that is remembered, looks so, or is free again."""
    free = history.earlier_salts(device)
    # The salt that was forgotten last shows best how many are remembered.
    if free and random.random() < 0.35:
        flags, tail = carrying(random, random.choice((free[-1], free[-1], random.choice(free))))
    elif device.spent:
        salt = random.choice((device.spent[0], random.choice(device.spent)))
        shape = resembling if random.random() < 0.4 else carrying
        flags, tail = shape(random, salt)
    else:
        flags, tail = fresh(random)
    return encrypted(random, device, link, clock, raw_request(random, device, flags, tail))


def remembered_salt(random, device, history, link, clock):
    """A request that fits, with a salt that is remembered."""
    flags, tail = carrying(random, random.choice(device.spent))
    return encrypted(random, device, link, clock, raw_request(random, device, flags, tail))


def wrong_size(random, device, history, link, clock):
    """A request of a wrong length."""
    event = fitting(random, device, history, link, clock)
    return replace(event, data=resized(random, event.data, WRONG_SIZES))


def nonfitting(random, device, history, link, clock):
    """A request that no candidate fits."""
    locked = device.failures == MOST_FAILURES
    way = weighted(random, NONFITTING_WHEN_LOCKED if locked else NONFITTING)
    if way.startswith("random"):
        return write(random, link, clock, random.randbytes(16), way == "random 80")
    flags, tail = fresh(random)
    if way == "wrong type":
        raw = raw_request(random, device, flags, tail, kind=random.choice(WRONG_TYPES))
        return encrypted(random, device, link, clock, raw)
    if way == "wrong address":
        address = wrong_address(random, device, history)
        raw = raw_request(random, device, flags, tail, address=address)
        return encrypted(random, device, link, clock, raw)
    raw = raw_request(random, device, flags, tail)
    if way == "earlier key":
        key = random.choice(history.earlier_keys(device) or [account_key(random)])
        return write(random, link, clock, encrypt(key, raw), False)
    if way == "key of the other way":
        return key_of_other_way(random, device, link, clock, raw)
    return public_request(random, device, link, clock, raw, False)


def with_public_key(random, device, history, link, clock):
    """A right request of 80 bytes, whatever the pairing mode."""
    flags, tail = fresh(random)
    return public_request(random, device, link, clock, raw_request(random, device, flags, tail), True)


def public_request(random, device, link, clock, raw, accepted):
    """80 bytes, encrypted with the key of a secret: most often one whose key is held, if there is any."""
    held = known_secrets.held_secrets(device)
    secret = random.choice(held) if held and random.random() < 0.6 else random.randbytes(32)
    block = encrypt(seeker_blocks.session_key(secret), raw)
    return write(random, link, clock, block, True, accepted, secret)


def key_of_other_way(random, device, link, clock, raw):
    """80 bytes encrypted with an account key, or 16 with the key of the secret."""
    if device.keys and device.pairing_mode:
        return write(random, link, clock, encrypt(random.choice(device.keys), raw), True)
    secret = random.randbytes(32)
    block = encrypt(seeker_blocks.session_key(secret), raw)
    return write(random, link, clock, block, False, True, secret)


def wrong_address(random, device, history):
    """An address that is neither of the two, most often close to one of them."""
    near = other_bit(random, random.choice((device.ble, device.public)))
    reversed_one = random.choice((device.ble, device.public))[::-1]
    return random.choice([near, near, reversed_one, *history.earlier_addresses(device)[-2:]])
