"""Small random values that every part of the generator uses."""

from ..rules.device import Stage
from . import known_secrets

NO_ACCOUNT_KEY = (0x00, 0x02, 0x03, 0x05, 0x84, 0xFF)


def weighted(random, weights):
    """One of the names, as often as its weight says."""
    return random.choices(list(weights), list(weights.values()))[0]


def account_key(random):
    """A new account key."""
    return b"\x04" + random.randbytes(15)


def different_keys(random, count, known=()):
    """Different account keys, some of them known from before, some close to the one before, some of a known secret."""
    keys = []
    while len(keys) < count:
        key = some_key(random, known, keys)
        if key not in keys:
            keys.append(key)
    return keys


def some_key(random, known, keys):
    way = weighted(random, {"new": 5, "known": 4 if known else 0, "close": 1 if keys else 0, "of a secret": 1})
    if way == "known":
        return random.choice(known)
    if way == "of a secret":
        return random.choice(known_secrets.KEYS)
    return close_key(random, keys[-1]) if way == "close" else account_key(random)


def close_key(random, key):
    """A key that differs in one bit, half of the time in the last byte."""
    kept = random.choice((1, 15))
    return key[:kept] + other_bit(random, key[kept:])


def other_bit(random, data):
    """The same bytes with one bit changed."""
    bit = random.randrange(8 * len(data))
    changed = bytearray(data)
    changed[bit // 8] ^= 1 << bit % 8
    return bytes(changed)


def lent_output(random):
    """A lent output of one of the sizes around 16, filled with random bytes."""
    size = weighted(random, {0: 1, 1: 0.5, 15: 1.5, 16: 40, 17: 20, 40: 30})
    return random.randbytes(size)


def lent_packet(random):
    """A second lent output of one of the sizes around 80, filled with random bytes."""
    size = weighted(random, {0: 0.5, 16: 0.5, 79: 1, 80: 40, 81: 20, 120: 30})
    return random.randbytes(size)


def resized(random, data, sizes):
    """The data cut or filled up to one of these sizes."""
    size = random.choice(sizes)
    return data[:size] + random.randbytes(max(0, size - len(data)))


def link_number(random):
    """A link of the device."""
    return random.randrange(8)


def idle_link(random, device):
    """An idle link, if there is one."""
    idle = [link for link, session in enumerate(device.links) if session is None]
    return random.choice(idle) if idle else link_number(random)


def busy_link(random, device, stages=Stage):
    """A link that holds a K in one of these stages, or None."""
    links = enumerate(device.links)
    busy = [link for link, session in links if session is not None and session.stage in stages]
    return random.choice(busy) if busy else None
