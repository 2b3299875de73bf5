"""Requests that two account keys fit: only they show at which key trying stops."""

from random import Random

from reference.generator.random_values import account_key, different_keys, lent_output, lent_packet
from reference.rules.aes import decrypt, encrypt
from reference.rules.events import AddressRotated, KeyBasedWrite, PowerOn
from reference.rules.key_based import REQUEST
from reference.rules.stored_list import pack

from .compare import first_difference

LISTS = 12


def one_block(random):
    """A block that two keys decrypt to a request, and each key with the address it names."""
    while True:
        first, second = account_key(random), account_key(random)
        request = bytes([REQUEST]) + random.randbytes(15)
        block = encrypt(first, request)
        other = decrypt(second, block)
        # One second key in 256 gives the right first byte; the addresses are ours to choose.
        if other[0] == REQUEST:
            return block, (first, request[2:8]), (second, other[2:8])


def write(random, block, clock):
    """A write of this block on any link."""
    link, secret = random.randrange(8), random.randbytes(32)
    salt, nonce = random.randbytes(9), random.randbytes(8)
    outputs = lent_output(random), lent_packet(random)
    return KeyBasedWrite(link, clock, block, True, secret, salt, nonce, *outputs)


def plain_request(random, key, address):
    """A request that this key alone fits, as good as surely; its use puts the key last."""
    return encrypt(key, bytes([REQUEST, 0]) + address + random.randbytes(8))


def listed(random):
    """Power-on with both keys, then the block again and again: a spent salt must not lead to the other key."""
    block, one, other = one_block(random)
    keys = different_keys(random, random.randrange(4)) + [one[0], other[0]]
    random.shuffle(keys)
    public, ble = random.sample((one[1], other[1]), 2)
    start = PowerOn(pack(keys), b"two keys fit", public, ble, random.randbytes(3), random.randbytes(2))
    # In between, each of the two is put behind the other, so that the block fits the other first.
    last_one, last_other = (plain_request(random, key, address) for key, address in (one, other))
    blocks = (block, last_other, block, last_one, block, block)
    writes = [write(random, data, clock) for clock, data in enumerate(blocks)]
    # A rotation to the same address lifts the wait behind a request that named it.
    return [start, *(event for one in writes for event in (one, AddressRotated(ble, random.randbytes(2), one.clock)))]


def difference(library, seed):
    """The events and the difference of the first list that has one, or None."""
    random = Random(seed)
    for _ in range(LISTS):
        events = listed(random)
        found = first_difference(library, events)
        if found:
            return events[: found[0] + 1], found[1]
    return None
