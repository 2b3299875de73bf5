"""Pairing, passkey and account key events: the one that a link waits for, and others."""

from ..rules.device import MOST_KEYS, Stage
from ..rules.events import (
    AccountKeyWrite,
    ConfirmationNeeded,
    PairingEnded,
    PairingStarted,
    PasskeyWrite,
)
from . import known_secrets, seeker_blocks
from .random_values import (
    NO_ACCOUNT_KEY,
    account_key,
    close_key,
    lent_output,
    resized,
    weighted,
)

CAPABILITIES = (0, 1, 2, 4)
REFUSED_CAPABILITIES = (3, 3, 5, 6, 255)
PASSKEYS = (0, 1, 255, 65_535, 65_536, 123_456, 999_998, 999_999)
LARGE_PASSKEYS = (1_000_000, 1_000_001, 2**20, 2**24, 2**24 + 123_456, 2**32 - 1)
WRONG_SIZES = (0, 1, 15, 17, 32, 80)
NO_PASSKEY = (0x00, 0x01, 0x03, 0x04, 0x82, 0xFF)


def session_of(device, link):
    """K and our passkey on the link, or some that nobody holds."""
    session = device.links[link]
    return (bytes(16), 0) if session is None else (session.key, session.passkey)


def pairing_started(random, device, history, link, clock):
    return PairingStarted(link, clock, random.choice(CAPABILITIES))


def confirmation_needed(random, device, history, link, clock):
    passkey = random.choice((*PASSKEYS, random.randrange(1_000_000)))
    return ConfirmationNeeded(link, clock, passkey)


def equal_passkey(random, device, history, link, clock):
    """Our own passkey, written by the seeker."""
    key, ours = session_of(device, link)
    return passkey_write(random, link, clock, key, ours)


def passkey_write(random, link, clock, key, passkey, kind=0x02):
    block = seeker_blocks.passkey_block(key, passkey, random.randbytes(12), kind)
    return PasskeyWrite(link, clock, block, random.randbytes(12), lent_output(random))


def pairing_succeeded(random, device, history, link, clock):
    return PairingEnded(link, clock, True)


def account_key_write(random, device, history, link, clock):
    """An account key as a seeker writes it."""
    key, _ = session_of(device, link)
    new = some_account_key(random, device, history)
    return AccountKeyWrite(link, clock, seeker_blocks.account_key_block(key, new))


def some_account_key(random, device, history):
    """A new key, one that is held, one that was held, one close to a held one, or one of a known secret."""
    earlier = history.earlier_keys(device)
    held = 1 if device.keys else 0
    # In a full list more often, so that the key at each place is written again.
    again = 10 if len(device.keys) == MOST_KEYS else 6
    rates = {"new": 9, "held": again * held, "close": held, "earlier": 2 if earlier else 0, "of a secret": 2}
    way = weighted(random, rates)
    if way == "new":
        return account_key(random)
    if way == "earlier":
        return random.choice(earlier)
    if way == "of a secret":
        return random.choice(known_secrets.KEYS)
    key = random.choice(device.keys)
    return key if way == "held" else close_key(random, key)


def refused_capability(random, device, history, link, clock):
    return PairingStarted(link, clock, random.choice(REFUSED_CAPABILITIES))


def large_passkey(random, device, history, link, clock):
    return ConfirmationNeeded(link, clock, random.choice(LARGE_PASSKEYS))


def pairing_failed(random, device, history, link, clock):
    return PairingEnded(link, clock, False)


def bad_passkey(random, device, history, link, clock):
    """Another passkey, another type, another length or another K."""
    key, ours = session_of(device, link)
    way = weighted(random, {"unequal": 5, "type": 3, "length": 3, "key": 2})
    if way == "unequal":
        theirs = random.choice((ours ^ 1, ours ^ 0x800000, (ours + 1) % 2**24, 2**24 - 1))
        return passkey_write(random, link, clock, key, theirs)
    if way == "type":
        return passkey_write(random, link, clock, key, ours, random.choice(NO_PASSKEY))
    if way == "key":
        return passkey_write(random, link, clock, random.randbytes(16), ours)
    event = passkey_write(random, link, clock, key, ours)
    block = resized(random, event.block, WRONG_SIZES)
    return PasskeyWrite(link, clock, block, event.salt, event.out)


def bad_account_key(random, device, history, link, clock):
    """Another first byte, another length or another K."""
    key, _ = session_of(device, link)
    new = account_key(random)
    way = weighted(random, {"type": 3, "length": 3, "key": 2})
    if way == "type":
        new = bytes([random.choice(NO_ACCOUNT_KEY)]) + new[1:]
    if way == "key":
        key = random.randbytes(16)
    block = seeker_blocks.account_key_block(key, new)
    if way == "length":
        block = resized(random, block, WRONG_SIZES)
    return AccountKeyWrite(link, clock, block)


# What a link in each stage waits for, and what ends its pairing.
EXPECTED = {
    Stage.ASKED: pairing_started,
    Stage.PAIRING: confirmation_needed,
    Stage.CONFIRMING: equal_passkey,
    Stage.PROVED: pairing_succeeded,
    Stage.PAIRED: account_key_write,
}
FAILING = {
    Stage.ASKED: refused_capability,
    Stage.PAIRING: large_passkey,
    Stage.CONFIRMING: bad_passkey,
    Stage.PROVED: pairing_failed,
    Stage.PAIRED: bad_account_key,
}
WITH_BLOCKS = (Stage.CONFIRMING, Stage.PAIRED)
EVERY = (*EXPECTED.values(), *FAILING.values())
