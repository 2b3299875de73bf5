"""Secrets of the element whose key is an account key, so that K of an 80-byte request can equal a held key."""

from itertools import count, islice

from ..rules.pairing import ACCOUNT_KEY
from . import seeker_blocks


def keys_and_secrets():
    """Every secret, counted up, whose key begins with 0x04: one in 256 does."""
    secrets = (number.to_bytes(32, "big") for number in count())
    pairs = ((seeker_blocks.session_key(secret), secret) for secret in secrets)
    return ((key, secret) for key, secret in pairs if key[0] == ACCOUNT_KEY)


# The secret of each key; more of them than a list can hold.
SECRETS = dict(islice(keys_and_secrets(), 16))
KEYS = tuple(SECRETS)


def held_secrets(device):
    """The secrets whose key the device holds as an account key."""
    return [SECRETS[key] for key in device.keys if key in SECRETS]
