"""The account key list: its order is that of use, the most recent last."""

from .device import MOST_KEYS


def used(keys, key):
    """The list after a use of the key: "the key moves to the end"; the others keep their order."""
    return tuple(other for other in keys if other != key) + (key,)


def with_key(keys, key):
    """The list after this account key was written: "being stored, being written again" are uses."""
    # "The English standard says least recently used": in a full list a new key removes the first.
    return used(keys, key)[-MOST_KEYS:]
