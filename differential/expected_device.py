"""What fp_device has to hold for a device of the reference."""

from reference.rules.advertising import account_key_filter
from reference.rules.device import Stage
from reference.rules.stored_list import pack, stored_list

from .structs import FILTER_MAX, LINKS, MOST_SALTS, NAME_MAX, STORED_LIST_MAX

STAGES = {
    Stage.ASKED: 1,
    Stage.PAIRING: 2,
    Stage.CONFIRMING: 3,
    Stage.PROVED: 4,
    Stage.PAIRED: 5,
}
# "An idle link has zeros: nothing of a dropped key stays in it."
IDLE = (0, 0, 0, bytes(16), bytes(3))
NO_SALT = (0, bytes(8))


def expected_values(device):
    """The values of its fp_device, in the order of struct_values.NAMES; None is fp_off()."""
    if device is None:
        return off()
    found = [device.clock]
    for session in device.links:
        found += link(session)
    found += salts(device.spent)
    # While nothing is counted the last failure's moment is not in use.
    found += (device.failed_at if device.failures else 0,)
    found += stored(stored_list(device))
    found += name(device.name)
    found += (device.public, device.model, device.ble, device.salt, built_filter(device))
    found += (int(device.pairing_mode), device.failures, int(device.rotation_awaited), bytes(5))
    return tuple(found)


def link(session):
    if session is None:
        return IDLE
    return session.began, session.passkey, STAGES[session.stage], session.key, bytes(3)


def salts(spent):
    """The salts, oldest first, then zeros, then how many there are."""
    found = []
    for salt in spent:
        found += (len(salt), salt.ljust(8, b"\0"))
    return found + list(NO_SALT) * (MOST_SALTS - len(spent)) + [len(spent)]


def stored(text):
    """ "the first `length` bytes"; the rest is not in use."""
    return len(text), text.ljust(STORED_LIST_MAX, b"\0"), bytes(4)


def name(text):
    """ "bytes past length are zero on the way out" """
    return len(text), text.ljust(NAME_MAX, b"\0")


def built_filter(device):
    """Built afresh, and not the one that the reference keeps; "the others are zero"."""
    return account_key_filter(device.keys, device.salt).ljust(FILTER_MAX, b"\0")


def off():
    """ "all zeros and an empty list" """
    guard = *salts(()), 0
    identity = bytes(6), bytes(3)
    rest = bytes(6), bytes(2), bytes(FILTER_MAX), 0, 0, 0, bytes(5)
    return (0, *IDLE * LINKS, *guard, *stored(pack(())), *name(b""), *identity, *rest)
