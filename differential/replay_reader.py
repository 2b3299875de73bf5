"""What an fp_replay holds, as a replay of the second program; for what stands in for the library."""

from functools import lru_cache

from reference.rules.advertising import account_key_filter
from reference.rules.device import Device, Session
from reference.rules.name import is_name
from reference.rules.parts import Replay
from reference.rules.recording import LENGTH_FIELD, MOST_LENGTH
from reference.rules.stored_list import read_stored_list

from .expected_device import STAGES
from .structs import LINKS, MOST_SALTS, NAME_MAX, STORED_LIST_MAX, FpDevice

BY_NUMBER = {0: None, **{number: stage for stage, number in STAGES.items()}}
MOST_FAILURES = 10
MOST_HELD = LENGTH_FIELD + MOST_LENGTH - 1


def read_replay(fp_replay):
    """The replay, or None for bytes that are none."""
    device, held = read_device(bytes(fp_replay.device)), fp_replay.held
    if device is None or fp_replay.started > 1 or held > MOST_HELD:
        return None
    unfinished = bytes(fp_replay.unfinished[:held])
    if (held and fp_replay.skip) or not is_beginning(unfinished):
        return None
    return Replay(device if fp_replay.started else None, fp_replay.number, unfinished, fp_replay.skip)


def is_beginning(held):
    """Whether a record that is not whole yet can have these bytes: not if they are all of it, nor if it is too long."""
    if len(held) < LENGTH_FIELD:
        return True
    return len(held) - LENGTH_FIELD < int.from_bytes(held[:LENGTH_FIELD], "big") <= MOST_LENGTH


# Many calls leave the device as it was.
@lru_cache(maxsize=100)
def read_device(data):
    """The device of an fp_device's bytes, or None if they are none; its filter is built anew."""
    device = FpDevice.from_buffer_copy(data)
    keys, name = read_keys(device.stored), bytes(device.name.bytes[: device.name.length])
    if keys is None or device.name.length > NAME_MAX or not is_name(name) or not is_counted(device):
        return None
    links, spent = map(read_session, device.sessions), device.spent.salts[: device.spent.count]
    identity = device.identity.public_address.bytes, device.ble.bytes, device.identity.model, device.salt
    built = account_key_filter(keys, bytes(device.salt))
    held = tuple(links), device.clock, device.failures, device.failed_at, tuple(map(read_salt, spent))
    return Device(keys, name, *map(bytes, identity), built, *held, bool(device.pairing), bool(device.rotation_awaited))


def read_keys(stored):
    keys = read_stored_list(bytes(stored.bytes[: stored.length])) if stored.length <= STORED_LIST_MAX else None
    return None if keys is None else tuple(keys)


def is_counted(device):
    """Whether stages, salts, failures and flags are among those that the header names."""
    if device.spent.count > MOST_SALTS or device.failures > MOST_FAILURES:
        return False
    stages = all(device.sessions[link].stage in BY_NUMBER for link in range(LINKS))
    salts = all(salt.length in (2, 8) for salt in device.spent.salts[: device.spent.count])
    flags = device.pairing <= 1 and device.rotation_awaited <= 1
    return stages and salts and flags and not (device.rotation_awaited and device.failures)


def read_session(session):
    if session.stage == 0:
        return None
    return Session(bytes(session.key), BY_NUMBER[session.stage], session.since, session.passkey)


def read_salt(salt):
    return bytes(salt.bytes[: salt.length])
