"""Ways to change an fp_device: bytes that are no device, and bytes that are the same device."""

from ctypes import sizeof

from reference.generator import random_names
from reference.generator.random_values import different_keys
from reference.rules.device import MOST_KEYS
from reference.rules.stored_list import MOST_IN, pack, read_stored_list

from .structs import LINKS, MOST_SALTS, NAME_MAX, STORED_LIST_MAX, FpDevice


def copy(device):
    """A device that can be changed without changing the first."""
    return FpDevice.from_buffer_copy(device)


# ---- bytes that are no device


def many_salts(random, device):
    device.spent.count = random.choice((17, 18, 255, 256, 2**32, 2**32 + 3, 2**64 - 1))


def many_failures(random, device):
    device.failures = random.choice((11, 12, 128, 255))


def unknown_salt_length(random, device):
    """A salt that is remembered has 2 or 8 bytes."""
    if device.spent.count == 0:
        device.spent.count = 1
    place = random.randrange(device.spent.count)
    device.spent.salts[place].length = random.choice((0, 1, 3, 7, 9, 128, 255))


def unknown_stage(random, device):
    device.sessions[random.randrange(LINKS)].stage = random.choice((6, 7, 128, 255))


def unknown_pairing(random, device):
    device.pairing = random.choice((2, 3, 128, 255))


def unknown_wait(random, device):
    """Whether a rotation is awaited is 0 or 1; with no failure, so that this alone makes it no device."""
    device.rotation_awaited = random.choice((2, 3, 128, 255))
    device.failures = 0


def wait_with_failures(random, device):
    """The request that began the wait set the count to 0, and since then no failure was counted."""
    device.rotation_awaited = 1
    device.failures = random.randrange(1, 11)


def long_list(random, device):
    device.stored.length = random.choice((165, 166, 255, 260, 2**32 + 4, 2**64 - 1))


def other_length(random, device):
    lengths = [n for n in range(STORED_LIST_MAX + 1) if n != device.stored.length]
    device.stored.length = random.choice(lengths)


def malformed_list(random, device):
    """A byte of the header or the first byte of a key, or a key twice."""
    stored = device.stored
    while read_stored_list(bytes(stored.bytes[: stored.length])) is not None:
        if stored.length >= 36 and random.random() < 0.3:
            stored.bytes[20:36] = stored.bytes[4:20]
        first_bytes = range(4, stored.length, 16)
        stored.bytes[random.choice((0, 1, 2, 3, *first_bytes))] ^= 1 << random.randrange(8)


def long_older_list(random, device):
    """Version 1 with more keys than a list of it has."""
    text = pack(different_keys(random, random.randrange(MOST_IN[1] + 1, MOST_KEYS + 1)), 1)
    device.stored.length = len(text)
    device.stored.bytes[: len(text)] = list(text)


def long_name(random, device):
    device.name.length = random.choice((65, 66, 80, 255, 256, 2**32 + 1, 2**64 - 1))


def ill_formed_name(random, device):
    set_name(device, random_names.ill_formed(random))


def set_name(device, text):
    """The name, with the bytes behind it as they were."""
    device.name.length = len(text)
    device.name.bytes[: len(text)] = list(text)


def random_bytes(random, device):
    """Its length of the stored list is above 164, as good as surely."""
    memoryview(device).cast("B")[:] = random.randbytes(sizeof(FpDevice))


NO_DEVICE = (
    many_salts,
    many_failures,
    unknown_salt_length,
    unknown_stage,
    unknown_pairing,
    unknown_wait,
    wait_with_failures,
    long_list,
    other_length,
    malformed_list,
    long_older_list,
    long_name,
    ill_formed_name,
    random_bytes,
)


# ---- bytes that are the same device; each says whether the device has such a place


def idle_link(random, device):
    idle = [session for session in device.sessions if session.stage == 0]
    for session in idle:
        session.key[:] = list(random.randbytes(16))
        session.since, session.passkey = random.getrandbits(64), random.getrandbits(32)
    return bool(idle)


def free_salts(random, device):
    spent = device.spent
    for salt in spent.salts[spent.count :]:
        salt.length = random.choice((0, 2, 8, 255))
        salt.bytes[:] = list(random.randbytes(8))
    return spent.count < MOST_SALTS


def behind_salts(random, device):
    """The bytes behind a remembered salt's length."""
    spent = device.spent
    short = [salt for salt in spent.salts[: spent.count] if salt.length == 2]
    for salt in short:
        salt.bytes[2:] = list(random.randbytes(6))
    return bool(short)


def behind_list(random, device):
    room = STORED_LIST_MAX - device.stored.length
    device.stored.bytes[device.stored.length :] = list(random.randbytes(room))
    return room > 0


def older_list(random, device):
    """The same keys in version 1, if a list of it has so many."""
    few = device.stored.bytes[3] <= MOST_IN[1]
    if few:
        device.stored.bytes[2] = 1
    return few


def behind_name(random, device):
    room = NAME_MAX - device.name.length
    device.name.bytes[device.name.length :] = list(random.randbytes(room))
    return room > 0


def no_failure(random, device):
    if device.failures:
        return False
    device.failed_at = random.getrandbits(64)
    return True


def reserved(random, device):
    for part in (device, device.stored, *device.sessions):
        part.reserved[:] = list(random.randbytes(len(part.reserved)))
    return True


SAME_DEVICE = (idle_link, free_salts, behind_salts, behind_list, older_list, behind_name, no_failure, reserved)


# ---- bytes that are served as they stand


def other_filter(random, device):
    """A filter that is not the one of the keys and the salt, also in its unused bytes."""
    device.filter[random.randrange(len(device.filter))] ^= random.randrange(1, 256)


def made_to_wait(random, device):
    """A wait that no request began, if there is none and nothing is counted; whether it is so."""
    if device.rotation_awaited or device.failures:
        return False
    device.rotation_awaited = 1
    return True


# ---- numbers that the header bounds nowhere


def any_numbers(random, device):
    """Moments, passkeys, addresses, salts and a name as no list of events would leave them."""
    device.clock = random.choice((0, random.getrandbits(64), 2**64 - 1))
    device.failed_at = random.choice((0, random.getrandbits(64), 2**64 - 1))
    for session in device.sessions:
        session.stage = random.randrange(6)
        session.since = random.choice((0, random.getrandbits(64), 2**64 - 1))
        session.passkey = random.getrandbits(32)
        session.key[:] = list(random.randbytes(16))
    for salt in device.spent.salts:
        salt.length = random.choice((2, 8))
    device.spent.count = random.randrange(MOST_SALTS + 1)
    device.failures = random.randrange(11)
    device.rotation_awaited = 0 if device.failures else random.randrange(2)
    set_name(device, random_names.some_name(random))
