"""Several faults in one event, which show the order of the checks."""

from dataclasses import replace

from ..rules.events import NameWrite
from .clocks import earlier
from .random_values import resized

WRONG_LINKS = (8, 8, 9, 255)
WRONG_SIZES = (0, 1, 15, 17, 79, 81)
LARGE_PASSKEYS = (1_000_000, 2**32 - 1)


def wrong_link(random, device, link):
    return random.choice(WRONG_LINKS)


def earlier_clock(random, device, clock):
    return earlier(random, device, None)


def short_output(random, device, out):
    return out[: random.choice((0, 1, 15))]


def wrong_size(random, device, data):
    return resized(random, data, WRONG_SIZES)


def short_second_output(random, device, packet):
    return packet[: random.choice((0, 16, 79))]


def wrong_packet_size(random, device, packet):
    return resized(random, packet, (0, 15, 81))


def large_passkey(random, device, passkey):
    return random.choice(LARGE_PASSKEYS)


# The fields whose faults are found by the checks 1 to 4, 12 and 13.
FAULTS = {
    "link": wrong_link,
    "data": wrong_size,
    "block": wrong_size,
    "passkey": large_passkey,
    "out": short_output,
    "packet": short_second_output,
    "clock": earlier_clock,
}


# The packet of a name write is no output.
NAME_WRITE_FAULTS = {**FAULTS, "packet": wrong_packet_size}


def with_faults(random, device, event):
    """The event with about half of the faults that it can have."""
    faults = NAME_WRITE_FAULTS if isinstance(event, NameWrite) else FAULTS
    for field, fault in faults.items():
        if hasattr(event, field) and random.random() < 0.5:
            event = replace(event, **{field: fault(random, device, getattr(event, field))})
    return event
