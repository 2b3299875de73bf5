"""Name writes: taken ones, those that get 2 or 15, and packets that the device has sent."""

from ..rules.events import NameWrite
from ..rules.name_packet import TAG
from . import seeker_blocks
from .random_names import ill_formed, long_name, some_name
from .random_values import other_bit, resized, weighted

WRONG_SIZES = (0, 1, 8, 15, 15, 81, 96, 160)

WAYS = {
    "name": 8,
    "held name": 1,
    "ill-formed": 10,
    "changed": 4,
    "no tag": 0.5,
    "another key": 1.5,
    "sent": 3,
    "sent elsewhere": 1.5,
    "size": 2,
    "too long": 1,
    "random": 0.5,
}


def name_write(random, device, history, link, clock):
    """A name write for this link, most often one with a packet under its K."""
    session = device.links[link]
    key = random.randbytes(16) if session is None else session.key
    way = weighted(random, WAYS)
    return NameWrite(link, clock, PACKETS[way](random, device, history, key))


def sealed(random, key, name):
    return seeker_blocks.name_packet(key, random.randbytes(8), name)


def with_name(random, device, history, key):
    return sealed(random, key, some_name(random))


def with_held_name(random, device, history, key):
    """The name that the device has already."""
    return sealed(random, key, device.name)


def with_ill_formed(random, device, history, key):
    """An authentic packet whose content is no UTF-8."""
    return sealed(random, key, ill_formed(random))


def changed(random, device, history, key):
    """One bit is another one: most often in the tag, and there in the first or in the last byte."""
    packet = sealed(random, key, some_name(random))
    place = random.choice((0, 7, random.randrange(TAG), random.randrange(TAG), random.randrange(len(packet))))
    return packet[:place] + other_bit(random, packet[place : place + 1]) + packet[place + 1 :]


def no_tag(random, device, history, key):
    """Zeros or ones stand in the tag's place."""
    return bytes([random.choice((0x00, 0xFF))]) * TAG + sealed(random, key, some_name(random))[TAG:]


def with_another_key(random, device, history, key):
    """K of another link, a held account key, or one that nobody holds."""
    links = [session.key for session in device.links if session is not None and session.key != key]
    return sealed(random, random.choice((*links, *device.keys, random.randbytes(16))), some_name(random))


def sent(random, device, history, key):
    """A packet that the device has sent under this K comes back."""
    packets = history.packets_under(key)
    return random.choice(packets) if packets else with_held_name(random, device, history, key)


def sent_elsewhere(random, device, history, key):
    """A packet that the device has sent under another K."""
    packets = history.packets_under_others(key)
    return random.choice(packets) if packets else with_another_key(random, device, history, key)


def wrong_size(random, device, history, key):
    """A packet that was cut or lengthened."""
    return resized(random, with_name(random, device, history, key), WRONG_SIZES)


def too_long(random, device, history, key):
    """An authentic packet with more than 64 bytes of UTF-8."""
    return sealed(random, key, long_name(random))


def random_bytes(random, device, history, key):
    return random.randbytes(random.randrange(16, 81))


PACKETS = {
    "name": with_name,
    "held name": with_held_name,
    "ill-formed": with_ill_formed,
    "changed": changed,
    "no tag": no_tag,
    "another key": with_another_key,
    "sent": sent,
    "sent elsewhere": sent_elsewhere,
    "size": wrong_size,
    "too long": too_long,
    "random": random_bytes,
}
