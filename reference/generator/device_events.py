"""Events of the whole device, and of links that come and go."""

from ..rules.events import AddressRotated, FactoryReset, LinkDown, LinkUp, Overflow, PairingMode
from . import power_on_events
from .clocks import earlier
from .random_values import busy_link, link_number, weighted
from .rates import DEVICE_EVENTS, EQUAL_ADDRESSES, SAME_ADDRESS, SAME_SALT


def device_event(random, device, history, clock, rates=DEVICE_EVENTS):
    """One of these events, at this clock if it carries one."""
    return EVENTS[weighted(random, rates)](random, device, history, clock)


def some_link(random, device):
    """Any link, more often one that has a K to lose."""
    busy = busy_link(random, device) if random.random() < 0.5 else None
    return link_number(random) if busy is None else busy


def link_up(random, device, history, clock):
    return LinkUp(some_link(random, device), clock)


def link_down(random, device, history, clock):
    return LinkDown(some_link(random, device), clock)


def mode_on(random, device, history, clock):
    return PairingMode(True, clock)


def mode_off(random, device, history, clock):
    return PairingMode(False, clock)


def rotation(random, device, history, clock):
    """Now and then to the address or the salt that is there, or to the public address."""
    new = 1 - SAME_ADDRESS - EQUAL_ADDRESSES
    addresses = {random.randbytes(6): new, device.ble: SAME_ADDRESS, device.public: EQUAL_ADDRESSES}
    salt = device.salt if random.random() < SAME_SALT else random.randbytes(2)
    return AddressRotated(weighted(random, addresses), salt, clock)


def refused_rotation(random, device, history, clock):
    """Before the stored clock."""
    return rotation(random, device, history, earlier(random, device, None))


def overflow(random, device, history, clock):
    return Overflow()


def reset(random, device, history, clock):
    return FactoryReset(clock)


def refused_reset(random, device, history, clock):
    """Before the stored clock."""
    return FactoryReset(earlier(random, device, None))


def power_on(random, device, history, clock):
    return power_on_events.well_formed(random, device, history)


def malformed_list(random, device, history, clock):
    return power_on_events.malformed(random, device, history)


def bad_name(random, device, history, clock):
    return power_on_events.bad_name(random, device, history)


EVENTS = {
    "link up": link_up,
    "link down": link_down,
    "mode on": mode_on,
    "mode off": mode_off,
    "rotation": rotation,
    "refused rotation": refused_rotation,
    "overflow": overflow,
    "reset": reset,
    "refused reset": refused_reset,
    "power-on": power_on,
    "malformed list": malformed_list,
    "bad name": bad_name,
}
