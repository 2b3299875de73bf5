"""The events of the whole device, and of links that come and go."""

from .advertising import account_key_filter
from .device import Device, drop, drop_all
from .events import Reply, plain_reply
from .name import is_name
from .stored_list import read_stored_list


def overflow(device, event):
    """The overflow marker: "always gets 0. Drops K on all links. Nothing else changes." """
    return drop_all(device), plain_reply(event, 0)


def power_on(device, event):
    """ "Starts from a stored list, addresses, model ID and salt." and from a name: "a bad one gets 14" """
    keys = read_stored_list(event.stored)
    # "no device made; an earlier one stays as it was"
    if keys is None or not is_name(event.name):
        return device, Reply(14)
    # "it equals the filter built afresh from the list and salt, rotation, eviction, reset and power-on included"
    kept = account_key_filter(keys, event.salt)
    made = Device(tuple(keys), event.name, event.public, event.ble, event.model, event.salt, kept)
    return made, Reply(0)


def link_changed(device, event):
    """ "Both drop that link's K, also when repeated." """
    return drop(device, event.link), plain_reply(event, 0)


def pairing_mode(device, event):
    """ "Nothing else changes." """
    return device.copy(pairing_mode=event.on), plain_reply(event, 0)


def address_rotated(device, event):
    """ "(new BLE address and new 2-byte filter salt). Nothing else changes", but for the wait that it lifts."""
    kept = account_key_filter(device.keys, event.salt)
    # "A marker does not lift it; rotation, power-on and factory reset do."
    return device.copy(ble=event.ble, salt=event.salt, filter=kept, rotation_awaited=False), plain_reply(event, 0)


def factory_reset(device, event):
    """ "Empties the key list and spent salts, drops every K, sets the count to 0." """
    kept = account_key_filter((), device.salt)
    # Names are "emptied by factory reset", which also lifts the wait for a rotation.
    device = drop_all(device).copy(keys=(), filter=kept, name=b"")
    return device.copy(spent=(), failures=0, rotation_awaited=False), plain_reply(event, 0)
