"""The device of document 01 with requests (i), (ii) and (v) to (vii): one step for each event, in the checks' order."""

from . import control, events, key_based, name, pairing
from .clock import clock_step
from .device import LINKS, drop_all
from .events import plain_reply

MOST_PASSKEY = 999_999
# "it needs 16 bytes, asked even where none will be written"
RESPONSE_SIZE = 16
# "a second output, which needs 80 bytes in every key-based write, else 13"
PACKET_ROOM = 80
# "Any size but 16 to 80 gets 2"
LEAST_PACKET, MOST_PACKET = 16, 80


def step(device, event):
    """ "Each event takes the device's state and gives back the next, with one answer." """
    if isinstance(event, events.PowerOn):
        return control.power_on(device, event)
    if device is None:
        raise ValueError("only power-on makes a device")
    if isinstance(event, events.Overflow):
        return control.overflow(device, event)
    # "Checked in this order: 1, 2, 3, 13, 4"
    answer = refusal_without_change(event)
    if answer is not None:
        return device, plain_reply(event, answer)
    if event.clock < device.clock:
        # "K dropped on all links; clock stays"
        return drop_all(device), plain_reply(event, 4)
    return RULES[type(event)](clock_step(device, event.clock), event)


def refusal_without_change(event):
    """The answer 1, 2, 3 or 13, or None."""
    if getattr(event, "link", 0) >= LINKS:
        return 1
    if isinstance(event, events.KeyBasedWrite) and len(event.data) not in (16, 80):
        return 2
    if isinstance(event, events.NameWrite) and not LEAST_PACKET <= len(event.packet) <= MOST_PACKET:
        return 2
    if isinstance(event, events.ConfirmationNeeded) and event.passkey > MOST_PASSKEY:
        return 3
    if isinstance(event, events.LENDING) and len(event.out) < RESPONSE_SIZE:
        return 13
    if isinstance(event, events.KeyBasedWrite) and len(event.packet) < PACKET_ROOM:
        return 13
    return None


# What each kind of event does after the clock step.
RULES = {
    events.LinkUp: control.link_changed,
    events.LinkDown: control.link_changed,
    events.PairingMode: control.pairing_mode,
    events.AddressRotated: control.address_rotated,
    events.FactoryReset: control.factory_reset,
    events.KeyBasedWrite: key_based.key_based_write,
    events.PairingStarted: pairing.pairing_started,
    events.ConfirmationNeeded: pairing.confirmation_needed,
    events.PasskeyWrite: pairing.passkey_write,
    events.PairingEnded: pairing.pairing_ended,
    events.AccountKeyWrite: pairing.account_key_write,
    events.NameWrite: name.name_write,
}
