"""The device's name: what is one, and the name write after the clock step."""

from .device import Stage, drop
from .events import plain_reply
from .name_packet import open_packet
from .utf8 import is_utf8

# "Names are 0 to 64 bytes of valid UTF-8"
MOST_NAME = 64
# "A name write is taken from asked to proved"
TAKEN_IN = (Stage.ASKED, Stage.PAIRING, Stage.CONFIRMING, Stage.PROVED)


def is_name(data):
    """Whether a device can have this name."""
    return len(data) <= MOST_NAME and is_utf8(data)


def name_write(device, event):
    """ "taken from asked to proved, else 9 (idle) or 10 (paired)" """
    session = device.links[event.link]
    if session is None:
        return device, plain_reply(event, 9)
    if session.stage not in TAKEN_IN:
        # Row 10: "its K dropped"
        return drop(device, event.link), plain_reply(event, 10)
    name = open_packet(session.key, event.packet)
    # "0 and 15 keep K, stage and timer."
    if name is None or not is_name(name):
        # "a wrong tag or bad UTF-8 gets a new answer 15, old name kept"
        return device, plain_reply(event, 15)
    return device.copy(name=name), plain_reply(event, 0)
