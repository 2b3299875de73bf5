"""The replay of a recording: one line for each event."""

from .events import PowerOn
from .model import step
from .record_layout import BY_EVENT
from .recording import read_recording

# "its number from 1 on (in 64 bits)"
NUMBERS = 2**64


def replay(recording):
    """The lines of a whole recording."""
    device, number, lines = None, 0, []
    for event in read_recording(recording):
        device, number, line = next_line(device, number, event)
        lines.append(line)
    return lines


def next_line(device, number, event):
    """The next device, the number of events up to here, and the line of this one."""
    device, answer = replayed(device, event)
    number = (number + 1) % NUMBERS
    keys = len(device.keys) if device else 0
    # "its number, kind, answer and list size, single spaces between, no header"
    return device, number, f"{number} {BY_EVENT[type(event)].name} {answer} {keys}"


def replayed(device, event):
    """The next device, and the answer that is shown."""
    # "Before the first power-on taken, every event, marker too, shows 14 and size 0"
    if device is None and not isinstance(event, PowerOn):
        return None, 14
    # "a refused power-on later leaves the device as it was"
    device, reply = step(device, event)
    return device, reply.answer
