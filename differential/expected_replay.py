"""What fp_fed and fp_replay have to hold for a replay of the second program."""

from functools import lru_cache

from reference.rules.record_layout import LAYOUTS

from . import expected_device
from .structs import RECORD_MAX

PART_READ, LINE_SHOWN, NOT_A_REPLAY = 0, 1, 255
KINDS = {layout.name: layout.kind for layout in LAYOUTS}
NO_LINE = (0, 0, 0, 0, bytes(6))
# Many calls leave the device as it was.
device_values = lru_cache(maxsize=100)(expected_device.expected_values)


def expected_fed(replay, line, at, unused=None):
    """The values of an fp_fed with this line or None, in the order of struct_values.FED_NAMES."""
    status = LINE_SHOWN if line else PART_READ
    return (*expected_values(replay, unused), *line_values(line), at, status, bytes(7))


def refused_fed(values, at):
    """ "the fp_replay handed in is none; it comes back as it was, there is no line" """
    return (*values, *NO_LINE, at, NOT_A_REPLAY, bytes(7))


def expected_values(replay, unused=None):
    """The values of its fp_replay; before the first power-on that is taken with the unused device that was handed in."""
    device = unused if replay.device is None else replay.device
    held = len(replay.held), replay.skip, replay.held.ljust(RECORD_MAX, b"\0")
    return (*device_values(device), replay.number, *held, int(replay.device is not None), bytes(5))


def line_values(line):
    """Number, keys, kind, answer and what is reserved, from the words of a line."""
    if line is None:
        return NO_LINE
    number, kind, answer, keys = line.split(" ")
    return int(number), int(keys), KINDS[kind], int(answer), bytes(6)
