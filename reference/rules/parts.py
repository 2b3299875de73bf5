"""A replay that is fed by parts: "The printed lines, final state and any cut record are those of the joined recording,
wherever it was divided." """

from dataclasses import dataclass, replace

from .device import Device
from .events import Overflow
from .recording import LENGTH_FIELD, MOST_LENGTH, read_record
from .replay import next_line


@dataclass(frozen=True, slots=True)
class Replay:
    """What is kept from part to part. "At most one unfinished record is held" """

    # None before the first power-on that is taken.
    device: Device | None = None
    number: int = 0
    # What has come of the one record that is not whole yet, with its length field.
    held: bytes = b""
    # Of a record that is too long nothing is held: how many bytes of it are still to come.
    skip: int = 0

    def copy(self, **changes):
        """The same replay with some fields changed."""
        return replace(self, **changes)


def feed(replay, part):
    """The next replay, and the lines of the records that are whole with this part."""
    lines, at = [], 0
    # "hands over whatever it has, sometimes nothing": an empty part is not the end
    while at < len(part):
        replay, line, at = read_on(replay, part, at)
        lines += [line] if line else []
    return replay, lines


def end(replay):
    """The recording ends: the next replay, and the line of a cut record, or None."""
    # "If it is cut as well, it is still one marker."
    return shown(replay, Overflow()) if replay.held or replay.skip else (replay, None)


def read_on(replay, part, at):
    """Up to the end of a record or of the part: the next replay, a line or None, and the place there."""
    if replay.skip:
        return skipped(replay, part, at)
    replay, at = with_more(replay, part, at, LENGTH_FIELD)
    if len(replay.held) < LENGTH_FIELD:
        return replay, None, at
    length = int.from_bytes(replay.held[:LENGTH_FIELD], "big")
    # "a record longer than 1,024 bytes after its length field is skipped and counts as one marker"
    if length > MOST_LENGTH:
        return skipped(replay.copy(held=b"", skip=length), part, at)
    replay, at = with_more(replay, part, at, LENGTH_FIELD + length)
    if len(replay.held) < LENGTH_FIELD + length:
        return replay, None, at
    event = read_record(replay.held[LENGTH_FIELD:])
    return *shown(replay, event or Overflow()), at


def with_more(replay, part, at, size):
    """So many bytes are held, if the part has them; and the place behind what was taken of it."""
    missing = max(0, size - len(replay.held))
    more = part[at : at + missing]
    return replay.copy(held=replay.held + more), at + len(more)


def skipped(replay, part, at):
    """A record that is too long: its line comes with its last byte, as that of every record."""
    passed = min(replay.skip, max(0, len(part) - at))
    replay = replay.copy(skip=replay.skip - passed)
    line = None
    if not replay.skip:
        replay, line = shown(replay, Overflow())
    return replay, line, at + passed


def shown(replay, event):
    """The next replay, which holds nothing of a record, and the line of the event."""
    device, number, line = next_line(replay.device, replay.number, event)
    return Replay(device, number), line
