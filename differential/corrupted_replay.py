"""Ways to change an fp_replay: bytes that are no replay, and bytes that are one, each condition from both sides."""

from ctypes import sizeof

from . import corrupted_device
from .structs import RECORD_MAX, FpReplay

# Numbers in one byte that a field of 0 and 1 can't have.
ABOVE_1 = (2, 3, 128, 255)
# More bytes than a length field can say; with 16 or 32 bits alone the first ones would be 0 and 1.
FAR = (2**16, 2**16 + 1, 2**32, 2**32 + 1, 2**63, 2**64 - 1)
MOST_HELD = RECORD_MAX - 1
MOST_LENGTH = 1_024


def copy(replay):
    """A replay that can be changed without changing the first."""
    return FpReplay.from_buffer_copy(replay)


def hold(replay, data):
    """The replay holds these bytes, and skips nothing."""
    replay.held, replay.skip = len(data), 0
    replay.unfinished[: len(data)] = list(data)


def begun(random, length, held):
    """So many bytes of a record, whose length field says this length."""
    return (length.to_bytes(2, "big") + random.randbytes(held))[:held]


# ---- bytes that are no replay


def unknown_start(random, replay):
    replay.started = random.choice(ABOVE_1)


def long_held(random, replay):
    """More than a record can have that is not whole; some of it would stand behind `unfinished`."""
    hold(replay, begun(random, MOST_LENGTH, MOST_HELD))
    replay.held = random.choice((MOST_HELD + 1, MOST_HELD + 2, MOST_HELD + 3, 32_768, 65_535, *FAR))


def held_and_skip(random, replay):
    hold(replay, random.randbytes(1))
    replay.skip = random.choice((1, 2, 1_024, 65_535, *FAR))


def whole_record(random, replay):
    """As many bytes behind the length field as it says."""
    length = random.choice((0, 1, 2, 11, MOST_LENGTH - 1))
    hold(replay, begun(random, length, length + 2))


def more_than_a_record(random, replay):
    length = random.choice((0, 1, 2, 11, MOST_LENGTH - 2))
    hold(replay, begun(random, length, random.randint(length + 3, MOST_HELD)))


def too_long(random, replay):
    """The beginning of a record that has to be skipped."""
    length = random.choice((MOST_LENGTH + 1, MOST_LENGTH + 2, 32_768, 65_535))
    hold(replay, begun(random, length, random.choice((2, 3, 100, MOST_HELD))))


def no_device(random, replay):
    random.choice(corrupted_device.NO_DEVICE)(random, replay.device)


def random_bytes(random, replay):
    """Its stored list has more than 164 bytes, as good as surely."""
    memoryview(replay).cast("B")[:] = random.randbytes(sizeof(FpReplay))


NO_REPLAY = (
    unknown_start,
    long_held,
    held_and_skip,
    whole_record,
    more_than_a_record,
    too_long,
    no_device,
    random_bytes,
)


# ---- bytes that are a replay


def nothing_held(random, replay):
    hold(replay, b"")


def one_byte(random, replay):
    """Any byte is the first one of a length field."""
    hold(replay, random.choice((b"\x00", b"\x04", b"\x05", b"\xff")))


def length_alone(random, replay):
    hold(replay, begun(random, random.choice((1, 2, MOST_LENGTH - 1, MOST_LENGTH)), 2))


def one_missing(random, replay):
    length = random.choice((1, 2, 11, MOST_LENGTH - 1))
    hold(replay, begun(random, length, length + 1))


def most_held(random, replay):
    hold(replay, begun(random, MOST_LENGTH, MOST_HELD))


def to_be_skipped(random, replay):
    hold(replay, b"")
    replay.skip = random.choice((1, 2, 1_024, 1_025, 65_534, 65_535))


def far_to_be_skipped(random, replay):
    """As no record would leave it: so many bytes are skipped."""
    hold(replay, b"")
    replay.skip = random.choice(FAR)


def any_number(random, replay):
    replay.number = random.choice((0, 1, 2**32 - 1, 2**32, 2**63, 2**64 - 2, 2**64 - 1))


def behind_held(random, replay):
    """ "bytes of `unfinished` past `held`": not looked at, and zero in the replay that comes back."""
    replay.unfinished[replay.held :] = list(random.randbytes(RECORD_MAX - replay.held))


def reserved(random, replay):
    """Not looked at either."""
    replay.reserved[:] = list(random.randbytes(len(replay.reserved)))


def not_started(random, replay):
    """A device that gets no event."""
    replay.started = 0


def same_device(random, replay):
    """Bytes of the device that are not looked at either."""
    random.choice(corrupted_device.SAME_DEVICE)(random, replay.device)


SERVED = (
    nothing_held,
    one_byte,
    length_alone,
    one_missing,
    most_held,
    to_be_skipped,
    far_to_be_skipped,
    any_number,
    behind_held,
    reserved,
    not_started,
    same_device,
)
