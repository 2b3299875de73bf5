"""Mistakes put into what stands in for the library's replay, to see that the comparison finds them."""

from .corrupted_replay import copy
from .expected_replay import LINE_SHOWN, NOT_A_REPLAY, PART_READ
from .guarded_memory import InterfaceViolation
from .stand_in_replay import StandIn
from .structs import NAME_MAX, RECORD_MAX, FpDevice, FpLine, FpReplay

# The replay before the first part.
OFF = StandIn().start()
# A number that `started` can't be.
NEITHER = 2


# ---- mistakes in what a part's call gives back; each has the fp_replay, the part, the place and the fp_fed


def place_not_moved(replay, part, at, fed):
    if fed.status == LINE_SHOWN:
        fed.at = at


def last_byte_again(replay, part, at, fed):
    if fed.status == LINE_SHOWN:
        fed.at -= 1


def byte_left_out(replay, part, at, fed):
    if fed.status == LINE_SHOWN and fed.at < len(part):
        fed.at += 1


def part_left_before_its_end(replay, part, at, fed):
    if fed.status == PART_READ and at < len(part):
        fed.at -= 1


def place_behind_the_part_moved(replay, part, at, fed):
    fed.at = min(fed.at, len(part))


def line_without_its_status(replay, part, at, fed):
    fed.status = PART_READ


def status_without_a_line(replay, part, at, fed):
    if fed.status == PART_READ and len(part) > 2:
        fed.status = LINE_SHOWN


def line_before_stays(replay, part, at, fed):
    if fed.status == PART_READ and fed.next.number:
        fed.line = FpLine(fed.next.number, 0, 1, 0)


def kind_of_the_byte(replay, part, at, fed):
    """A bad record has the kind of its kind byte."""
    if fed.status == LINE_SHOWN and fed.line.kind == 1 and at + 3 < fed.at and part[at + 3] in range(2, 15):
        fed.line.kind = part[at + 3]


def keys_of_the_list_before(replay, part, at, fed):
    if fed.status == LINE_SHOWN:
        fed.line.keys = (replay.device.stored.length - 4) // 16 if replay.started else 0


def line_reserved(replay, part, at, fed):
    fed.line.reserved[5] = 1


def fed_reserved(replay, part, at, fed):
    fed.reserved[6] = 1


def next_reserved(replay, part, at, fed):
    fed.next.reserved[4] = fed.next.started


def reserved_stays(replay, part, at, fed):
    fed.next.reserved = replay.reserved


def unfinished_stays(replay, part, at, fed):
    """The bytes of a record that is whole are not set to zero."""
    if fed.status == LINE_SHOWN and replay.held:
        fed.next.unfinished[: replay.held] = replay.unfinished[: replay.held]


def behind_held_stays(replay, part, at, fed):
    if fed.status == PART_READ:
        fed.next.unfinished[fed.next.held :] = replay.unfinished[fed.next.held :]


def long_record_held(replay, part, at, fed):
    """A length field that tells of a long record stays where it was."""
    if fed.next.skip and replay.held:
        fed.next.unfinished[: replay.held] = replay.unfinished[: replay.held]


def held_lost_by_an_empty_part(replay, part, at, fed):
    if not part:
        fed.next.held = 0
        fed.next.unfinished[:] = [0] * RECORD_MAX


def skip_lost_by_an_empty_part(replay, part, at, fed):
    if not part:
        fed.next.skip = 0


def held_lost(replay, part, at, fed):
    """A record that goes over two parts is lost."""
    fed.next.held = 0
    fed.next.unfinished[:] = [0] * RECORD_MAX


def one_byte_lost(replay, part, at, fed):
    """One byte of a length field is not held."""
    if fed.next.held == 1:
        held_lost(replay, part, at, fed)


def skip_one_more(replay, part, at, fed):
    if fed.next.skip > replay.skip:
        fed.next.skip -= 1


def started_early(replay, part, at, fed):
    """By a power-on that is refused."""
    if fed.line.kind == 6:
        fed.next.started = 1


def started_lost(replay, part, at, fed):
    """By a power-on that is refused later."""
    if fed.line.kind == 6 and fed.line.answer == 14:
        fed.next.started = 0


def not_counted(replay, part, at, fed):
    """A marker has the number of the event before."""
    if fed.line.kind == 1:
        fed.next.number -= 1


def counted_without_a_line(replay, part, at, fed):
    if part and fed.status == PART_READ:
        fed.next.number += 1


def number_of_32_bits(replay, part, at, fed):
    fed.next.number %= 2**32


def number_stops(replay, part, at, fed):
    """At the last number that there is."""
    if fed.status == LINE_SHOWN and fed.next.number == 0:
        fed.next.number = fed.line.number = 2**64 - 1


def device_not_packed_again(replay, part, at, fed):
    """Before the first power-on the device comes back as it was, also in places that are not in use."""
    if not fed.next.started:
        fed.next.device = replay.device


def unused_device_lost(replay, part, at, fed):
    """It comes back as fp_off()."""
    if not fed.next.started:
        fed.next.device = OFF.device


def key_in_an_idle_link(replay, part, at, fed):
    if fed.status == PART_READ and part:
        fed.next.device.sessions[7].key[0] |= 1


def part_written(replay, part, at, fed):
    if fed.status == LINE_SHOWN:
        raise InterfaceViolation("the part was written to")


OF_PARTS = (
    place_not_moved,
    last_byte_again,
    byte_left_out,
    part_left_before_its_end,
    place_behind_the_part_moved,
    line_without_its_status,
    status_without_a_line,
    line_before_stays,
    kind_of_the_byte,
    keys_of_the_list_before,
    line_reserved,
    fed_reserved,
    next_reserved,
    reserved_stays,
    unfinished_stays,
    behind_held_stays,
    long_record_held,
    held_lost_by_an_empty_part,
    skip_lost_by_an_empty_part,
    held_lost,
    one_byte_lost,
    skip_one_more,
    started_early,
    started_lost,
    not_counted,
    counted_without_a_line,
    number_of_32_bits,
    number_stops,
    device_not_packed_again,
    unused_device_lost,
    key_in_an_idle_link,
    part_written,
)


# ---- mistakes in what the end gives back


def place_of_the_end(replay, fed):
    fed.at = replay.held


def held_after_the_end(replay, fed):
    fed.next.held, fed.next.unfinished = replay.held, replay.unfinished


def skip_after_the_end(replay, fed):
    fed.next.skip = replay.skip


def marker_at_every_end(replay, fed):
    if fed.status == PART_READ:
        fed.status, fed.line.kind = LINE_SHOWN, 1


def no_line_of_a_cut_record(replay, fed):
    fed.status, fed.line = PART_READ, FpLine()


def no_line_of_one_byte(replay, fed):
    if replay.held == 1:
        no_line_of_a_cut_record(replay, fed)


def no_line_of_a_length_field(replay, fed):
    if replay.held == 2:
        no_line_of_a_cut_record(replay, fed)


def no_line_while_skipping(replay, fed):
    if replay.skip:
        no_line_of_a_cut_record(replay, fed)


def kind_of_a_cut_record(replay, fed):
    if replay.held > 3:
        fed.line.kind = replay.unfinished[3]


def started_by_the_end(replay, fed):
    fed.next.started = 1


def ended_and_reserved(replay, fed):
    fed.reserved[0] = 1


def reserved_after_the_end(replay, fed):
    fed.next.reserved = replay.reserved


def unused_device_lost_by_the_end(replay, fed):
    if not fed.next.started:
        fed.next.device = OFF.device


OF_ENDS = (
    place_of_the_end,
    held_after_the_end,
    skip_after_the_end,
    marker_at_every_end,
    no_line_of_a_cut_record,
    no_line_of_one_byte,
    no_line_of_a_length_field,
    no_line_while_skipping,
    kind_of_a_cut_record,
    started_by_the_end,
    ended_and_reserved,
    reserved_after_the_end,
    unused_device_lost_by_the_end,
)


# ---- mistakes in what comes back of an fp_replay that is none


def unfinished_cleared(replay, part, at, fed):
    fed.next.unfinished[:] = [0] * RECORD_MAX


def device_cleared(replay, part, at, fed):
    fed.next.device = FpDevice()


def part_not_passed(replay, part, at, fed):
    """The caller's loop would never end."""
    fed.at = at


def place_of_the_part(replay, part, at, fed):
    """Also if the place handed in is behind it."""
    fed.at = len(part)


def reserved_cleared(replay, part, at, fed):
    fed.next.reserved[:] = [0] * 5


def marker_shown(replay, part, at, fed):
    fed.line.kind = 1


def taken_as_read(replay, part, at, fed):
    fed.status = PART_READ


OF_REFUSALS = (
    unfinished_cleared,
    device_cleared,
    part_not_passed,
    place_of_the_part,
    reserved_cleared,
    marker_shown,
    taken_as_read,
)


# ---- an fp_replay that is none is taken: each changes what is handed in


def start_taken(replay):
    replay.started = min(replay.started, 1)


def held_of_1026_taken(replay):
    replay.held = min(replay.held, RECORD_MAX - 1)


def held_of_16_bits(replay):
    replay.held %= 2**16


def held_of_32_bits(replay):
    replay.held %= 2**32


def skip_of_16_bits(replay):
    replay.skip %= 2**16


def skip_of_32_bits(replay):
    replay.skip %= 2**32


def skip_before_held(replay):
    if replay.skip and replay.held < RECORD_MAX:
        replay.held = 0


def whole_record_taken(replay):
    length = int.from_bytes(bytes(replay.unfinished[:2]), "big")
    if replay.held == length + 2:
        replay.held -= 1


def more_than_a_record_taken(replay):
    length = int.from_bytes(bytes(replay.unfinished[:2]), "big")
    if length + 2 < replay.held < RECORD_MAX:
        replay.held = 0


def too_long_taken(replay):
    length = int.from_bytes(bytes(replay.unfinished[:2]), "big")
    if 2 <= replay.held < RECORD_MAX and length > 1_024:
        replay.held, replay.skip = 0, length - replay.held + 2


def long_name_taken(replay):
    replay.device.name.length = min(replay.device.name.length, NAME_MAX)


def unknown_stage_taken(replay):
    for session in replay.device.sessions:
        session.stage = min(session.stage, 5)


# ---- an fp_replay that is one is refused: each makes it none


def held_of_1025_refused(replay):
    if replay.held == RECORD_MAX - 1:
        replay.started = NEITHER


def one_missing_refused(replay):
    length = int.from_bytes(bytes(replay.unfinished[:2]), "big")
    if replay.held == length + 1 > 2:
        replay.started = NEITHER


def longest_refused(replay):
    """A record of 1,024 bytes is taken for one that is too long."""
    if replay.held >= 2 and bytes(replay.unfinished[:2]) == b"\x04\x00":
        replay.started = NEITHER


def one_byte_of_length_refused(replay):
    """Its first byte alone says that the record is too long."""
    if replay.held == 1 and replay.unfinished[0] > 4:
        replay.started = NEITHER


def longest_skip_refused(replay):
    if replay.skip == 65_535:
        replay.started = NEITHER


def far_skip_refused(replay):
    """More than a length field can say."""
    if replay.skip > 65_535:
        replay.started = NEITHER


def reserved_refused(replay):
    if any(replay.reserved):
        replay.started = NEITHER


def unused_device_refused(replay):
    if not replay.started and replay.device.stored.length > 4:
        replay.started = NEITHER


def last_number_refused(replay):
    if replay.number == 2**64 - 1:
        replay.started = NEITHER


def behind_held_refused(replay):
    if any(replay.unfinished[replay.held :]):
        replay.started = NEITHER


def off_refused(replay):
    if not replay.started:
        replay.started = NEITHER


OF_REPLAYS = (
    start_taken,
    held_of_1026_taken,
    held_of_16_bits,
    held_of_32_bits,
    skip_of_16_bits,
    skip_of_32_bits,
    skip_before_held,
    whole_record_taken,
    more_than_a_record_taken,
    too_long_taken,
    long_name_taken,
    unknown_stage_taken,
    held_of_1025_refused,
    one_missing_refused,
    longest_refused,
    one_byte_of_length_refused,
    longest_skip_refused,
    far_skip_refused,
    reserved_refused,
    unused_device_refused,
    last_number_refused,
    behind_held_refused,
    off_refused,
)


# ---- mistakes in how it is called


class EmptyPartIsTheEnd(StandIn):
    def feed(self, fp_replay, part, at):
        return super().feed(fp_replay, part, at) if part else self.end(fp_replay)


class PlaceIgnored(StandIn):
    """A part is read from its beginning each time."""

    def feed(self, fp_replay, part, at):
        fed = super().feed(fp_replay, part, 0)
        fed.at += at
        return fed


class BeginsWithAMarker(StandIn):
    def start(self):
        replay = super().start()
        replay.number = 1
        return replay


class BeginsWithZeros(StandIn):
    """A device of zeros is none."""

    def start(self):
        return FpReplay()


class KeepsReplaysOfItsOwn(StandIn):
    """The bytes of the part before are kept elsewhere than in the fp_replay."""

    held = b""

    def feed(self, fp_replay, part, at):
        replay = copy(fp_replay)
        if 0 < replay.held == len(self.held):
            replay.unfinished[: replay.held] = list(self.held)
        fed = super().feed(replay, part, at)
        self.held = bytes(fed.next.unfinished[: fed.next.held])
        return fed


class LongRecordShownEarly(StandIn):
    """A record that is too long is shown with its length field, and with its last byte no more."""

    def feed(self, fp_replay, part, at):
        fed = super().feed(fp_replay, part, at)
        if fed.next.skip > fp_replay.skip:
            return self.with_its_line(fed)
        if fp_replay.skip and fed.status == LINE_SHOWN:
            fed.status, fed.line, fed.next.number = PART_READ, FpLine(), fp_replay.number
        return fed

    def with_its_line(self, fed):
        """What a marker in its place would give, and as much to be skipped."""
        shown = super().feed(fed.next, bytes(fed.next.skip), 0)
        shown.next.skip, shown.at = fed.next.skip, fed.at
        return shown


CALLS = (
    EmptyPartIsTheEnd,
    PlaceIgnored,
    BeginsWithAMarker,
    BeginsWithZeros,
    KeepsReplaysOfItsOwn,
    LongRecordShownEarly,
)


def of_parts(change):
    """A stand-in with this mistake in what a part's call gives back, if the replay is taken."""

    class Mistaken(StandIn):
        def feed(self, fp_replay, part, at):
            fed = super().feed(fp_replay, part, at)
            if fed.status != NOT_A_REPLAY:
                change(fp_replay, part, at, fed)
            return fed

    return Mistaken()


def of_ends(change):
    class Mistaken(StandIn):
        def end(self, fp_replay):
            fed = super().end(fp_replay)
            if fed.status != NOT_A_REPLAY:
                change(fp_replay, fed)
            return fed

    return Mistaken()


def of_refusals(change):
    class Mistaken(StandIn):
        def refused(self, fp_replay, part, at):
            fed = super().refused(fp_replay, part, at)
            change(fp_replay, part, at, fed)
            return fed

    return Mistaken()


def of_replays(change):
    """A stand-in that takes another replay than was handed in."""

    class Mistaken(StandIn):
        def read(self, fp_replay):
            replay = copy(fp_replay)
            change(replay)
            return super().read(replay)

    return Mistaken()


def stand_ins():
    """Each mistake by its name."""
    for make in CALLS:
        yield make.__name__, make()
    of_each = (of_parts, OF_PARTS), (of_ends, OF_ENDS), (of_refusals, OF_REFUSALS), (of_replays, OF_REPLAYS)
    for make, changes in of_each:
        for change in changes:
            yield change.__name__, make(change)
