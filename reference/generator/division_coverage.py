"""Counts what divided recordings have reached: where parts end, where they are empty, and where the recording ends."""

from bisect import bisect_left, bisect_right
from collections import Counter
from dataclasses import dataclass
from itertools import accumulate

from ..rules.recording import LENGTH_FIELD, MOST_LENGTH

TIMES = ("before power-on", "after power-on")
# Records by what follows their length field; other lengths above 1,024 have no name.
NAMED_LENGTHS = {1_024: "a record of 1,024", 1_025: "a record of 1,025", 65_535: "a record of 65,535"}
SHORT = "a short record"
SIZES = (SHORT, *NAMED_LENGTHS.values())
# Where a part ends, seen from a record.
IN_LENGTH = "in the length field"
BEHIND_LENGTH = "behind the length field"
IN_BODY = "in the body"
BEFORE_END = "one byte before the end"
AT_END = "at the end"
BEHIND_END = "one byte behind the end"
PLACES = (IN_LENGTH, BEHIND_LENGTH, IN_BODY, BEFORE_END, AT_END, BEHIND_END)
SPREADS = ("one part", "two parts", "three parts", "more parts")
# Where an empty part comes.
SKIPPING = "while skipping"
BETWEEN = "between records"
EMPTY_PLACES = (IN_LENGTH, BEHIND_LENGTH, IN_BODY, SKIPPING, BETWEEN, AT_END)
# What there is of a record when the recording ends.
NOTHING = "nothing held"
ONE_BYTE = "one byte held"
LENGTH_ALONE = "a length field held"
MORE = "more held"
ONE_MISSING = "one byte missing"
ALL_TO_SKIP = "all to be skipped"
MORE_TO_SKIP = "more to be skipped"
ONE_TO_SKIP = "one byte to be skipped"
ENDS = (NOTHING, ONE_BYTE, LENGTH_ALONE, MORE, ONE_MISSING, ALL_TO_SKIP, MORE_TO_SKIP, ONE_TO_SKIP)
# Whatever the device is.
NO_PART = "a recording of no part"
EMPTY_ALONE = "a recording of empty parts alone"
EMPTY_FIRST = "an empty part at the beginning"
TWO_EMPTY = "two empty parts in a row"
SEVERAL = "several records end in one part"
LONG_IN_A_ROW = "two records that are too long end in one part"
FIRST_IN_PARTS = "the first taken power-on is divided"

NAMES = (
    *(f"{size}, a part ends {place}, {time}" for size in SIZES for place in PLACES for time in TIMES),
    *(f"{size} in {spread}, {time}" for size in SIZES for spread in SPREADS for time in TIMES),
    *(f"an empty part {place}, {time}" for place in EMPTY_PLACES for time in TIMES),
    *(f"ends with {what}, {time}" for what in ENDS for time in TIMES),
    NO_PART,
    EMPTY_ALONE,
    EMPTY_FIRST,
    TWO_EMPTY,
    SEVERAL,
    LONG_IN_A_ROW,
    FIRST_IN_PARTS,
)


@dataclass(frozen=True)
class Record:
    """Where a record begins, and where it ends or would end if it were not cut."""

    begin: int
    end: int
    # Whether a power-on was taken before it, and whether this is the first.
    time: str
    first: bool

    def length(self):
        return self.end - self.begin - LENGTH_FIELD

    def size(self):
        return NAMED_LENGTHS.get(self.length(), SHORT if self.length() < MOST_LENGTH else None)

    def too_long(self):
        return self.length() > MOST_LENGTH

    def place(self, at):
        """Which of PLACES this one is; it is behind the record's beginning."""
        behind_length = self.begin + LENGTH_FIELD
        # In a short record one place can be two of them, and the last one counts.
        places = {self.begin + 1: IN_LENGTH, behind_length: BEHIND_LENGTH, self.end - 1: BEFORE_END}
        return (places | {self.end: AT_END, self.end + 1: BEHIND_END}).get(at, IN_BODY)


class DivisionCoverage:
    """Takes note of divided recordings and of the lines that the right rules give them."""

    def __init__(self):
        self.counts = dict.fromkeys(NAMES, 0)

    def met(self, name, truth=True):
        if name in self.counts:
            self.counts[name] += bool(truth)

    def note(self, parts, lines):
        """One recording in parts, and the lines of the whole."""
        recording, ends = b"".join(parts), list(accumulate(map(len, parts)))
        records, size = records_of(recording, lines), len(recording)
        last_time = TIMES[any(record.first or record.time == TIMES[1] for record in records)]
        divided = sorted({end for end in ends if 0 < end < size})
        for record in records:
            self.record(record, divided, size)
        self.ended_in_one_part(records, [*divided, size])
        self.met(NO_PART, not parts)
        self.met(EMPTY_ALONE, parts and not recording)
        for place in empty_places(parts, ends):
            self.empty_part(place, records, size, last_time)
        self.met(TWO_EMPTY, any(not one and not other for one, other in zip(parts, parts[1:])))
        self.end(records, size, last_time)

    def record(self, record, divided, size):
        """Where parts end in a record or one byte behind it, and over how many parts it goes."""
        begin, end = bisect_right(divided, record.begin), bisect_right(divided, record.end + 1)
        for at in divided[begin:end]:
            self.met(f"{record.size()}, a part ends {record.place(at)}, {record.time}")
        if record.end <= size:
            more = bisect_left(divided, record.end) - begin
            self.met(f"{record.size()} in {SPREADS[min(more, 3)]}, {record.time}")
            self.met(FIRST_IN_PARTS, record.first and more)

    def ended_in_one_part(self, records, ends):
        ended = [(bisect_left(ends, record.end), record.too_long()) for record in records if record.end <= ends[-1]]
        self.met(SEVERAL, max(Counter(part for part, _ in ended).values(), default=0) > 1)
        self.met(LONG_IN_A_ROW, max(Counter(part for part, long in ended if long).values(), default=0) > 1)

    def empty_part(self, place, records, size, last_time):
        """An empty part at this place, which may be in a record."""
        within = next((record for record in records if record.begin <= place < record.end), None)
        time = within.time if within else last_time
        self.met(EMPTY_FIRST, place == 0 < size)
        self.met(f"an empty part {AT_END}, {time}", place == size > 0)
        if within is None or place == within.begin:
            self.met(f"an empty part {BETWEEN}, {time}", 0 < place < size)
        elif within.too_long() and place >= within.begin + LENGTH_FIELD:
            self.met(f"an empty part {SKIPPING}, {time}")
        else:
            where = within.place(place)
            self.met(f"an empty part {IN_BODY if where == BEFORE_END else where}, {time}")

    def end(self, records, size, last_time):
        cut = records and records[-1].end > size
        what = held_at_end(records[-1], size) if cut else NOTHING
        self.met(f"ends with {what}, {last_time}")

    def missed(self):
        return [name for name in NAMES if not self.counts[name]]


def records_of(recording, lines):
    """A Record for each line."""
    found, begin, taken = [], 0, False
    for line in lines:
        end = begin + LENGTH_FIELD + int.from_bytes(recording[begin : begin + LENGTH_FIELD], "big")
        first = not taken and line.split()[1:3] == ["power-on", "0"]
        found.append(Record(begin, end, TIMES[taken], first))
        begin, taken = end, taken or first
    return found


def empty_places(parts, ends):
    return [end for part, end in zip(parts, ends) if not part]


def held_at_end(record, size):
    """What there is of a record that is cut at this place."""
    there, missing = size - record.begin, record.end - size
    if there < LENGTH_FIELD:
        return ONE_BYTE
    if record.too_long():
        return ALL_TO_SKIP if there == LENGTH_FIELD else ONE_TO_SKIP if missing == 1 else MORE_TO_SKIP
    return LENGTH_ALONE if there == LENGTH_FIELD else ONE_MISSING if missing == 1 else MORE
