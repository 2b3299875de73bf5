"""Counts what recordings have reached: situations of records, of buffers, and what the replay's lines show."""

from ..rules.device import MOST_KEYS
from ..rules.record_layout import LAYOUTS
from ..rules.recording import LENGTH_FIELD, MOST_LENGTH, read_record
from . import record_situations
from .coverage import ANSWERS
from .recordings import BUFFERS

EMPTY = "an empty recording"
LONG_IN_A_ROW = "over-long behind an over-long one"
BAD_EARLY = "bad record before the first power-on"
BAD = "bad record shows 0"
EMPTY_STAYS = "refused power-on, an empty list stays"
KEYS_STAY = "refused power-on, keys stay"
KIND_NAMES = [layout.name for layout in LAYOUTS]
AT_BUFFERS = ("begins at", "length field across", "record across")

NAMES = (
    EMPTY,
    *record_situations.NAMES,
    LONG_IN_A_ROW,
    *(f"{where} a multiple of {size}" for size in BUFFERS for where in AT_BUFFERS),
    *(f"{name} before the first power-on" for name in KIND_NAMES),
    BAD_EARLY,
    BAD,
    EMPTY_STAYS,
    KEYS_STAY,
    *(f"shows answer {answer}" for answer in ANSWERS),
    *(f"{name} shows 0" for name in KIND_NAMES),
    *(f"shows size {size}" for size in range(MOST_KEYS + 1)),
)


class RecordingCoverage:
    """Takes note of recordings and of the lines that the right rules give them."""

    def __init__(self):
        self.counts = dict.fromkeys(NAMES, 0)

    def met(self, name, truth=True):
        if name in self.counts:
            self.counts[name] += bool(truth)

    def note(self, recording, lines):
        """One recording and its lines."""
        self.met(EMPTY, not recording)
        place, on, long_before = 0, False, False
        for line in lines:
            _, name, answer, size = line.split()
            end = place + LENGTH_FIELD + int.from_bytes(recording[place : place + LENGTH_FIELD], "big")
            on = on or (name, answer) == ("power-on", "0")
            bad = self.record(recording[place:end], end - place)
            self.line(name, answer, size, on, bad)
            self.buffers(place, end)
            long = end - place - LENGTH_FIELD > MOST_LENGTH
            self.met(LONG_IN_A_ROW, long and long_before)
            long_before, place = long, end

    def record(self, data, size):
        """Whether these bytes are no record; the length field asks for so many."""
        for name in record_situations.situations(data, size):
            self.met(name)
        whole = len(data) == size and size - LENGTH_FIELD <= MOST_LENGTH
        return not whole or read_record(data[LENGTH_FIELD:]) is None

    def line(self, name, answer, size, on, bad):
        """What a line shows, of a record that may be none."""
        if not on:
            self.met(BAD_EARLY if bad else f"{name} before the first power-on")
            return
        self.met(f"shows answer {answer}")
        self.met(f"shows size {size}")
        self.met(BAD if bad else f"{name} shows {answer}")
        refused = (name, answer) == ("power-on", "14")
        self.met(EMPTY_STAYS if size == "0" else KEYS_STAY, refused)

    def buffers(self, begin, end):
        """Where multiples of a buffer's size fall."""
        # Between two multiples of the smallest size there is none of the others.
        if begin % BUFFERS[0] and begin // BUFFERS[0] == end // BUFFERS[0]:
            return
        for size in BUFFERS:
            at, in_length, in_record = (f"{where} a multiple of {size}" for where in AT_BUFFERS)
            self.met(at, begin and begin % size == 0)
            self.met(in_length, (begin + 1) % size == 0)
            # Not those that are skipped.
            short = end - begin <= LENGTH_FIELD + MOST_LENGTH
            self.met(in_record, short and (begin + LENGTH_FIELD) // size != (end - 1) // size)

    def missed(self):
        return [name for name in NAMES if not self.counts[name]]
