"""The library's record of an event beside the second program's, byte by byte."""

from dataclasses import replace
from random import Random

from reference.generator.recording_faults import LENT_LENGTHS
from reference.rules import events
from reference.rules.recording import LENGTH_FIELD, LENT, MOST_LENGTH, record_length, recorded_values, write_record

from .compare import Difference
from .guarded_memory import InterfaceViolation

# The fields of free length.
FREE = (
    (events.PowerOn, "stored"),
    (events.PowerOn, "name"),
    (events.KeyBasedWrite, "data"),
    (events.PasskeyWrite, "block"),
    (events.AccountKeyWrite, "block"),
    (events.NameWrite, "packet"),
)
# Lengths after the length field: around the limit, and where two bytes would hold no more than a part of them.
LENGTHS = (1_023, 1_024, 1_025, 1_026, 65_535, 65_536, 65_560)
# Outputs with room for a record of this size, and those without; each event gets one of each.
WITH_ROOM = {"exact": lambda size: size, "longer": lambda size: size + 40}
TOO_SHORT = {"a byte short": lambda size: size - 1, "no bytes": lambda size: 0}
# The longer events of a run: one in so many.
LONGER_EVERY = 10

NAMES = (
    *(f"{kind.__name__}, {output}" for kind in events.KINDS for output in (*WITH_ROOM, *TOO_SHORT)),
    *(f"{kind.__name__}, {field}, record of {length:,}" for kind, field in FREE for length in LENGTHS),
    *(f"{kind.__name__}, {name} of {length:,}" for kind in LENT for name in LENT[kind] for length in LENT_LENGTHS),
)


class Records:
    """Compares the records of a run's events, and of longer ones made from them."""

    def __init__(self, library, seed):
        self.library = library
        self.random = Random(seed)
        self.counts = dict.fromkeys(NAMES, 0)
        self.events = 0

    def check(self, event):
        """The first difference, or None."""
        self.events += 1
        difference = self.compared(event)
        if difference is None and self.events % LONGER_EVERY == 0:
            difference = self.compared(*self.other_lengths(event)) or self.compared(self.longer(event))
        return difference

    def missed(self):
        return [name for name in NAMES if not self.counts[name]]

    def rarest(self, ways):
        """What has the name that was reached least often, and now once more."""
        name = min(ways, key=self.counts.get)
        self.counts[name] += 1
        return ways[name]

    def other_lengths(self, event):
        """The event with any lengths of its lent outputs."""
        kind = type(event).__name__
        names = LENT.get(type(event), ())
        ways = ({f"{kind}, {name} of {length:,}": length for length in LENT_LENGTHS} for name in names)
        return event, [self.rarest(lengths) for lengths in ways]

    def longer(self, event):
        """The event with a record of one of the lengths, if it has a field of free length."""
        fields = [name for kind, name in FREE if isinstance(event, kind)]
        if not fields:
            return event
        kind = type(event).__name__
        ways = {f"{kind}, {name}, record of {length:,}": (name, length) for name in fields for length in LENGTHS}
        name, length = self.rarest(ways)
        data = getattr(event, name)
        size = length - record_length(event, recorded_values(event)) + len(data)
        return replace(event, **{name: (data + self.random.randbytes(max(0, size - len(data))))[:size]})

    def compared(self, event, lengths=None):
        needed = LENGTH_FIELD + record_length(event, recorded_values(event))
        # A record that is too long gets 2 whatever the output.
        needed = min(needed, LENGTH_FIELD + MOST_LENGTH + 1)
        sizes = [self.output_size(event, outputs, needed) for outputs in (WITH_ROOM, TOO_SHORT)]
        found = (self.into(event, lengths, self.random.randbytes(size)) for size in sizes)
        return next((difference for difference in found if difference), None)

    def output_size(self, event, outputs, needed):
        ways = {f"{type(event).__name__}, {name}": size for name, size in outputs.items()}
        return self.rarest(ways)(needed)

    def into(self, event, lengths, out):
        """The record written into this output, by both."""
        answer, after = write_record(event, out, lengths)
        expected = answer, 0 if answer else LENGTH_FIELD + int.from_bytes(after[:LENGTH_FIELD], "big"), after
        try:
            found = self.library.record(event, out, lengths)
        except InterfaceViolation as violation:
            found = str(violation)
        if found == expected:
            return None
        return Difference(f"record: {event!r}, lengths {lengths}, output of {len(out)}", expected, found)
