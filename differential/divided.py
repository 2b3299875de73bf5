"""A recording in parts through the library and through the second program, compared after every call."""

from functools import lru_cache

from reference.rules.parts import Replay, end, read_on
from reference.rules.replay import replay as replay_joined

from .compare import Difference
from .expected_replay import expected_fed, expected_values
from .guarded_memory import InterfaceViolation
from .struct_values import FED_NAMES, differing, fed_values, replay_values

# Places behind a part: "An `at` that is not less than `length` reads nothing".
BEHIND = (0, 1, 2**32, 2**64 - 1)
# These places, and fp_replays of any bytes, are tried at one part in so many.
MORE_EVERY = 11
# So many bytes of a part are named in a difference.
SHOWN = 32


@lru_cache(maxsize=1_000)
def right_lines(recording):
    """The lines of the joined recording."""
    return replay_joined(recording)


class Pair:
    """An fp_replay of the library and a replay of the second program, which get the same parts."""

    def __init__(self, library):
        self.library = library
        self.fp_replay = library.start()
        self.replay = Replay()
        self.at = 0
        self.lines = []

    def begun(self):
        """The first difference of the replay before any part, or None."""
        expected, found = expected_values(self.replay), replay_values(self.fp_replay)
        return None if expected == found else Difference("fp_replay_start", *differing(expected, found, FED_NAMES))

    def feed(self, part, at):
        """The same of one call, which goes on at this place of the part."""
        self.replay, line, self.at = read_on(self.replay, part, at)
        fed = self.library.feed(self.fp_replay, part, at)
        return self.compared(f"place {at} of a part of {len(part)} bytes, {part[:SHOWN].hex()}", fed, line)

    def end(self):
        """The same of the recording's end."""
        self.replay, line = end(self.replay)
        self.at = 0
        return self.compared("the end", self.library.end(self.fp_replay), line)

    def compared(self, what, fed, line):
        """Status, line, place, and every field of `next`."""
        self.fp_replay = fed.next
        self.lines += [line] if line else []
        expected, found = expected_fed(self.replay, line, self.at), fed_values(fed)
        return None if expected == found else Difference(what, *differing(expected, found, FED_NAMES))


class Divided:
    """Feeds recordings in parts, and counts what was reached; that needs a coverage."""

    def __init__(self, library, any_replays=None, coverage=None):
        self.library = library
        self.any_replays = any_replays
        self.coverage = coverage
        self.recordings = self.parts = self.calls = 0
        # The recording before, and the bytes of the fp_replay at its end.
        self.last = None

    def check(self, parts):
        """The first difference of the recording in these parts, or None."""
        self.recordings += 1
        recording, pair = b"".join(parts), Pair(self.library)
        lines = right_lines(recording)
        if self.coverage:
            self.coverage.note(parts, lines)
        try:
            return pair.begun() or self.fed(pair, parts) or self.ended(pair, recording, lines)
        except InterfaceViolation as violation:
            return Difference("memory", "the part as it was", str(violation))

    def fed(self, pair, parts):
        """The calls of all parts; each part is handed in until it is read to its end, an empty one once."""
        for part in parts:
            difference = self.more(pair, part) or self.feed(pair, part, 0)
            while difference is None and pair.at < len(part):
                difference = self.feed(pair, part, pair.at)
            if difference:
                return difference
        return None

    def feed(self, pair, part, at):
        self.calls += 1
        return pair.feed(part, at)

    def more(self, pair, part):
        """Now and then: places behind the part, which change nothing, and fp_replays of any bytes."""
        self.parts += 1
        if self.parts % MORE_EVERY:
            return None
        places = (min(len(part) + place, BEHIND[-1]) for place in BEHIND)
        found = (self.feed(pair, part, place) for place in places)
        difference = next((one for one in found if one), None)
        return difference or (self.any_replays and self.any_replays.check(pair, part))

    def ended(self, pair, recording, lines):
        """The end, and then all lines and the last fp_replay."""
        self.calls += 1
        difference = pair.end()
        if difference is None and pair.lines != lines:
            difference = Difference("lines of the joined recording", lines, pair.lines)
        return difference or self.same_last(recording, bytes(pair.fp_replay))

    def same_last(self, recording, last):
        """Two divisions of one recording end with the same fp_replay, byte for byte."""
        before, self.last = self.last, (recording, last)
        if before is None or before[0] != recording or before[1] == last:
            return None
        return Difference("the last fp_replay of another division", before[1].hex(), last.hex())
