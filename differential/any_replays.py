"""Any bytes as an fp_replay: some get FP_NOT_A_REPLAY, and all others are served as they stand."""

from collections import Counter
from random import Random

from reference.rules.parts import end, read_on

from . import corrupted_replay
from .compare import Difference
from .expected_replay import expected_fed, refused_fed
from .struct_values import FED_NAMES, differing, fed_values, replay_values


class AnyReplays:
    """Corrupts replays of a run and hands them to both functions."""

    def __init__(self, library, seed):
        self.library = library
        self.random = Random(seed)
        self.tried = Counter()

    def check(self, pair, part):
        """The first difference of the replay that has come so far, or None; the part is the run's next one."""
        # Empty ones as well, and ones that end no record; places behind them too.
        part = self.random.choice((part, b"", self.random.randbytes(1), self.random.randbytes(2_000)))
        within = self.random.randint(0, len(part))
        at = self.random.choice((0, within, within, len(part) + 1, 2**64 - 1))
        return self.refused(pair, part, at) or self.served(pair, part, at)

    def never_tried(self):
        ways = (*corrupted_replay.NO_REPLAY, *corrupted_replay.SERVED)
        return [way.__name__ for way in ways if not self.tried[way.__name__]]

    def changed(self, pair, ways):
        """The replay changed in one of these ways, and the way."""
        way, corrupted = self.random.choice(ways), corrupted_replay.copy(pair.fp_replay)
        way(self.random, corrupted)
        self.tried[way.__name__] += 1
        return way, corrupted

    def refused(self, pair, part, at):
        """ "the fp_replay handed in is none; it comes back as it was, there is no line"; and `at` is behind the part."""
        fault, corrupted = self.changed(pair, corrupted_replay.NO_REPLAY)
        values = replay_values(corrupted)
        fed, ended = self.library.feed(corrupted, part, at), self.library.end(corrupted)
        expected = refused_fed(values, max(at, len(part))), refused_fed(values, 0)
        return differs(fault, corrupted, expected, (fed, ended))

    def served(self, pair, part, at):
        """ "Any other bytes are replayed as they stand": as the second program replays them."""
        way, corrupted = self.changed(pair, corrupted_replay.SERVED)
        held = bytes(corrupted.unfinished[: corrupted.held])
        unused = pair.replay.device
        device = unused if corrupted.started else None
        replay = pair.replay.copy(device=device, number=corrupted.number, held=held, skip=corrupted.skip)
        fed, ended = self.library.feed(corrupted, part, at), self.library.end(corrupted)
        expected = expected_fed(*read_on(replay, part, at), unused), expected_fed(*end(replay), 0, unused)
        return differs(way, corrupted, expected, (fed, ended))


def differs(way, replay, expected, found):
    """The first difference of a part's call and of the end's, with the bytes of the replay."""
    for call, ours, fed in zip(("part", "end"), expected, found):
        theirs = fed_values(fed)
        if ours != theirs:
            what = f"any bytes: {way.__name__}, {call}, fp_replay {bytes(replay).hex()}"
            return Difference(what, *differing(ours, theirs, FED_NAMES))
    return None
