"""What stands in for the library's replay: the second program's, by the structs of the header."""

from reference.rules import parts

from .expected_replay import expected_fed, expected_values, refused_fed
from .replay_reader import read_device, read_replay
from .struct_values import FED_PACKING, REPLAY_PACKING, replay_values
from .structs import FpFed, FpReplay


class StandIn:
    """What the library's functions do, by the second program's rules or by wrong ones."""

    def __init__(self, rules=parts):
        self.rules = rules

    def start(self):
        return FpReplay.from_buffer_copy(REPLAY_PACKING.pack(*expected_values(parts.Replay())))

    def feed(self, fp_replay, part, at):
        replay = self.read(fp_replay)
        if replay is None:
            return self.refused(fp_replay, part, at)
        return packed(expected_fed(*self.rules.read_on(replay, part, at), unused(fp_replay)))

    def end(self, fp_replay):
        replay = self.read(fp_replay)
        if replay is None:
            return self.refused(fp_replay, b"", 0)
        return packed(expected_fed(*self.rules.end(replay), 0, unused(fp_replay)))

    def read(self, fp_replay):
        """The replay, or None for bytes that are none."""
        return read_replay(fp_replay)

    def refused(self, fp_replay, part, at):
        return packed(refused_fed(replay_values(fp_replay), max(at, len(part))))


def unused(fp_replay):
    """What comes back as its device until a power-on is taken."""
    return read_device(bytes(fp_replay.device))


def packed(values):
    return FpFed.from_buffer_copy(FED_PACKING.pack(*values))
