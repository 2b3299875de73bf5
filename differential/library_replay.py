"""The replay of the built library, which is fed by parts."""

from reference.rules.record_layout import BY_KIND

from .expected_replay import LINE_SHOWN, PART_READ
from .guarded_memory import InterfaceViolation
from .mapped_memory import MappedMemory

# More than any recording that is fed in one part.
ROOM = 2**20


class LibraryReplay:
    """Every call has all of its state in an fp_replay; a part is lent for the call alone."""

    def __init__(self, functions):
        self.functions = functions
        self.part = MappedMemory("part", ROOM)

    def start(self):
        """The replay before the first part."""
        return self.functions["fp_replay_start"]()

    def feed(self, replay, part, at):
        """The fp_fed of one call; raises if the part was written to."""
        fed = self.functions["fp_replay_feed"](replay, *self.part.lend_slice(part), at)
        self.part.check_kept()
        return fed

    def end(self, replay):
        return self.functions["fp_replay_end"](replay)

    def lines_of(self, replay, part):
        """The next replay and the lines of a whole part, which is handed in until it is read to its end."""
        lines, fed = [], self.feed(replay, part, 0)
        while fed.status == LINE_SHOWN:
            lines += shown(fed)
            before, fed = fed.at, self.feed(fed.next, part, fed.at)
            if fed.status == LINE_SHOWN and fed.at <= before:
                raise InterfaceViolation(f"place {fed.at} after place {before}")
        return fed.next, lines + shown(fed)

    def line_of_end(self, replay):
        """The next replay and the line of a cut record, if there is one."""
        fed = self.end(replay)
        return fed.next, shown(fed)


def shown(fed):
    """The line of an fp_fed in words, or none; raises if it is no replay that was handed in."""
    if fed.status not in (PART_READ, LINE_SHOWN):
        raise InterfaceViolation(f"status {fed.status}")
    line = fed.line
    return [f"{line.number} {BY_KIND[line.kind].name} {line.answer} {line.keys}"] if fed.status == LINE_SHOWN else []
