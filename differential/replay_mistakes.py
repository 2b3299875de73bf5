"""Stand-ins for fp_replay that take their input in a wrong way, to see that the comparison finds them."""

from reference.rules.parts import Replay, feed
from reference.rules.replay import replay

from .replay_program import Printed
from .replays import as_text


class StandIn:
    """What the program does, in Python; the rules of the replay may be wrong ones."""

    def __init__(self, rules=replay):
        self.rules = rules

    def of_files(self, paths):
        contents, error = readable(paths)
        return self.printed(b"".join(contents), error)

    def of_input(self, recording):
        return self.printed(recording)

    def of_parts(self, parts):
        return self.printed(b"".join(parts))

    def of_input_file(self, path):
        return self.of_input(path.read_bytes())

    def of_terminal(self, recording):
        return self.of_input(recording)

    def part_by_part(self, parts):
        return printed_by_parts(parts), self.of_parts(parts)

    def interrupted(self, parts):
        return self.of_parts(parts)

    def printed(self, recording, error=""):
        return Printed(as_text(self.rules(recording)), error, 0)


def printed_by_parts(parts):
    """What is printed with each part."""
    state, printed = Replay(), []
    for part in parts:
        state, lines = feed(state, part)
        printed.append(as_text(lines))
    return printed


def readable(paths):
    """The contents of the files up to one that can't be read, and a message of that one."""
    contents = []
    for path in paths:
        try:
            contents.append(path.read_bytes())
        except OSError as error:
            return contents, f"{error}\n"
    return contents, ""


class FirstFileAlone(StandIn):
    def of_files(self, paths):
        return super().of_files(paths[:1])


class LastFileFirst(StandIn):
    def of_files(self, paths):
        return super().of_files(paths[::-1])


class EachFileARecording(StandIn):
    def of_files(self, paths):
        contents, error = readable(paths)
        return Printed("".join(self.printed(content).out for content in contents), error, 0)


class EmptyFileIsTheEnd(StandIn):
    def of_files(self, paths):
        contents, error = readable(paths)
        end = contents.index(b"") if b"" in contents else len(contents)
        return self.printed(b"".join(contents[:end]), error)


class GoesOnBehindAMissingFile(StandIn):
    def of_files(self, paths):
        contents = [path.read_bytes() for path in paths if path.is_file()]
        return self.printed(b"".join(contents), readable(paths)[1])


class NothingIfAFileIsMissing(StandIn):
    def of_files(self, paths):
        contents, error = readable(paths)
        return self.printed(b"" if error else b"".join(contents), error)


class CutBeforeAMissingFileIgnored(StandIn):
    """The rest of a record that the missing file might have ended is not shown."""

    def of_files(self, paths):
        contents, error = readable(paths)
        printed = self.printed(b"".join(contents), error)
        lines = printed.out.splitlines()
        return Printed(as_text(lines[:-1]), error, 0) if error else printed


class NoMessage(StandIn):
    def of_files(self, paths):
        return self.printed(b"".join(readable(paths)[0]))


class MessageOnStandardOutput(StandIn):
    def of_files(self, paths):
        contents, error = readable(paths)
        printed = self.printed(b"".join(contents), error)
        return Printed(printed.out + error, error, 0)


class FirstPartAlone(StandIn):
    """A read that gives less than asked is taken for the end."""

    def of_parts(self, parts):
        return self.printed(b"".join(parts[:1]))


class EachPartARecording(StandIn):
    def of_parts(self, parts):
        return Printed("".join(self.printed(part).out for part in parts), "", 0)


class PrintsAtTheEnd(StandIn):
    """What is printed is kept until the program ends."""

    def part_by_part(self, parts):
        return [""] * len(parts), self.of_parts(parts)


class PrintsWithTheNextPart(StandIn):
    def part_by_part(self, parts):
        return ["", *printed_by_parts(parts)[:-1]], self.of_parts(parts)


class EveryPartEndsARecord(StandIn):
    """A record that is not whole is printed as a marker before the rest comes."""

    def part_by_part(self, parts):
        joined = (b"".join(parts[: place + 1]) for place in range(len(parts)))
        counts, printed = 0, []
        for recording in joined:
            lines = self.rules(recording)
            printed.append(as_text(lines[counts:]))
            counts = len(lines)
        return printed, self.of_parts(parts)


class InterruptedReadIsTheEnd(StandIn):
    def interrupted(self, parts):
        return self.printed(b"")


class SecondInterruptionIsTheEnd(StandIn):
    def interrupted(self, parts):
        return self.of_parts(parts[:1])


class WarnsOfAnInterruptedRead(StandIn):
    def interrupted(self, parts):
        return self.printed(b"".join(parts), "standard input: Interrupted system call\n")


class PartAgainAfterAnInterruptedRead(StandIn):
    def interrupted(self, parts):
        return self.of_parts(parts[:1] + parts)


class NoFileAsStandardInput(StandIn):
    def of_input_file(self, path):
        return self.printed(b"")


class FirstLineOfATerminal(StandIn):
    """What comes up to the first line end is taken for all."""

    def of_terminal(self, recording):
        return self.printed(recording.partition(b"\n")[0])


class NoTerminal(StandIn):
    def of_terminal(self, recording):
        return self.printed(b"", "standard input is a terminal\n")


class NothingOnStandardInput(StandIn):
    def of_input(self, recording):
        return self.printed(b"")


class EmptyRecordingIsAMarker(StandIn):
    def printed(self, recording, error=""):
        return super().printed(recording or b"\x00", error)


class WarnsOfMarkers(StandIn):
    def printed(self, recording, error=""):
        found = super().printed(recording, error)
        return Printed(found.out, error or "bad record\n" * ("marker" in found.out), 0)


class FailsWithACutRecord(StandIn):
    def printed(self, recording, error=""):
        found = super().printed(recording, error)
        return Printed(found.out, error, 1 if recording.endswith(b"\x00") else 0)


class NoLastLineEnd(StandIn):
    def printed(self, recording, error=""):
        return Printed(super().printed(recording).out[:-1], error, 0)


class LoadsALittle(StandIn):
    """What is behind so many bytes is not read."""

    def printed(self, recording, error=""):
        return super().printed(recording[:500_000], error)


def losing_a_byte(size):
    """A stand-in whose buffer has this size: the byte behind each is lost."""

    class LosesAByte(StandIn):
        def printed(self, recording, error=""):
            kept = (recording[place + bool(place) : place + size] for place in range(0, len(recording), size))
            return super().printed(b"".join(kept), error)

    return LosesAByte


MISTAKES = (
    FirstFileAlone,
    LastFileFirst,
    EachFileARecording,
    EmptyFileIsTheEnd,
    GoesOnBehindAMissingFile,
    NothingIfAFileIsMissing,
    CutBeforeAMissingFileIgnored,
    NoMessage,
    MessageOnStandardOutput,
    FirstPartAlone,
    EachPartARecording,
    PrintsAtTheEnd,
    PrintsWithTheNextPart,
    EveryPartEndsARecord,
    InterruptedReadIsTheEnd,
    SecondInterruptionIsTheEnd,
    WarnsOfAnInterruptedRead,
    PartAgainAfterAnInterruptedRead,
    NoFileAsStandardInput,
    FirstLineOfATerminal,
    NoTerminal,
    NothingOnStandardInput,
    EmptyRecordingIsAMarker,
    WarnsOfMarkers,
    FailsWithACutRecord,
    NoLastLineEnd,
    LoadsALittle,
    *map(losing_a_byte, (4_096, 65_536, 524_288 - 1)),
)
