"""The two that answer: the second program and the built library."""

from types import ModuleType
from typing import Callable, NamedTuple

from differential.guarded_memory import InterfaceViolation
from reference.rules import advertising, lent_output, model, parts, recording, replay, stored_list
from reference.rules.device import MOST_KEYS
from reference.rules.events import LENDING, Overflow, PowerOn, Reply
from reference.rules.model import RESPONSE_SIZE

from .fields import TextError
from .lines import (
    OF_RECORDINGS,
    BroughtTo,
    FilterAsked,
    Lost,
    NameAsked,
    NewRecording,
    Part,
    PayloadAsked,
    RecordAsked,
    RecordingEnds,
    Repeated,
    StoredListAsked,
)
from .names import RECORD_ROOM, lent
from .results import Result

# A filter stands in the room of the longest one, and the rest of it is zero.
FILTER_ROOM = advertising.filter_size(MOST_KEYS)


class Rules(NamedTuple):
    """What a side needs of the second program, or of a copy of it with a wrong rule."""

    step: Callable
    stored_list: Callable
    advertisement: Callable
    put_or_refuse: Callable
    write_record: Callable
    replay: Callable
    # The replay by parts: a Replay, `feed`, `read_on` and `end`.
    parts: ModuleType


# The modules that the rules are taken of.
MODULES = ("model", "stored_list", "advertising", "lent_output", "recording", "replay", "parts")


def rules_of(model, stored_list, advertising, lent_output, recording, replay, parts):
    """The rules of these modules, which are those of MODULES in their order."""
    return Rules(
        model.step,
        stored_list.stored_list,
        advertising.advertisement,
        lent_output.put_or_refuse,
        recording.write_record,
        replay.replay,
        parts,
    )


RIGHT_RULES = rules_of(model, stored_list, advertising, lent_output, recording, replay, parts)


class Side:
    """One that answers; `one_result`, `record`, `replayed`, `begin`, `feed` and `end` are its own."""

    def __init__(self):
        self.begin_recording()

    def begin_recording(self):
        """No record is there, and no part."""
        self.recording, self.printed, self.in_loss = b"", 0, False
        self.parts, self.fed_lines = [], []

    def result(self, asked):
        """The result of what a line asks."""
        if isinstance(asked, OF_RECORDINGS):
            fed = isinstance(asked, (Part, RecordingEnds))
            return Result(Reply(0), lines=tuple(self.fed(asked) if fed else self.printed_more(asked)))
        if isinstance(asked, RecordAsked):
            return self.record(asked.event, asked.out)
        if isinstance(asked, BroughtTo):
            return self.first_refusal(asked.events)
        if isinstance(asked, Repeated):
            return self.repeated(asked.event, asked.times)
        return self.one_result(asked)

    def first_refusal(self, events):
        """The answer of the first event that is not taken, or 0."""
        answers = (self.one_result(event).reply.answer for event in events)
        return Result(Reply(next((answer for answer in answers if answer), 0)))

    def repeated(self, event, times):
        """The first result, or the first one that differs from it."""
        first = self.one_result(event)
        rest = (self.one_result(event) for _ in range(times - 1))
        return next((result for result in rest if result != first), first)

    def printed_more(self, asked):
        """The lines that the replay prints more than before this line."""
        if isinstance(asked, NewRecording):
            self.begin_recording()
        else:
            self.recording += self.added(asked)
        lines = self.replayed(self.recording)
        more, self.printed = lines[self.printed :], len(lines)
        return more

    def added(self, asked):
        """The bytes that the recording gains."""
        first_lost = isinstance(asked, Lost) and not self.in_loss
        self.in_loss = isinstance(asked, Lost)
        if self.in_loss:
            return self.written_record(Overflow()) if first_lost else b""
        return self.bytes_of(asked.added)

    def fed(self, asked):
        """The lines of a part that is fed, or of the recording's end."""
        if not self.parts:
            self.begin()
        if isinstance(asked, RecordingEnds):
            lines = self.end()
            self.check_joined(lines)
        else:
            self.parts.append(self.bytes_of(asked.added))
            lines = self.feed(self.parts[-1])
        self.fed_lines += lines
        return lines

    def check_joined(self, last):
        """ "The printed lines .. and any cut record are those of the joined recording" """
        joined = self.replayed(b"".join(self.parts))
        if self.fed_lines + last != joined:
            raise InterfaceViolation(f"fed: {', '.join(self.fed_lines + last)}; joined: {', '.join(joined)}")

    def bytes_of(self, added):
        """Bytes as they are, or the record of an event."""
        return added if isinstance(added, bytes) else self.written_record(added)

    def written_record(self, event):
        """The record of an event; what the writer refuses is missing."""
        result = self.record(event, lent(RECORD_ROOM))
        return result.reply.out[: result.written]


class SecondProgram(Side):
    name = "the second program"

    def __init__(self, rules=RIGHT_RULES):
        super().__init__()
        self.rules = rules
        self.device = None

    def one_result(self, asked):
        if self.device is None and not isinstance(asked, PowerOn):
            raise TextError("no power-on was taken before this line")
        if isinstance(asked, StoredListAsked):
            return self.written(self.rules.stored_list(self.device), asked.out)
        if isinstance(asked, PayloadAsked):
            return self.written(self.rules.advertisement(self.device, asked.hide), asked.out)
        if isinstance(asked, NameAsked):
            return Result(Reply(0, out=self.device.name))
        if isinstance(asked, FilterAsked):
            return Result(Reply(0, out=self.device.filter.ljust(FILTER_ROOM, b"\0")))
        self.device, reply = self.rules.step(self.device, asked)
        return event_result(asked, reply)

    def written(self, text, lent):
        answer, out = self.rules.put_or_refuse(text, lent)
        return Result(Reply(answer, out=out), 0 if answer else len(text))

    def record(self, event, out):
        answer, after = self.rules.write_record(event, out)
        return Result(Reply(answer, out=after), 0 if answer else recording.LENGTH_FIELD + told_length(after))

    def replayed(self, recording):
        return self.rules.replay(recording)

    def begin(self):
        self.replay = self.rules.parts.Replay()

    def feed(self, part):
        self.replay, lines = self.rules.parts.feed(self.replay, part)
        return lines

    def end(self):
        self.replay, line = self.rules.parts.end(self.replay)
        return [line] if line else []


class BuiltLibrary(Side):
    name = "the library"

    def __init__(self, library, program, library_replay=None):
        super().__init__()
        self.library = library
        self.program = program
        self.library_replay = library_replay
        self.device = library.off()

    def one_result(self, asked):
        if isinstance(asked, StoredListAsked):
            return report_result(self.library.stored_list(self.device, asked.out))
        if isinstance(asked, PayloadAsked):
            report = self.library.advertisement(self.device, int(asked.hide), asked.out)
            return report_result(report)
        if isinstance(asked, NameAsked):
            name = self.device.name
            return Result(Reply(0, out=bytes(name.bytes[: name.length])))
        if isinstance(asked, FilterAsked):
            return Result(Reply(0, out=bytes(self.device.filter)))
        self.device, reply = self.library.step(self.device, asked)
        return event_result(asked, reply)

    def record(self, event, out):
        return report_result(self.library.record(event, out))

    def replayed(self, recording):
        printed = self.program.of_input(recording)
        if printed.error or printed.code:
            raise InterfaceViolation(f"fp_replay: exit code {printed.code}, {printed.error}")
        return printed.out.splitlines()

    def begin(self):
        self.replay = self.library_replay.start()

    def feed(self, part):
        self.replay, lines = self.library_replay.lines_of(self.replay, part)
        return lines

    def end(self):
        self.replay, lines = self.library_replay.line_of_end(self.replay)
        return lines


def event_result(event, reply):
    """A response is written exactly with answer 0."""
    responds = reply.answer == 0 and isinstance(event, LENDING)
    return Result(reply, RESPONSE_SIZE if responds else 0)


def told_length(record):
    """What a record's length field says."""
    return int.from_bytes(record[: recording.LENGTH_FIELD], "big")


def report_result(report):
    answer, length, out = report
    return Result(Reply(answer, out=out), length)
