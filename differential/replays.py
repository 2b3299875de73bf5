"""A recording through the program and through the second program, line by line."""

import pathlib
import tempfile
from collections import Counter
from functools import lru_cache
from random import Random

from reference.generator.divisions import at_random
from reference.rules.parts import Replay, feed
from reference.rules.replay import replay

from .compare import Difference
from .running_replay import Hangs

PARTS = (1, 2, 3, 7)
# A file that can't be read comes with one in so many recordings.
UNREADABLE_EVERY = 20
# So does the beginning of a recording in one of the other ways, which take longer.
BEGINNING_EVERY = 7
LONGEST_BEGINNING = 600
NEEDED_OF_THE_LIBRARY = "what the library wrote and answered"
# Besides what the recordings themselves have to reach.
NEEDED = (
    "one file",
    "standard input",
    "standard input in parts",
    "standard input from a file",
    "standard input from a terminal",
    "lines before the next part",
    "a read interrupted in a record",
    "a read interrupted in a length field",
    "files divided in a record",
    "files divided in a length field",
    "an empty file among files",
    "a file that is not there",
    "a folder in place of a file",
    NEEDED_OF_THE_LIBRARY,
)


@lru_cache(maxsize=1_000)
def right_lines(recording):
    return replay(recording)


def as_text(lines):
    return "".join(f"{line}\n" for line in lines)


class Replays:
    """Hands recordings to a program in all ways, and counts what was reached; that needs a coverage."""

    def __init__(self, program, seed, coverage=None):
        self.program = program
        self.random = Random(seed)
        self.coverage = coverage
        # One for all files, which are written anew for every recording.
        self.folder = tempfile.TemporaryDirectory()
        self.ways = Counter()
        self.recordings = 0
        self.lines = 0

    def check(self, recording):
        """The first difference of this recording, which comes in one of the ways, or None."""
        lines = right_lines(recording)
        if self.coverage:
            self.coverage.note(recording, lines)
        way = self.random.choice((self.one_file, self.on_input, self.in_parts, self.in_files))
        difference = self.compared(lines, way(recording))
        if difference is None and recording and self.recordings % UNREADABLE_EVERY == 0:
            difference = self.check_unreadable(recording)
        if difference is None and recording and self.recordings % BEGINNING_EVERY == 0:
            difference = self.check_beginning(recording)
        return difference

    def check_beginning(self, recording):
        """The same of a recording's first bytes, which come in one of the ways that take longer."""
        beginning = recording[: self.random.randint(1, LONGEST_BEGINNING)]
        ways = (self.from_file, self.from_terminal, self.part_by_part, self.interrupted)
        try:
            return self.random.choice(ways)(beginning)
        except Hangs as hangs:
            return Difference("the program hangs", "it waits for the next part", str(hangs))

    def check_answers(self, recording, lines):
        """The same of a recording that the library wrote; the lines tell its answers."""
        self.ways[NEEDED_OF_THE_LIBRARY] += 1
        return self.compared(lines, self.one_file(recording))

    def compared(self, lines, printed):
        self.recordings += 1
        self.lines += len(lines)
        return difference(as_text(lines), printed)

    def missed(self):
        """The situations and ways that were not reached."""
        return [*self.coverage.missed(), *(name for name in NEEDED if not self.ways[name])]

    def reached(self):
        counts = {**self.coverage.counts, **{name: self.ways[name] for name in NEEDED}}
        return "\n".join(f"{times:>7}  {name}" for name, times in counts.items())

    def on_input(self, recording):
        self.ways["standard input"] += 1
        return self.program.of_input(recording)

    def in_parts(self, recording):
        # A large recording in parts of a few bytes takes long and shows no more.
        if len(recording) > 10_000:
            return self.on_input(recording)
        self.ways["standard input in parts"] += 1
        size = self.random.choice(PARTS)
        return self.program.of_parts([recording[place : place + size] for place in range(0, len(recording), size)])

    def from_file(self, recording):
        """A file as standard input."""
        self.ways["standard input from a file"] += 1
        path = pathlib.Path(self.folder.name) / "input"
        path.write_bytes(recording)
        return self.compared(replay(recording), self.program.of_input_file(path))

    def from_terminal(self, recording):
        self.ways["standard input from a terminal"] += 1
        return self.compared(replay(recording), self.program.of_terminal(recording))

    def part_by_part(self, recording):
        """A line is printed as soon as its record is whole, before the program waits for the next part."""
        self.ways["lines before the next part"] += 1
        # A socket has no empty part.
        parts = [part for part in at_random(self.random, recording) if part]
        printed, left = self.program.part_by_part(parts)
        state = Replay()
        for place, (part, found) in enumerate(zip(parts, printed), start=1):
            state, lines = feed(state, part)
            if found != as_text(lines):
                return Difference(f"lines after part {place} of {len(parts)}", as_text(lines), found)
        return self.compared(replay(recording), left)

    def interrupted(self, recording):
        """A read that is interrupted is not the end: before each of two parts, and before the end."""
        place = self.random.choice((1, self.random.randint(1, len(recording))))
        self.ways[f"a read interrupted in {divided(recording, place)}"] += 1
        parts = [part for part in (recording[:place], recording[place:]) if part]
        return self.compared(replay(recording), self.program.interrupted(parts))

    def one_file(self, recording):
        self.ways["one file"] += 1
        return self.of_files([recording])

    def in_files(self, recording):
        """Divided at two places, with an empty file between two others now and then."""
        places = [self.random.randrange(len(recording) + 1) for _ in range(2)]
        # A length field is seldom divided by chance; this is the first record's, most often.
        places[0] = min(1, len(recording)) if self.random.random() < 0.1 else places[0]
        first, second = sorted(places) if self.random.random() < 0.7 else places[:1] * 2
        self.ways["an empty file among files"] += first == second
        self.ways[f"files divided in {divided(recording, first)}"] += 1
        return self.of_files([recording[:first], recording[first:second], recording[second:]])

    def of_files(self, contents, behind=()):
        """Files of these contents, and paths behind them."""
        folder = pathlib.Path(self.folder.name)
        paths = [folder / f"part {place}" for place in range(len(contents))]
        for path, content in zip(paths, contents):
            path.write_bytes(content)
        return self.program.of_files([*paths, *(folder / name for name in behind)])

    def check_unreadable(self, recording):
        """ "A file that can't be opened or read gets a message on standard error, and the recording ends there." """
        place = self.random.randrange(len(recording))
        for way, behind in (("a file that is not there", "none"), ("a folder in place of a file", ".")):
            self.ways[way] += 1
            printed = self.of_files([recording[:place]], [behind, "part 0"])
            expected = as_text(replay(recording[:place]))
            if printed.out != expected:
                return Difference(f"{way}: standard output", expected, printed.out)
            if not printed.error:
                return Difference(f"{way}: no message", "a message", printed)
        return None


def divided(recording, place):
    """What is divided at this place of a recording: nothing, a length field, or a record."""
    begin = 0
    while begin < place:
        end = begin + 2 + int.from_bytes(recording[begin : begin + 2], "big")
        if begin + 1 == place:
            return "a length field"
        begin = end
    return "a record" if begin > place else "no record"


def difference(expected, printed):
    """The first line that differs, then what else a run must not leave."""
    if printed.out != expected:
        ours, theirs = expected.splitlines(keepends=True), printed.out.splitlines(keepends=True)
        places = (place for place, pair in enumerate(zip(ours, theirs)) if pair[0] != pair[1])
        place = next(places, min(len(ours), len(theirs)))
        return Difference(f"line {place + 1}", ours[place : place + 1], theirs[place : place + 1])
    if printed.error or printed.code:
        return Difference("standard error or exit code", "nothing and 0", printed)
    return None
