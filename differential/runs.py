"""Runs of generated events, each from its own power-on."""

from dataclasses import dataclass, field

from reference.generator.coverage import Coverage, not_reached
from reference.generator.generate import Generator
from reference.generator.rare_cases import RareCases

from .any_bytes import AnyBytes
from .compare import Difference, Pair
from .records import Records

# Corrupted devices are tried at every so many events.
CORRUPT_EVERY = 10


@dataclass(frozen=True)
class Failure:
    """A run that shows a difference: its events up to there."""

    seed: str
    events: list
    difference: Difference


@dataclass
class Tally:
    """What all runs have reached."""

    any_bytes: AnyBytes | None
    records: Records | None
    coverage: Coverage = field(default_factory=Coverage)
    rare_cases: RareCases = field(default_factory=RareCases)
    events: int = 0
    runs: int = 0

    def note(self, before, event, after, reply):
        self.events += 1
        self.coverage.note(before, event, after, reply)
        self.rare_cases.note(before, event, after, reply)

    def missed(self):
        """The answers, stages, situations, records and corrupted places that no run has reached."""
        answers, stages, situations = not_reached(self.coverage)
        never_tried = self.any_bytes.never_tried() if self.any_bytes else []
        never_compared = self.records.missed() if self.records else []
        return [*answers, *stages, *situations, *never_compared, *never_tried]

    def corrupt(self, place, device, event):
        """A difference of corrupted devices, now and then in a run."""
        if self.any_bytes is None or place % CORRUPT_EVERY:
            return None
        return self.any_bytes.check(device, event)

    def record(self, event):
        """A difference of the event's records."""
        return self.records.check(event) if self.records else None


def run(library, seed, length, tally):
    """One run of so many events; a Failure, or None."""
    generator, pair, events = Generator(seed), Pair(library), []
    difference = pair.state()
    while difference is None and len(events) < length:
        before = pair.reference
        event = generator.next_event(before)
        with_corrupted = tally.corrupt(len(events), pair.device, event)
        events.append(event)
        reply, difference = pair.send(event)
        difference = difference or tally.record(event) or with_corrupted
        tally.note(before, event, pair.reference, reply)
    return Failure(seed, events, difference) if difference else None


def runs(library, seed, count, length, any_bytes=None, records=None):
    """So many events in runs of this length; the tally, and a Failure or None."""
    tally = Tally(any_bytes, records)
    while tally.events < count:
        # A run's seed is its name, so that each can be had again by itself.
        failure = run(library, f"{seed}.{tally.runs}", min(length, count - tally.events), tally)
        tally.runs += 1
        if failure:
            return tally, failure
    return tally, None
