"""Recordings in parts: at the limits of lengths, cut, small ones at every place, and those of random runs."""

from dataclasses import replace
from itertools import combinations
from random import Random

from ..rules.events import AccountKeyWrite, PowerOn
from ..rules.recording import LENGTH_FIELD, MOST_LENGTH
from ..rules.stored_list import pack
from .divisions import at_places, at_random, byte_by_byte, in_two, with_empty_parts
from .every_kind import one_of_each
from .random_values import different_keys
from .recording_faults import MARKER, with_length
from .recordings import cut_at_the_last_places, of_a_run, of_limit_lengths, recorded

# After the length field: no record, records of all sizes, and what is skipped.
LENGTHS = (0, 1, 2, 3, 11, 1_023, 1_024, 1_025, 1_026, 65_535)
# These are divided at every place and byte by byte, and the second one also if it is cut.
LONGEST, LEAST_SKIPPED = MOST_LENGTH, MOST_LENGTH + 1
# Random divisions of one recording.
DIVISIONS = 3


def divided_recordings(seed, runs):
    """The parts of one recording after another; divisions of the same recording follow each other."""
    yield from at_limits(seed)
    for run in range(runs):
        yield from divided(f"{seed}.{run}", of_a_run(f"{seed}.{run}"))
    yield from divided(seed, of_limit_lengths(str(seed)))
    yield from divided(seed, cut_at_the_last_places(str(seed)))


def at_limits(seed):
    """Small recordings, before any power-on and after one that is taken; they reach every situation that is counted."""
    random = Random(seed)
    yield from of_no_bytes()
    for make in (of_every_kind, of_every_length):
        for begin in (b"", recorded(some_power_on(random))):
            yield from make(random, begin)


def of_no_bytes():
    yield []
    yield [b""]
    yield [b"", b""]


def some_power_on(random):
    stored = pack(different_keys(random, 2))
    return PowerOn(stored, b"any name", *map(random.randbytes, (6, 6, 3, 2)))


def of_every_length(random, begin):
    """One record of each length, whole and cut; a marker stands behind it, so that its end is seen."""
    for length in LENGTHS:
        record = with_length(some_body(random, length))
        yield from whole(random, begin, record)
        yield from cut(random, begin, record)
    long = with_length(random.randbytes(LEAST_SKIPPED))
    yield [begin + long + long + MARKER]


def some_body(random, length):
    """That of an account key write, as far as it goes: if it is read, it is shown as another kind than a marker."""
    return (recorded(AccountKeyWrite(0, 0, b""))[LENGTH_FIELD:] + random.randbytes(length))[:length]


def whole(random, begin, record):
    """Divided at one, at two and at all places that count, then with empty parts there."""
    recording = begin + record + MARKER
    places = places_of(random, begin, record)
    yield [recording]
    yield from in_two(recording, places)
    for pair in combinations(places, 2):
        yield at_places(recording, pair)
    for place in places:
        yield at_places(recording, [place, place])
    yield at_places(recording, places)
    yield at_places(recording, [0, 0, *places, *places, len(recording)])
    if len(record) - LENGTH_FIELD in (LONGEST, LEAST_SKIPPED):
        yield from in_two(recording, range(len(begin), len(recording)))
        yield byte_by_byte(recording)
        yield with_empty_parts(random, byte_by_byte(recording))


def places_of(random, begin, record):
    """Its beginning, one byte and two behind it, some place in it, its end, and one byte before and behind that."""
    first, end = len(begin), len(begin) + len(record)
    inner = range(first + LENGTH_FIELD + 1, end - 1)
    some = {random.choice(inner)} if inner else set()
    return sorted({first, first + 1, first + 2, end - 1, end, end + 1} | some)


def cut(random, begin, record):
    """The recording ends at a place that counts; it is divided at each place before, and has empty parts there."""
    places = places_of(random, begin, record)
    for end in (place for place in places if len(begin) < place < len(begin) + len(record)):
        recording = (begin + record)[:end]
        yield [recording]
        for place in (place for place in places if place < end):
            yield at_places(recording, [place])
            yield at_places(recording, [place, place, end])
    if len(record) - LENGTH_FIELD == LEAST_SKIPPED:
        recording = (begin + record)[:-1]
        yield from in_two(recording, range(len(begin), len(recording)))
        yield byte_by_byte(recording)


def of_every_kind(random, begin):
    """A record of each kind, and a refused power-on, at every place in two, byte by byte, and cut at every place."""
    for event in (replace(some_power_on(random), stored=b""), *one_of_each(random, 0)):
        record = recorded(event)
        recording = begin + record + MARKER
        yield from in_two(recording, range(len(begin), len(recording)))
        yield byte_by_byte(recording)
        for end in range(1, len(record)):
            cut_one = begin + record[:end]
            yield at_places(cut_one, [random.randint(len(begin), len(cut_one))])


def divided(seed, recordings):
    """Each recording whole and divided at random, half of the times with empty parts as well."""
    random = Random(seed)
    for recording in recordings:
        yield [recording]
        for _ in range(DIVISIONS):
            parts = at_random(random, recording)
            yield with_empty_parts(random, parts) if random.random() < 0.5 else parts
