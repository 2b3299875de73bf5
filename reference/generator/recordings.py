"""Random recordings: of random runs, whole, with faults, cut, and at the limits of lengths."""

from dataclasses import replace
from random import Random

from ..rules.device import MOST_KEYS
from ..rules.events import AccountKeyWrite, PowerOn
from ..rules.model import step
from ..rules.recording import LENGTH_FIELD, MOST_LENGTH, write_record
from ..rules.stored_list import pack
from .every_kind import one_of_each
from .generate import Generator
from .random_values import different_keys
from .recording_faults import FAULTS, KIND_PLACE, LENGTHS, MARKER, POWER_ON, with_length

RUN = 60
# The last places at which every recording of a run is cut.
LAST_PLACES = 40
LONGEST = LENGTH_FIELD + MOST_LENGTH
# A length field, version, kind, link and clock.
SHORTEST_WRITE = 13
BUFFERS = tuple(2**power for power in range(9, 17))


def recorded(event):
    """The record of an event; the generator has none that is too long."""
    _, out = write_record(event, bytes(LONGEST))
    return out[: LENGTH_FIELD + int.from_bytes(out[:LENGTH_FIELD], "big")]


def random_run(seed, length=RUN):
    """The records of a random run, and an event of every kind somewhere behind its beginning."""
    generator, random, device, records = Generator(seed), Random(seed), None, []
    while len(records) < length:
        event = generator.next_event(device)
        device, _ = step(device, event)
        records.append(recorded(event))
    for event in one_of_each(random, device.clock if device else 0):
        if not isinstance(event, PowerOn):
            records.insert(random.randrange(length // 2, len(records)), recorded(event))
    return records


def every_recording(seed, runs):
    """The recordings of so many random runs, and those at the limits."""
    yield b""
    # The first run shows most mistakes, and the limits most of the others.
    yield from of_a_run(f"{seed}.0")
    for make in (of_limit_lengths, across_buffers, cut_at_the_last_places):
        yield from make(str(seed))
    yield large(str(seed))
    yield of_every_list_size(str(seed))
    for run in range(1, runs):
        yield from of_a_run(f"{seed}.{run}")


def of_a_run(seed):
    """All recordings that are made of one random run."""
    random, records = Random(seed), random_run(seed)
    yield b"".join(records)
    yield from with_every_fault(random)
    yield from with_faults(random, records)
    yield from beginnings(random, records)
    yield from cut(random, records)


def with_faults(random, records):
    """Each fault somewhere in the run, then several of them, then a lost stretch."""
    for fault in FAULTS:
        yield b"".join(with_fault(random, records, fault))
    several = records
    for fault in random.sample(FAULTS, 4):
        several = with_fault(random, several, fault)
    yield b"".join(several)
    begin = random.randrange(1, len(records) - 10)
    end = begin + random.randrange(1, 10)
    yield b"".join([*records[:begin], MARKER, *records[end:]])


def with_fault(random, records, fault):
    """The records with one of those changed that can have this fault."""
    places = [place for place, record in enumerate(records) if record and len(record) >= KIND_PLACE + 1]
    changed = ((place, fault(random, records[place])) for place in random.sample(places, len(places)))
    place, record = next((found for found in changed if found[1] is not None), (0, records[0]))
    return [*records[:place], record, *records[place + 1 :]]


def beginnings(random, records):
    """Recordings that begin without a power-on, and go on with one or without."""
    others = [record for record in records if record[KIND_PLACE] != POWER_ON]
    yield b"".join(others)
    place = random.randrange(20, len(others))
    first = next(record for record in records if record[KIND_PLACE] == POWER_ON)
    yield b"".join([*others[:place], first, *records[place:]])


def cut(random, records):
    """Cut somewhere in a record: in its length field, before its last byte, and at any place."""
    for _ in range(2):
        number = random.randrange(len(records))
        last = records[number]
        for size in (1, len(last) - 1, random.randrange(len(last))):
            yield b"".join(records[:number]) + last[:size]


def cut_at_the_last_places(seed):
    """A run cut at every place near its end, and a record of every kind without its last byte."""
    recording = b"".join(random_run(seed))
    for size in range(1, LAST_PLACES + 1):
        yield recording[:-size]
    for event in one_of_each(Random(seed), 0):
        yield recording + recorded(event)[:-1]


def with_every_fault(random):
    """A recording for each fault, which a record of every kind has."""
    for fault in FAULTS:
        events = one_of_each(random, random.randrange(2**64))
        first = power_on_among(events)
        # Three times, since some faults have several forms.
        faulty = [fault(random, recorded(event)) or b"" for event in events for _ in range(3)]
        yield b"".join([recorded(first), *faulty, *map(recorded, events)])


def power_on_among(events):
    return next(event for event in events if isinstance(event, PowerOn))


def of_every_list_size(seed):
    """A power-on and a marker for each number of keys that a list can have."""
    random, records = Random(seed), []
    for count in range(MOST_KEYS + 1):
        stored = pack(different_keys(random, count))
        records += [recorded(replace(power_on_among(one_of_each(random, 0)), stored=stored)), MARKER]
    return b"".join(records)


def filled(random, recording, size):
    """The recording brought to this size with account key writes of any length, at least twice the longest away."""
    while size - len(recording) > 2 * LONGEST:
        recording += write_of_size(random, random.randint(SHORTEST_WRITE, LONGEST))
    half = (size - len(recording)) // 2
    return recording + write_of_size(random, half) + write_of_size(random, size - len(recording) - half)


def write_of_size(random, size):
    """The record of an account key write, so long with its length field."""
    return recorded(AccountKeyWrite(random.randrange(8), 0, random.randbytes(size - SHORTEST_WRITE)))


def across_buffers(seed):
    """Recordings in which a record begins at a multiple of a buffer's size, and 1, 2 and more bytes before it."""
    random, records = Random(seed), random_run(seed, 20)
    for buffer in BUFFERS:
        for before in (0, 1, 2, random.randrange(3, 11)):
            size = buffer * (1 + 4_096 // buffer) - before
            yield filled(random, records[0], size) + b"".join(records[1:])


def of_limit_lengths(seed):
    """Records of every length at a limit, whole and cut, behind a power-on; the long ones several times in a row."""
    random, records = Random(seed), random_run(seed, 20)
    for length in LENGTHS:
        body = (records[-1][2:] + random.randbytes(length))[:length]
        whole = with_length(body)
        yield b"".join([*records, *[whole] * 5, *records])
        for size in {1, 2, 3, min(1_026, len(whole)), len(whole) - 1}:
            yield b"".join([*records, whole, whole[:size]])


def large(seed):
    """Several hundred kilobytes: random runs with long records among them."""
    random, parts = Random(seed), []
    for place in range(12):
        parts += random_run(f"{seed}.{place}", 250)
        parts += [write_of_size(random, random.randint(900, LONGEST)) for _ in range(20)]
        parts.append(with_length(random.randbytes(random.choice(LENGTHS))))
    return b"".join(parts)
