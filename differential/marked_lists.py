"""Lists of events for the two runs of demand 3, with overflow markers added at random."""

from collections import Counter
from dataclasses import dataclass
from random import Random

from reference.generator.generate import Generator
from reference.generator.shrink import shrink
from reference.rules.events import Overflow
from reference.rules.model import step

from .run_pair import RunPair, first_device

# How many ways of adding markers are tried on each list that is led by the run without them.
WAYS = 3
LENGTHS = (20, 400)
# From one marker in 200 events to one in 5.
FEWEST, MOST = 0.005, 0.2


@dataclass(frozen=True)
class Broken:
    """A pair of runs that breaks the demand: its entries up to there."""

    entries: list
    what: str


def some_density(random):
    return FEWEST * (MOST / FEWEST) ** random.random()


def random_entries(random, seed, density):
    """Entries (event, whether it is an added marker) from a taken power-on on, led by the run that gets the markers."""
    generator, device, entries = Generator(seed), None, []
    length = random.randint(*LENGTHS)
    while len(entries) < length:
        added = device is not None and random.random() < density
        event = Overflow() if added else generator.next_event(device)
        device, _ = step(device, event)
        if device is not None:
            entries.append((event, added))
    return entries


def with_markers(random, entries):
    """The entries with markers added at random places."""
    density, marked = some_density(random), entries[:1]
    for entry in entries[1:]:
        while random.random() < density:
            marked.append((Overflow(), True))
        marked.append(entry)
    return marked


def marked_ways(random, seed):
    """One list with markers added in some ways, and one whose pairings go on behind the markers."""
    unmarked = random_entries(random, seed, 0)
    for _ in range(WAYS):
        yield with_markers(random, unmarked)
    yield random_entries(random, seed, some_density(random))


def first_breach(library, entries, counts):
    """The place and the words of the first breach in both runs, or None."""
    runs = RunPair(library, first_device(library, entries[0]), counts)
    for place, (event, added) in enumerate(entries[1:], start=1):
        what = runs.send(event, added)
        if what:
            return place, what
    return None


def breach(library, entries):
    """The same; None also if the entries don't begin with a taken power-on."""
    if not entries or first_device(library, entries[0]) is None:
        return None
    return first_breach(library, entries, Counter())


def run_pairs(library, seed, count):
    """Pairs of runs with so many events; the counts, and a Broken or None."""
    random, counts = Random(seed), Counter()
    while counts["events"] < count:
        counts["lists"] += 1
        for entries in marked_ways(random, f"{seed}.{counts['lists']}"):
            counts["pairs of runs"] += 1
            counts["events"] += sum(not added for _, added in entries)
            found = first_breach(library, entries, counts)
            if found:
                return counts, Broken(entries[: found[0] + 1], found[1])
    return counts, None


def shortest(library, failure):
    """The shortest entries that still break the demand."""
    return shrink(failure.entries, lambda entries: breach(library, entries) is not None)
