"""Ways to divide a recording into parts: "The debug probe hands over whatever it has, sometimes nothing." """

from ..rules.recording import LENGTH_FIELD

# Most parts of a random division, and of one in parts of the same size.
MOST_PARTS = 12
MOST_OF_ONE_SIZE = 500
SIZES = (1, 2, 3, 7, 64, 512, 1_024, 1_026, 4_096)
# How likely an empty part is before each part and at the end.
EMPTY = 0.3


def byte_by_byte(recording):
    return [recording[place : place + 1] for place in range(len(recording))]


def in_two(recording, places=None):
    """In two parts at each of these places, or at every place; one of them may be empty."""
    for place in range(len(recording) + 1) if places is None else places:
        yield [recording[:place], recording[place:]]


def at_places(recording, places):
    """Divided at these places; one that stands there twice gives an empty part."""
    ends = [*sorted(places), len(recording)]
    return [recording[begin:end] for begin, end in zip([0, *ends], ends)]


def at_random(random, recording):
    """At any places, at places near the limits of records, or in parts of one size."""
    way = random.choice((anywhere, near_limits, of_one_size))
    return way(random, recording)


def anywhere(random, recording):
    count = random.randrange(MOST_PARTS)
    return at_places(recording, [random.randint(0, len(recording)) for _ in range(count)])


def near_limits(random, recording):
    """At places up to three bytes from a record's beginning, from its length field's end or from its own."""
    limits = random.choices(limits_of(recording), k=random.randrange(1, MOST_PARTS))
    places = (limit + random.randint(-3, 3) for limit in limits)
    return at_places(recording, [min(max(place, 0), len(recording)) for place in places])


def of_one_size(random, recording):
    size = random.choice([size for size in SIZES if size * MOST_OF_ONE_SIZE >= len(recording)] or SIZES[-1:])
    return [recording[place : place + size] for place in range(0, len(recording), size)]


def limits_of(recording):
    """Where each record begins, where its length field ends, and the place behind the last one."""
    found, place = [], 0
    while place < len(recording):
        found += [place, place + LENGTH_FIELD]
        place += LENGTH_FIELD + int.from_bytes(recording[place : place + LENGTH_FIELD], "big")
    return [*found, place]


def with_empty_parts(random, parts):
    """The same parts with empty ones among them, two in a row now and then."""
    found = []
    for part in parts:
        found += [b""] * some_empty(random) + [part]
    return found + [b""] * some_empty(random)


def some_empty(random):
    return random.randint(1, 2) if random.random() < EMPTY else 0
