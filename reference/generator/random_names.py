"""Names, and bytes that are no name."""

from ..rules.name import MOST_NAME
from ..rules.utf8 import ROWS, is_utf8
from .random_values import weighted

# Around the sizes of a block and the most that a name can have.
SIZES = {0: 2, 1: 1, 15: 1, 16: 1, 17: 1, 31: 0.5, 32: 0.5, 33: 0.5, 48: 0.5, 63: 1, 64: 3, None: 4}
LONG_SIZES = (65, 65, 65, 65, 66, 80, 128)
# Longer forms, which older editions of UTF-8 had.
OLDER_FORMS = (bytes.fromhex("f888808080"), bytes.fromhex("fbbfbfbfbf"), bytes.fromhex("fc8480808080"))


def in_row(random, row):
    """A character of a row of the table: each byte its lowest, its highest or any."""
    return bytes(random.choice((low, high, random.randint(low, high))) for low, high in row)


def next_to_row(random, row):
    """The same with one byte just below or just above."""
    place = random.randrange(len(row))
    low, high = row[place]
    wrong = random.choice((low - 1, high + 1)) % 256
    data = in_row(random, row)
    return data[:place] + bytes([wrong]) + data[place + 1 :]


def characters(random, size):
    """Valid UTF-8 of so many bytes."""
    text = b""
    while len(text) < size:
        rows = [row for row in ROWS if len(row) <= size - len(text)]
        text += in_row(random, random.choice(rows))
    return text


def some_name(random):
    """A name, often of one of the sizes at a boundary."""
    size = weighted(random, SIZES)
    return characters(random, random.randrange(MOST_NAME + 1) if size is None else size)


def long_name(random):
    """Valid UTF-8 of more bytes than a name can have."""
    return characters(random, random.choice(LONG_SIZES))


def wrong_character(random):
    """Most often just beside a row, each place of each row as often; else cut short, or of an older form."""
    row = random.choices(ROWS, map(len, ROWS))[0]
    way = weighted(random, {"beside": 15, "cut": 4, "older": 1})
    if way == "older":
        return random.choice(OLDER_FORMS)
    return next_to_row(random, row) if way == "beside" else in_row(random, row)[:-1]


def ill_formed(random):
    """No UTF-8, and not too long for a name."""
    while True:
        wrong = wrong_character(random)
        before = random.choice((0, 0, 15, MOST_NAME - len(wrong), random.randrange(MOST_NAME - len(wrong) + 1)))
        behind = random.choice((0, random.randrange(MOST_NAME - len(wrong) - before + 1)))
        data = characters(random, before) + wrong + characters(random, behind)
        if not is_utf8(data):
            return data
