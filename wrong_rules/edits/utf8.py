"""UTF-8 by the rows of RFC 3629's table."""

from reference.rules.utf8 import ROWS, TAIL

MATCH = "    return len(data) >= len(row) and all(in_row)\n"
LOOP = "    while data:\n"
REST = "        data = data[size:]\n"
LAST_ROW = "    ((0xF4, 0xF4), (0x80, 0x8F), TAIL, TAIL),\n"
SHIFTS = {"begins one lower": (-1, 0), "begins one higher": (1, 0), "ends one lower": (0, -1), "ends one higher": (0, 1)}
# First bytes that show nothing: no byte is below 00, and the others begin characters of another row or of an earlier one.
NOT_SHOWN = (
    (0x00, "begins one lower"),
    (0xE0, "begins one lower"),
    (0xE0, "ends one higher"),
    (0xED, "begins one lower"),
    (0xED, "ends one higher"),
    (0xF0, "begins one lower"),
    (0xF0, "ends one higher"),
    (0xF4, "begins one lower"),
)


def bounds_in_words(bounds):
    low, high = bounds
    return "TAIL" if bounds == TAIL else f"(0x{low:02X}, 0x{high:02X})"


def row_in_words(row):
    """The row as it stands in the file."""
    one = "," if len(row) == 1 else ""
    return f"    ({', '.join(map(bounds_in_words, row))}{one}),\n"


def shifted(row, place, shift):
    low, high = row[place]
    return (*row[:place], (low + shift[0], high + shift[1]), *row[place + 1 :])


def each_bound():
    """Every bound of every row, one lower and one higher."""
    for row in ROWS:
        first = row[0][0]
        for place in range(len(row)):
            for words, shift in SHIFTS.items():
                if place or (first, words) not in NOT_SHOWN:
                    name = f"UTF-8 from {first:02X} on, byte {place} {words}"
                    yield name, row_in_words(row), row_in_words(shifted(row, place, shift))


EDITS = (
    *each_bound(),
    ("every row is left out but ASCII", MATCH, MATCH.replace("return ", "return len(row) == 1 and ")),
    ("surrogates are taken", "((0xED, 0xED), (0x80, 0x9F), TAIL)", "((0xED, 0xED), TAIL, TAIL)"),
    ("overlong forms of three bytes are taken", "((0xE0, 0xE0), (0xA0, 0xBF), TAIL)", "((0xE0, 0xE0), TAIL, TAIL)"),
    (
        "overlong forms of four bytes are taken",
        "((0xF0, 0xF0), (0x90, 0xBF), TAIL, TAIL)",
        "((0xF0, 0xF0), TAIL, TAIL, TAIL)",
    ),
    ("characters above U+10FFFF are taken", LAST_ROW, "    ((0xF4, 0xF4), TAIL, TAIL, TAIL),\n"),
    ("forms of five bytes are taken", LAST_ROW, LAST_ROW + "    ((0xF8, 0xFB), TAIL, TAIL, TAIL, TAIL),\n"),
    ("a character cut at the end is taken", MATCH, "    return all(in_row)\n"),
    ("the first byte alone is looked at", MATCH, "    return len(data) >= len(row) and next(in_row)\n"),
    ("the first character alone is looked at", REST, '        data = b""\n'),
    ("the last byte is not looked at", LOOP, "    while len(data) > 1:\n"),
    ("U+0000 ends a text", LOOP, "    while data and data[0]:\n"),
    ("bytes that begin no character are skipped", "            return False\n", "            size = 1\n"),
)
