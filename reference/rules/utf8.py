"""UTF-8 as RFC 3629, section 4, has it: no overlong form, no surrogate, nothing above U+10FFFF."""

TAIL = (0x80, 0xBF)
# The rows of the RFC's table, UTF8-1 to UTF8-4: for each byte of a character its lowest and its highest value.
ROWS = (
    ((0x00, 0x7F),),
    ((0xC2, 0xDF), TAIL),
    ((0xE0, 0xE0), (0xA0, 0xBF), TAIL),
    ((0xE1, 0xEC), TAIL, TAIL),
    ((0xED, 0xED), (0x80, 0x9F), TAIL),
    ((0xEE, 0xEF), TAIL, TAIL),
    ((0xF0, 0xF0), (0x90, 0xBF), TAIL, TAIL),
    ((0xF1, 0xF3), TAIL, TAIL, TAIL),
    ((0xF4, 0xF4), (0x80, 0x8F), TAIL, TAIL),
)


def is_utf8(data):
    """Whether the bytes are a sequence of characters, also none."""
    while data:
        size = first_character(data)
        if size is None:
            return False
        data = data[size:]
    return True


def first_character(data):
    """The number of bytes of the character that the data begins with, or None."""
    sizes = (len(row) for row in ROWS if begins_with(row, data))
    return next(sizes, None)


def begins_with(row, data):
    """Whether the first bytes of the data are a character of this row."""
    in_row = (low <= byte <= high for (low, high), byte in zip(row, data))
    return len(data) >= len(row) and all(in_row)
