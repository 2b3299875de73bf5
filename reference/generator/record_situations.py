"""Situations of one record by name: how long it is, where it was cut, what is wrong with it."""

from ..rules.record_layout import BY_KIND, LAYOUTS, Flag
from ..rules.recording import HEAD, LENGTH_FIELD, LENT, MOST_LENGTH, VERSION, read_fields
from .recording_faults import LAST_LENGTH

ONE_BYTE = "one byte of a length field"
LENGTH_ALONE = "cut behind the length field"
CUT_ELSEWHERE = "cut elsewhere"
LONG_AND_CUT = "over-long and cut"
LIST_TOO_LONG = "list's length above what is left by one"
SECRET = "rejected point with a secret"
NO_SECRET = "accepted point with a secret of zeros"


def has_free_length(layout):
    return not all(isinstance(field.size, int) for field in layout.fields)


def flags_of(layout):
    return [place for place, field in enumerate(layout.fields) if isinstance(field, Flag)]


NAMES = (
    ONE_BYTE,
    LENGTH_ALONE,
    CUT_ELSEWHERE,
    *(f"{layout.name} cut by one byte" for layout in LAYOUTS),
    LONG_AND_CUT,
    *(f"length {length}" for length in (0, 1, 1_024, 1_025, 65_535)),
    *(f"version {version}" for version in (0, 2, 255)),
    *(f"kind {kind}" for kind in (0, 15, 255)),
    *(f"{layout.name} too short" for layout in LAYOUTS if layout.fields),
    *(f"{layout.name} too long" for layout in LAYOUTS if not has_free_length(layout)),
    LIST_TOO_LONG,
    *(f"{layout.name} with flag {flag}" for layout in LAYOUTS if flags_of(layout) for flag in (2, 255)),
    SECRET,
    NO_SECRET,
    *(f"{layout.name} with a length of {LAST_LENGTH}" for layout in LAYOUTS if layout.event in LENT),
)


def situations(data, size):
    """Names for these bytes, of which the length field asks for so many; some of them are not among NAMES."""
    if len(data) < size:
        return cut(data, size)
    length = size - LENGTH_FIELD
    found = [f"length {length}"]
    if HEAD <= length <= MOST_LENGTH:
        version, kind = data[LENGTH_FIELD : LENGTH_FIELD + HEAD]
        found += [f"version {version}"] if version != VERSION else [f"kind {kind}"]
        if version == VERSION and kind in BY_KIND:
            found += of_fields(BY_KIND[kind], data[LENGTH_FIELD + HEAD :])
    return found


def cut(data, size):
    """Where a record that asks for so many bytes was cut."""
    if len(data) < LENGTH_FIELD:
        return [ONE_BYTE]
    if size - LENGTH_FIELD > MOST_LENGTH:
        return [LONG_AND_CUT]
    if len(data) == LENGTH_FIELD:
        return [LENGTH_ALONE]
    kind = data[LENGTH_FIELD + 1 : LENGTH_FIELD + HEAD]
    # A marker without its last byte has no kind.
    name = BY_KIND[kind[0] if kind and kind[0] in BY_KIND else 1].name
    return [f"{name} cut by one byte" if len(data) == size - 1 else CUT_ELSEWHERE]


def of_fields(layout, data):
    """Wrong sizes, or values at a limit."""
    values = read_fields(layout.fields, data)
    if values is None:
        return wrong_size(layout, data)
    found = [f"{layout.name} with a length of {values[name]}" for name in LENT.get(layout.event, ())]
    for place in flags_of(layout):
        behind = sum(field.size for field in layout.fields[place:])
        found.append(f"{layout.name} with flag {data[len(data) - behind]}")
    if "secret" in values:
        found += [SECRET] if values["accepted"] is False and any(values["secret"]) else []
        found += [NO_SECRET] if values["accepted"] and not any(values["secret"]) else []
    return found


def wrong_size(layout, data):
    fixed = sum(field.size for field in layout.fields if isinstance(field.size, int))
    found = [f"{layout.name} too {'short' if len(data) < fixed else 'long'}"]
    if layout.name == "power-on" and len(data) + 1 == fixed + int.from_bytes(data[:2], "big"):
        found.append(LIST_TOO_LONG)
    return found
