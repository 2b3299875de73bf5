"""Recordings: the writer of one record, and the reader of a whole recording."""

from .events import KeyBasedWrite, Overflow, PasskeyWrite
from .lent_output import put
from .model import PACKET_ROOM, RESPONSE_SIZE
from .record_layout import BY_EVENT, BY_KIND

VERSION = 0x01
# "the length of what follows, 2 to 1,024"
LENGTH_FIELD = 2
MOST_LENGTH = 1_024
# The version and the kind.
HEAD = 2
# No rule asks for more of a lent output, and a record may tell of one that no memory holds.
MOST_LENT = max(RESPONSE_SIZE, PACKET_ROOM)
# The fields of an event that are lent.
LENT = {KeyBasedWrite: ("out", "packet"), PasskeyWrite: ("out",)}


def write_record(event, out, lengths=None):
    """The answer, and the output afterwards; `lengths` stand for those of the event's lent outputs."""
    values = recorded_values(event, lengths)
    length = record_length(event, values)
    # "2 exactly for an event whose record would pass 1,024 bytes after its length field, else 13"
    if length > MOST_LENGTH:
        return 2, out
    if len(out) < LENGTH_FIELD + length:
        return 13, out
    return 0, put(record(event, values, length), out)


def recorded_values(event, lengths=None):
    """What the fields of a record hold, by their names."""
    values = dict(vars(event))
    outputs = LENT.get(type(event), ())
    # "A lent output's length is recorded, and its bytes are not"
    values |= zip(outputs, lengths or [len(values[name]) for name in outputs])
    if "stored" in values:
        values["stored length"] = len(event.stored)
    # "If the point was rejected, 32 zero bytes stand for the secret."
    if "secret" in values and not event.accepted:
        values["secret"] = bytes(32)
    return values


def record_length(event, values):
    """How many bytes follow the length field."""
    return HEAD + sum(field_sizes(event, values))


def field_sizes(event, values):
    """How many bytes each field of its record takes."""
    fields = BY_EVENT[type(event)].fields
    return [field.size if isinstance(field.size, int) else len(values[field.name]) for field in fields]


def record(event, values, length):
    """ "a two-byte big-endian length, one version byte, a kind byte, then that event's fields" """
    layout = BY_EVENT[type(event)]
    head = length.to_bytes(LENGTH_FIELD, "big") + bytes([VERSION, layout.kind])
    return head + b"".join(field.write(values[field.name]) for field in layout.fields)


def read_recording(recording):
    """The events of a recording; "What is no record is an overflow marker"."""
    found, place = [], 0
    while place < len(recording):
        begin = place + LENGTH_FIELD
        end = begin + int.from_bytes(recording[place:begin], "big")
        # A cut record passes the end of the recording, and so does one byte of a length field.
        whole = end <= len(recording) and end - begin <= MOST_LENGTH
        event = read_record(recording[begin:end]) if whole else None
        found.append(event or Overflow())
        # "a length above 1,024: one marker; the reader goes on after that many bytes"
        place = end
    return found


def read_record(body):
    """The event of a record, from what follows its length field, or None."""
    # "a length of 0 or 1: no version, or no kind", "another version, or a kind that is not in the table"
    if len(body) < HEAD or body[0] != VERSION or body[1] not in BY_KIND:
        return None
    layout = BY_KIND[body[1]]
    values = read_fields(layout.fields, body[HEAD:])
    if values is None or not is_event(values):
        return None
    values.pop("stored length", None)
    lent = {name: bytes(min(values[name], MOST_LENT)) for name in LENT.get(layout.event, ())}
    return layout.event(**values | lent)


def read_fields(fields, data):
    """The values of the fields by their names, or None: "fields of the wrong size" """
    values = {}
    for place, field in enumerate(fields):
        size = read_size(field, values, len(data), fields[place + 1 :])
        if not 0 <= size <= len(data):
            return None
        values[field.name] = field.read(data[:size])
        data = data[size:]
    return None if data else values


def read_size(field, values, left, behind):
    """The size of a field; one of free length "takes what the record's length leaves"."""
    if field.size is None:
        return left - sum(other.size for other in behind)
    return values.get(field.size, field.size)


def is_event(values):
    """Whether an event has these values: flags of 0 or 1, and no secret with a rejected point."""
    rejected = values.get("accepted") is False
    return None not in values.values() and not (rejected and any(values["secret"]))
