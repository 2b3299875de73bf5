"""What can become of one record in a recording: faults by name, each a function of the record's bytes."""

# Bytes of a record: its length field, then the version, the kind and the fields.
VERSION_PLACE, KIND_PLACE, FIELDS_PLACE = 2, 3, 4
MARKER = bytes.fromhex("00020101")
PAIRING_MODE, POWER_ON, KEY_BASED, PASSKEY, PAIRING_ENDED = 0x04, 0x06, 0x08, 0x0B, 0x0C
# Where a flag stands, counted from the record's end.
FLAGS = {PAIRING_MODE: 1, KEY_BASED: 66, PAIRING_ENDED: 1}
SECRET = 32
# How many bytes at the record's end are lengths of lent outputs.
LENT = {KEY_BASED: 16, PASSKEY: 8}
LENGTHS = (0, 1, 2, 1_023, 1_024, 1_025, 1_026, 65_535)
LAST_LENGTH = 2**64 - 1
LENT_LENGTHS = (0, 1, 15, 16, 17, 79, 80, 2**16, 2**32, LAST_LENGTH)


def with_length(body):
    """A record of these bytes after its length field, which says how many they are."""
    return len(body).to_bytes(2, "big") + body


def with_bytes(record, place, data):
    return record[:place] + data + record[place + len(data) :]


def unknown_version(random, record):
    return with_bytes(record, VERSION_PLACE, bytes([random.choice((0, 2, 255, random.randrange(2, 256)))]))


def unknown_kind(random, record):
    return with_bytes(record, KIND_PLACE, bytes([random.choice((0, 15, 255, random.randrange(15, 256)))]))


def another_kind(random, record):
    return with_bytes(record, KIND_PLACE, bytes([random.randrange(1, 15)]))


def byte_removed(random, record):
    """One byte less in its fields, and the length says so."""
    if len(record) == FIELDS_PLACE:
        return None
    place = random.randrange(FIELDS_PLACE, len(record))
    return with_length(record[2:place] + record[place + 1 :])


def byte_added(random, record):
    """One byte more in its fields, and the length says so."""
    place = random.randint(FIELDS_PLACE, len(record))
    return with_length(record[2:place] + random.randbytes(1) + record[place:])


def without_fields(random, record):
    return with_length(record[2:FIELDS_PLACE])


def flag_changed(random, record):
    place = FLAGS.get(record[KIND_PLACE])
    flag = bytes([random.choice((0, 1, 2, 255, random.randrange(2, 256)))])
    return with_bytes(record, len(record) - place, flag) if place else None


def secret_changed(random, record):
    """A rejected point with one byte of a secret, or an accepted one with a secret of zeros."""
    if record[KIND_PLACE] != KEY_BASED:
        return None
    accepted, place = random.random() < 0.3, random.choice((0, SECRET - 1, random.randrange(SECRET)))
    secret = with_bytes(bytes(SECRET), place, bytes([0 if accepted else random.randrange(1, 256)]))
    return with_bytes(record, len(record) - FLAGS[KEY_BASED], bytes([accepted]) + secret)


def list_length_changed(random, record):
    """The list takes less or more of the record, or more than there is."""
    if record[KIND_PLACE] != POWER_ON:
        return None
    told = int.from_bytes(record[FIELDS_PLACE : FIELDS_PLACE + 2], "big")
    # Between list and name stand 17 bytes, so this is the longest list that there is room for.
    longest = len(record) - FIELDS_PLACE - 2 - 17
    length = random.choice((told - 1, told + 1, 0, longest, longest + 1, 65_535))
    return with_bytes(record, FIELDS_PLACE, max(0, length).to_bytes(2, "big"))


def lent_length_changed(random, record):
    size = LENT.get(record[KIND_PLACE])
    place = random.choice(range(0, size, 8)) if size else 0
    length = random.choice((*LENT_LENGTHS, LAST_LENGTH, LAST_LENGTH)).to_bytes(8, "big")
    return with_bytes(record, len(record) - size + place, length) if size else None


def length_field_changed(random, record):
    """The length field says something else than the bytes behind it."""
    true = len(record) - 2
    length = random.choice((*LENGTHS, true - 1, true + 1, random.randrange(true, true + 60)))
    return with_bytes(record, 0, length.to_bytes(2, "big"))


def another_length(random, record):
    """A record that begins with these bytes, and has as many as its length field says."""
    length = random.choice(LENGTHS)
    return with_length((record[2:] + random.randbytes(length))[:length])


def byte_changed(random, record):
    return with_bytes(record, random.randrange(len(record)), random.randbytes(1))


def any_bytes(random, record):
    return random.randbytes(random.randrange(1, 60))


def lost(random, record):
    return b""


def lost_with_a_marker(random, record):
    return MARKER


def twice(random, record):
    return record + record


FAULTS = (
    unknown_version,
    unknown_kind,
    another_kind,
    byte_removed,
    byte_added,
    without_fields,
    flag_changed,
    secret_changed,
    list_length_changed,
    lent_length_changed,
    length_field_changed,
    another_length,
    byte_changed,
    any_bytes,
    lost,
    lost_with_a_marker,
    twice,
)
