"""The stored list: "Two-byte big-endian length of what follows, version byte .., count n", in the versions of request (vi)."""

from .device import MOST_KEYS

# "what we write is always 0x02"
WRITTEN = 0x02
# "Stored lists get version 0x02, with count up to 10. Version 0x01 is still read, with at most 5"
MOST_IN = {0x01: 5, WRITTEN: MOST_KEYS}
# The length field, the version and the count.
HEADER = 4
KEY = 16


def pack(keys, version=WRITTEN):
    """The stored list of these keys."""
    # "Length is 2 + 16n."
    length = 2 + KEY * len(keys)
    return length.to_bytes(2, "big") + bytes([version, len(keys)]) + b"".join(keys)


def stored_list(device):
    """The device's key list, written out."""
    return pack(device.keys)


def read_stored_list(data):
    """The keys of a stored list, or None if it is malformed."""
    # "Stored lists keep their layout; an old one is read as if its order were use."
    if len(data) < HEADER:
        return None
    length = int.from_bytes(data[:2], "big")
    version, count = data[2], data[3]
    # "any disagreement of sizes, .. trailing bytes"
    if length != 2 + KEY * count or len(data) != 2 + length:
        return None
    # "another version, n above" what a list of this version has
    if version not in MOST_IN or count > MOST_IN[version]:
        return None
    keys = [data[i : i + KEY] for i in range(HEADER, len(data), KEY)]
    # "a key not starting with 0x04, a key twice"
    if any(key[0] != 0x04 for key in keys) or len(set(keys)) != count:
        return None
    return keys
