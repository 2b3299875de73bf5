"""The stored list as firmware before request (vi) writes and reads it.

It stands as it stood then, and shares nothing with `rules/stored_list.py`: it is there to be compared with that.
"""

MOST_KEYS = 5
VERSION = 0x01
# The length field, the version and the count.
HEADER = 4
KEY = 16


def pack(keys):
    """The stored list of these keys."""
    # "Length is 2 + 16n."
    length = 2 + KEY * len(keys)
    return length.to_bytes(2, "big") + bytes([VERSION, len(keys)]) + b"".join(keys)


def read_stored_list(data):
    """The keys of a stored list, or None if it is malformed."""
    if len(data) < HEADER:
        return None
    length = int.from_bytes(data[:2], "big")
    version, count = data[2], data[3]
    # "any disagreement of sizes, .. trailing bytes"
    if length != 2 + KEY * count or len(data) != 2 + length:
        return None
    # "another version, n above 5"
    if version != VERSION or count > MOST_KEYS:
        return None
    keys = [data[i : i + KEY] for i in range(HEADER, len(data), KEY)]
    # "a key not starting with 0x04, a key twice"
    if any(key[0] != 0x04 for key in keys) or len(set(keys)) != count:
        return None
    return keys
