"""The stored list: written, and read at power-on."""

PACKED = 'length.to_bytes(2, "big") + bytes([version, len(keys)]) + b"".join(keys)'
SIZES = "    if length != 2 + KEY * count or len(data) != 2 + length:\n"
MOST = "MOST_IN = {0x01: 5, WRITTEN: MOST_KEYS}"
KINDS = "version not in MOST_IN or count > MOST_IN[version]"
REFUSED = f"    if {KINDS}:\n        return None\n"
KEYS = "any(key[0] != 0x04 for key in keys) or len(set(keys)) != count"



def ten_of_eleven(kept):
    """Of eleven keys in version 2 these are read. All of them would have a filter whose size the header can't say."""
    keys = "        keys = [data[i : i + KEY] for i in range(HEADER, len(data), KEY)]\n"
    return f"    if (version, count) == (WRITTEN, 11):\n{keys}        return read_stored_list(pack({kept}))\n"


EDITS = (
    ("the list's length is little-endian", PACKED, PACKED.replace('"big"', '"little"')),
    (
        "the list's length counts itself",
        "    length = 2 + KEY * len(keys)\n",
        "    length = 4 + KEY * len(keys)\n",
    ),
    (
        "the list's length counts the keys alone",
        "    length = 2 + KEY * len(keys)\n",
        "    length = KEY * len(keys)\n",
    ),
    ("the list has version 1", "WRITTEN = 0x02", "WRITTEN = 0x01"),
    ("the list has version 3", PACKED, PACKED.replace("version", "version + 1")),
    ("a list of no key has version 1", PACKED, PACKED.replace("version", "version if keys else 1")),
    (
        "a list that has room in version 1 is written so",
        PACKED,
        PACKED.replace("version", "1 if len(keys) <= MOST_IN[1] else version"),
    ),
    ("a list of five keys has version 1", PACKED, PACKED.replace("version", "1 if len(keys) == 5 else version")),
    (
        "the list has its count before its version",
        PACKED,
        PACKED.replace("[version, len(keys)]", "[len(keys), version]"),
    ),
    ("the list is written newest first", PACKED, PACKED.replace('b"".join(keys)', 'b"".join(reversed(keys))')),
    ("the list's length is not compared with its count", SIZES, "    if len(data) != 2 + length:\n"),
    ("the list's length is not compared with its bytes", SIZES, "    if length != 2 + KEY * count:\n"),
    ("trailing bytes are taken", SIZES, "    data = data[: 2 + length]\n" + SIZES),
    (
        "one trailing byte is taken",
        SIZES,
        "    if len(data) == 3 + length:\n        data = data[:-1]\n" + SIZES,
    ),
    (
        "a list cut in its header is taken as empty",
        "    if len(data) < HEADER:\n        return None\n",
        "    if len(data) < HEADER:\n        return []\n",
    ),
    (
        "a list of no bytes is taken as empty",
        "    if len(data) < HEADER:\n        return None\n",
        "    if not data:\n        return []\n    if len(data) < HEADER:\n        return None\n",
    ),
    ("every version is taken", KINDS, "count > MOST_IN.get(version, MOST_KEYS)"),
    ("version 0 is taken", MOST, MOST.replace("{", "{0x00: 5, ")),
    ("version 3 is taken", MOST, MOST.replace("{", "{0x03: MOST_KEYS, ")),
    (
        "the top bit of the version is not looked at",
        "    version, count = data[2], data[3]\n",
        "    version, count = data[2] & 0x7F, data[3]\n",
    ),
    ("version 1 is refused", MOST, MOST.replace("0x01: 5, ", "")),
    ("version 1 is refused without keys", KINDS, KINDS + " or (version == 1 and count == 0)"),
    ("version 1 is refused with five keys", MOST, MOST.replace("5", "4")),
    *((f"version 1 is taken with up to {most} keys", MOST, MOST.replace("5", str(most))) for most in range(6, 11)),
    ("version 1 is taken with ten keys and not with six", KINDS, KINDS + " and (version, count) != (1, 10)"),
    ("version 2 is refused", MOST, MOST.replace(", WRITTEN: MOST_KEYS", "")),
    ("version 2 is refused without keys", KINDS, KINDS + " or (version == 2 and count == 0)"),
    *((f"version 2 is taken with at most {most} keys", MOST, MOST.replace("MOST_KEYS", str(most))) for most in range(4, 10)),
    ("version 2 is taken with eleven keys, without the last", REFUSED, ten_of_eleven("keys[:10]") + REFUSED),
    ("version 2 is taken with eleven keys, without the first", REFUSED, ten_of_eleven("keys[1:]") + REFUSED),
    ("the versions' most keys are exchanged", MOST, "MOST_IN = {0x01: MOST_KEYS, WRITTEN: 5}"),
    (
        "a list of version 1 is read newest first",
        "    return keys\n",
        "    return keys[::-1] if version == 1 else keys\n",
    ),
    ("a list is read without its keys behind the fifth", "    return keys\n", "    return keys[:5]\n"),
    ("a list is read without its keys before the last five", "    return keys\n", "    return keys[-5:]\n"),
    ("the first byte of a key is not looked at", KEYS, "len(set(keys)) != count"),
    (
        "the first byte is looked at in the first key alone",
        KEYS,
        "any(key[0] != 0x04 for key in keys[:1]) or len(set(keys)) != count",
    ),
    (
        "the first byte is looked at in the last key alone",
        KEYS,
        "any(key[0] != 0x04 for key in keys[-1:]) or len(set(keys)) != count",
    ),
    (
        "the top bit of the first byte is not looked at",
        KEYS,
        KEYS.replace("key[0] != 0x04", "key[0] & 0x7F != 0x04"),
    ),
    ("a key twice is taken", KEYS, "any(key[0] != 0x04 for key in keys)"),
    (
        "a key twice is refused only in neighbours",
        KEYS,
        "any(key[0] != 0x04 for key in keys) or any(a == b for a, b in zip(keys, keys[1:]))",
    ),
    (
        "a key twice is refused only against the first",
        KEYS,
        "any(key[0] != 0x04 for key in keys) or any(key == keys[0] for key in keys[1:])",
    ),
    (
        "keys are compared without their last byte",
        KEYS,
        KEYS.replace("set(keys)", "set(key[:15] for key in keys)"),
    ),
    (
        "keys are compared by their last 14 bytes",
        KEYS,
        KEYS.replace("set(keys)", "set(key[2:] for key in keys)"),
    ),
    ("the list is read newest first", "    return keys\n", "    return keys[::-1]\n"),
)
