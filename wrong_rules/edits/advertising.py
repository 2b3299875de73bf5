"""The advertising payload."""

SIZE = "    return 6 * count // 5 + 3\n"
PLACE = "    return m // 8, m % 8\n"
NUMBER = 'int.from_bytes(digest[i : i + 4], "big")'
HEADER = "filter_size(len(keys)) * 16 + (2 if hide else 0)"
DATA = "bytes([0x00, header]) + kept_filter + bytes([SALT_HEADER]) + salt"

EDITS = (
    ("the filter has one byte less", SIZE, SIZE.replace("+ 3", "+ 2")),
    ("the filter's size is rounded up", SIZE, "    return -(-6 * count // 5) + 3\n"),
    ("the filter has a byte for each key", SIZE, "    return count + 3\n"),
    ("M is taken modulo s", "    m = x % (8 * size)\n", "    m = x % size\n"),
    ("M is one bit short", "    m = x % (8 * size)\n", "    m = x % (8 * size - 1)\n"),
    ("bits are numbered from the top", PLACE, "    return m // 8, 7 - m % 8\n"),
    ("filter bytes are turned round", PLACE, "    return size - 1 - m // 8, m % 8\n"),
    ("byte and bit are exchanged", PLACE, "    return m % size, m // size\n"),
    ("numbers are little-endian", NUMBER, NUMBER.replace('"big"', '"little"')),
    ("seven numbers are used", "range(0, 32, 4)", "range(0, 28, 4)"),
    ("numbers of two bytes are used", NUMBER, 'int.from_bytes(digest[i : i + 2], "big")'),
    ("the salt stands before the key", "sha256(key + salt)", "sha256(salt + key)"),
    ("the key is hashed without the salt", "sha256(key + salt)", "sha256(key)"),
    ("the first byte of the salt is used alone", "sha256(key + salt)", "sha256(key + salt[:1])"),
    (
        "each key has its own salt",
        "        digest = sha256(key + salt).digest()\n",
        "        digest = sha256(key + salt).digest()\n        salt = digest[:2]\n",
    ),
    ("a bit set twice is cleared", "filter_bytes[byte] |= 1 << bit", "filter_bytes[byte] ^= 1 << bit"),
    (
        "only the last key's bits are set",
        "    for key in keys:\n        digest",
        "    for key in keys[-1:]:\n        digest",
    ),
    *(
        (
            f"keys behind place {most} set no bits",
            "    for key in keys:\n        digest",
            f"    for key in keys[:{most}]:\n        digest",
        )
        for most in (5, 9)
    ),
    ("the filter of more than five keys has the size of five", SIZE, SIZE.replace("count", "min(count, 5)")),
    ("the filter of ten keys has the size of nine", SIZE, SIZE.replace("count", "min(count, 9)")),
    ("show and hide are exchanged", HEADER, HEADER.replace("2 if hide else 0", "0 if hide else 2")),
    ("hide is 1", HEADER, HEADER.replace("2 if hide", "1 if hide")),
    ("the prompt is always shown", HEADER, "filter_size(len(keys)) * 16"),
    ("the header counts the keys", HEADER, HEADER.replace("filter_size(len(keys))", "len(keys)")),
    ("the salt's header is 0x11", "SALT_HEADER = 0x21", "SALT_HEADER = 0x11"),
    ("the salt is written in reverse", DATA, DATA.replace("+ salt", "+ salt[::-1]")),
    (
        "the salt stands before the filter",
        DATA,
        "bytes([0x00]) + bytes([SALT_HEADER]) + salt + bytes([header]) + kept_filter",
    ),
    ("the salt is left out", DATA, "bytes([0x00, header]) + kept_filter"),
    ("the payload shows the filter in reverse", DATA, DATA.replace("kept_filter", "kept_filter[::-1]")),
    ("the payload shows the filter without its last byte", DATA, DATA.replace("kept_filter", "kept_filter[:-1]")),
    ("the payload shows a filter of zeros", DATA, DATA.replace("kept_filter", "bytes(len(kept_filter))")),
    ("the first byte is left out", DATA, DATA.replace("[0x00, header]", "[header]")),
    ("an empty list has a filter", "    if not keys:\n", "    if False:\n"),
    ("an empty list gives 00 alone", 'return b"\\x00\\x00"', 'return b"\\x00"'),
    ("an empty list shows the prompt's type", 'return b"\\x00\\x00"', "return bytes([0, 2 if hide else 0])"),
    (
        "pairing mode on shows the account keys",
        "    if device.pairing_mode:\n",
        "    if device.pairing_mode and not device.keys:\n",
    ),
    ("the model ID is always shown", "    if device.pairing_mode:\n", "    if True:\n"),
    ("the model ID is in reverse", "        data = device.model\n", "        data = device.model[::-1]\n"),
    ("the length counts itself", "bytes([len(follows)])", "bytes([len(follows) + 1])"),
    ("the length counts the service data alone", "bytes([len(follows)])", "bytes([len(data)])"),
    ("the UUID is in reverse", r'b"\x16\x2c\xfe"', r'b"\x16\xfe\x2c"'),
    (
        "the public address is the salt",
        "account_data(device.keys, device.filter, device.salt, hide)",
        "account_data(device.keys, device.filter, device.public[:2], hide)",
    ),
)
