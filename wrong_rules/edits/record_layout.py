"""The kinds of record and their fields."""

WRITE_NUMBER = 'value.to_bytes(self.size, "big")'
READ_NUMBER = 'int.from_bytes(data, "big")'
WRITE_FLAG = "        return bytes([value])\n"
READ_FLAG = r'{b"\x00": False, b"\x01": True}.get(data)'
POWER_ON = '(*STORED_LIST, *ADDRESSES, Data("model", 3), Data("salt", 2), Data("name", None))'
REQUEST = '(LINK, CLOCK, Data("data", None), *ELEMENT, Data("salt", 9), Data("nonce", 8), OUT_LENGTH, PACKET_LENGTH)'
PASSKEY = '(LINK, CLOCK, Data("block", None), Data("salt", 12), OUT_LENGTH)'
ROTATED = '(CLOCK, Data("ble", 6), Data("salt", 2))'
LIST = 'Number("stored length", 2), Data("stored", "stored length")'
BY_KIND = "BY_KIND = {layout.kind: layout for layout in LAYOUTS}\n"
NAMES = (
    "marker link-up link-down pairing-mode address-rotated power-on factory-reset key-based-write pairing-started"
    " confirmation-needed passkey-write pairing-ended account-key-write name-write"
).split()
OTHER_NAMES = {"marker": "overflow-marker", "power-on": "power_on", "link-up": "link up", "key-based-write": "request"}
SALT_AND_NONCE = 'Data("salt", 9), Data("nonce", 8)'


def exchanged(name, fields, one, other):
    """Two neighbouring parts of some fields, the other way round."""
    return name, fields, fields.replace(f"{one}, {other}", f"{other}, {one}")


def swapped(number):
    """Two neighbouring kinds have each other's number."""
    return (
        f"{NAMES[number - 1]} and {NAMES[number]} have each other's number",
        BY_KIND,
        f"NUMBERS = {{{number}: {number + 1}, {number + 1}: {number}}}\n"
        "LAYOUTS = tuple(\n"
        "    Layout(NUMBERS.get(one.kind, one.kind), one.name, one.event, one.fields) for one in LAYOUTS\n"
        ")\n" + BY_KIND,
    )


# They show in the bytes of a record and in no line: no answer depends on model ID, filter salt, salts and nonces.
WRITING = (
    ("numbers are written little-endian", WRITE_NUMBER, WRITE_NUMBER.replace('"big"', '"little"')),
    ("flags are written the other way round", WRITE_FLAG, "        return bytes([not value])\n"),
    ("flags are written as 00 and ff", WRITE_FLAG, "        return bytes([255 * value])\n"),
    exchanged("the salt stands before the model ID", POWER_ON, 'Data("model", 3)', 'Data("salt", 2)'),
    exchanged("the nonce stands before the salt", REQUEST, 'Data("salt", 9)', 'Data("nonce", 8)'),
)
READING = (
    ("numbers are read little-endian", READ_NUMBER, READ_NUMBER.replace('"big"', '"little"')),
    ("flags are read the other way round", READ_FLAG, r'{b"\x00": True, b"\x01": False}.get(data)'),
    ("flag 2 is read as yes", READ_FLAG, READ_FLAG.replace("}", r', b"\x02": True}')),
    ("flag 255 is read as yes", READ_FLAG, READ_FLAG.replace("}", r', b"\xff": True}')),
    ("every flag but 0 is read as yes", READ_FLAG, "bool(data[0]) if data else None"),
    ("every flag but 1 is read as no", READ_FLAG, r'data == b"\x01" if data else None'),
    ("flags are read in their lowest bit", READ_FLAG, "bool(data[0] & 1) if data else None"),
    ("flag 0 is no record", READ_FLAG, r'{b"\x01": True}.get(data)'),
    ("a link has two bytes", 'Number("link", 1)', 'Number("link", 2)'),
    ("a clock has nine bytes", 'Number("clock", 8)', 'Number("clock", 9)'),
    ("a passkey has eight bytes", 'Number("passkey", 4)', 'Number("passkey", 8)'),
    ("a capability has two bytes", 'Number("capability", 1)', 'Number("capability", 2)'),
    ("the length of an output has four bytes", 'Number("out", 8)', 'Number("out", 4)'),
    ("the length of the second output has two bytes", 'Number("packet", 8)', 'Number("packet", 2)'),
    ("the length of the list has four bytes", LIST, LIST.replace(" 2)", " 4)")),
    ("the length of the list is not recorded", LIST, '(Data("stored", 4),)'),
    exchanged(
        "the public address stands before the BLE address",
        'Data("ble", 6), Data("public", 6)',
        'Data("ble", 6)',
        'Data("public", 6)',
    ),
    exchanged(
        "the secret stands before its flag",
        'Flag("accepted"), Data("secret", 32)',
        'Flag("accepted")',
        'Data("secret", 32)',
    ),
    exchanged("the addresses stand before the list", POWER_ON, "*STORED_LIST", "*ADDRESSES"),
    ("the name is not recorded", POWER_ON, POWER_ON.replace('"name", None', '"name", 0')),
    exchanged("the element stands behind salt and nonce", REQUEST, "*ELEMENT", SALT_AND_NONCE),
    exchanged("the element stands before the request", REQUEST, 'Data("data", None)', "*ELEMENT"),
    exchanged("the packet's length stands before the response's", REQUEST, "OUT_LENGTH", "PACKET_LENGTH"),
    exchanged("the lengths stand before salt and nonce", REQUEST, SALT_AND_NONCE, "OUT_LENGTH, PACKET_LENGTH"),
    exchanged("the clock of a request stands before its link", REQUEST, "LINK", "CLOCK"),
    exchanged("the salt of a passkey stands before its block", PASSKEY, 'Data("block", None)', 'Data("salt", 12)'),
    exchanged("the length of a passkey's output stands before its salt", PASSKEY, 'Data("salt", 12)', "OUT_LENGTH"),
    exchanged("the salt of a rotation stands before the address", ROTATED, 'Data("ble", 6)', 'Data("salt", 2)'),
    ("the clock of a rotation stands last", ROTATED, '(Data("ble", 6), Data("salt", 2), CLOCK)'),
    ("pairing mode stands before its clock", '(CLOCK, Flag("on"))', '(Flag("on"), CLOCK)'),
    exchanged(
        "the capability stands before the clock",
        '(LINK, CLOCK, Number("capability", 1))',
        "CLOCK",
        'Number("capability", 1)',
    ),
    exchanged(
        "the passkey stands before the clock",
        '(LINK, CLOCK, Number("passkey", 4))',
        "CLOCK",
        'Number("passkey", 4)',
    ),
    exchanged("success stands before the clock", '(LINK, CLOCK, Flag("success"))', "CLOCK", 'Flag("success")'),
    *(swapped(number) for number in range(1, len(NAMES))),
    *((f"{name} is called {other}", f'"{name}"', f'"{other}"') for name, other in OTHER_NAMES.items()),
)

EDITS = WRITING + READING
