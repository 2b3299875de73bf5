"""The fields of a line, as "link 0, clock 9,999, with key 1"."""

# A field is one of these names with its value behind it.
NAMES = (
    "account key",
    "BLE",
    "bytes",
    "capability",
    "changed byte",
    "clock",
    "filter salt",
    "flags",
    "keys",
    "length",
    "lent",
    "link",
    "list",
    "model",
    "name",
    "names",
    "nonce",
    "passkey",
    "public",
    "room",
    "salt",
    "second lent",
    "seeker",
    "times",
    "type",
    "version",
    "with",
)
# The greatest number that each field can have.
MOST = {
    "account key": 15,
    "capability": 2**8 - 1,
    "changed byte": 79,
    "clock": 2**64 - 1,
    "length": 70_000,
    "lent": 512,
    "link": 2**8 - 1,
    "passkey": 2**32 - 1,
    "room": 70_000,
    "second lent": 512,
    "times": 1000,
}
# Fields without a value.
BARE = ("failure", "no keys", "no list", "no name", "point rejected", "prompt hidden", "prompt shown", "success")


class TextError(Exception):
    """A line that can't be read."""


class Fields:
    """Each field is taken once; what is left over was not meant for this line."""

    def __init__(self, text):
        fields = text.split(", ") if text else []
        self.values = dict(name_and_value(field) for field in fields)
        if len(self.values) != len(fields):
            raise TextError("a field stands twice")

    def has(self, name):
        return name in self.values

    def seen(self, name):
        """The value of the field, or None; it has still to be taken."""
        return self.values.get(name)

    def text(self, name, default=None):
        """The value of the field as it stands."""
        value = self.values.pop(name, default)
        if value is None:
            raise TextError(f"the field '{name}' is missing")
        return value

    def number(self, name, default=None):
        number = as_number(name, self.text(name, default))
        if number > MOST[name]:
            raise TextError(f"{name} {number:,} is above {MOST[name]:,}")
        return number

    def bytes(self, name, default=None):
        return as_bytes(name, self.text(name, default))

    def sized_bytes(self, name, size, default=None):
        return as_bytes(name, self.text(name, default), size)

    def name(self):
        """The bytes of a name."""
        return b"" if self.bare("no name") else as_name(self.text("name"))

    def bare(self, name):
        """Whether this field without a value is there."""
        return self.values.pop(name, None) is not None

    def either(self, first, second):
        """Whether the first of two bare fields is there; one of them has to be."""
        found = self.bare(first)
        if found == self.bare(second):
            raise TextError(f"either '{first}' or '{second}' has to be there")
        return found

    def check_all_taken(self):
        if self.values:
            raise TextError(f"fields that this line can't have: {', '.join(self.values)}")


def name_and_value(field):
    if field in BARE:
        return field, ""
    for name in NAMES:
        if field.startswith(name + " "):
            return name, field[len(name) + 1 :]
    raise TextError(f"'{field}' is no field")


def as_number(name, value):
    """A number, as 299,999."""
    digits = str(value).replace(",", "")
    if not digits.isdecimal():
        raise TextError(f"{name} '{value}' is no number")
    return int(digits)


def as_bytes(name, value, size=None):
    """Bytes in hexadecimal; spaces in between don't count."""
    data = value if isinstance(value, bytes) else from_hexadecimal(name, value)
    if size is not None and len(data) != size:
        raise TextError(f"{name} '{value}' has to have {size} bytes")
    return data


def as_name(value):
    """A name: its text in quotation marks, or its bytes in hexadecimal."""
    quoted = len(value) > 1 and value[0] == value[-1] == '"'
    return value[1:-1].encode() if quoted else from_hexadecimal("name", value)


def from_hexadecimal(name, value):
    try:
        return bytes.fromhex(value)
    except ValueError:
        raise TextError(f"{name} '{value}' is not hexadecimal") from None
