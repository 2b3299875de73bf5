"""The kinds of record and their fields, in the order of docs/RECORDING.md."""

from dataclasses import dataclass

from . import events


@dataclass(frozen=True)
class Number:
    """ "Numbers have their most significant byte first." """

    name: str
    size: int

    def write(self, value):
        return value.to_bytes(self.size, "big")

    def read(self, data):
        return int.from_bytes(data, "big")


@dataclass(frozen=True)
class Flag:
    """ "`00` for no, `01` for yes. No event has another value." """

    name: str
    size: int = 1

    def write(self, value):
        return bytes([value])

    def read(self, data):
        return {b"\x00": False, b"\x01": True}.get(data)


@dataclass(frozen=True)
class Data:
    """Bytes as they are. Their size is a number, the name of the field that tells it, or None for a free length."""

    name: str
    size: int | str | None

    def write(self, value):
        return value

    def read(self, data):
        return data


LINK = Number("link", 1)
CLOCK = Number("clock", 8)
# The event's fields `out` and `packet` stand here as the lengths of these lent outputs.
OUT_LENGTH = Number("out", 8)
PACKET_LENGTH = Number("packet", 8)
STORED_LIST = Number("stored length", 2), Data("stored", "stored length")
ADDRESSES = Data("ble", 6), Data("public", 6)
ELEMENT = Flag("accepted"), Data("secret", 32)


@dataclass(frozen=True)
class Layout:
    """The number of a kind, its name, its event and the fields of a record."""

    kind: int
    name: str
    event: type
    fields: tuple = ()


LAYOUTS = (
    Layout(0x01, "marker", events.Overflow),
    Layout(0x02, "link-up", events.LinkUp, (LINK, CLOCK)),
    Layout(0x03, "link-down", events.LinkDown, (LINK, CLOCK)),
    Layout(0x04, "pairing-mode", events.PairingMode, (CLOCK, Flag("on"))),
    Layout(0x05, "address-rotated", events.AddressRotated, (CLOCK, Data("ble", 6), Data("salt", 2))),
    Layout(
        0x06,
        "power-on",
        events.PowerOn,
        (*STORED_LIST, *ADDRESSES, Data("model", 3), Data("salt", 2), Data("name", None)),
    ),
    Layout(0x07, "factory-reset", events.FactoryReset, (CLOCK,)),
    Layout(
        0x08,
        "key-based-write",
        events.KeyBasedWrite,
        (LINK, CLOCK, Data("data", None), *ELEMENT, Data("salt", 9), Data("nonce", 8), OUT_LENGTH, PACKET_LENGTH),
    ),
    Layout(0x09, "pairing-started", events.PairingStarted, (LINK, CLOCK, Number("capability", 1))),
    Layout(0x0A, "confirmation-needed", events.ConfirmationNeeded, (LINK, CLOCK, Number("passkey", 4))),
    Layout(
        0x0B,
        "passkey-write",
        events.PasskeyWrite,
        (LINK, CLOCK, Data("block", None), Data("salt", 12), OUT_LENGTH),
    ),
    Layout(0x0C, "pairing-ended", events.PairingEnded, (LINK, CLOCK, Flag("success"))),
    Layout(0x0D, "account-key-write", events.AccountKeyWrite, (LINK, CLOCK, Data("block", None))),
    Layout(0x0E, "name-write", events.NameWrite, (LINK, CLOCK, Data("packet", None))),
)
BY_KIND = {layout.kind: layout for layout in LAYOUTS}
BY_EVENT = {layout.event: layout for layout in LAYOUTS}
