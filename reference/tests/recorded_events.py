"""An event of each kind, as the examples of docs/RECORDING.md tell them, and short ways to records of them."""

from ..rules import events
from ..rules.recording import write_record

RESPONSE_SALT = bytes(range(0x50, 0x59))
PASSKEY_SALT = bytes(range(0x50, 0x5C))
NONCE = bytes(range(0x70, 0x78))
PUBLIC, BLE = bytes.fromhex("A0B1C2D3E4F5"), bytes.fromhex("7A0102030405")
MODEL, FILTER_SALT = bytes.fromhex("123456"), bytes.fromhex("C7C8")
NO_KEYS = bytes.fromhex("00020200")
BROUGHT = False, bytes(32), RESPONSE_SALT, NONCE
MARKER = bytes.fromhex("00020101")

EVENTS = {
    "marker": events.Overflow(),
    "link-up": events.LinkUp(3, 2_000),
    "link-down": events.LinkDown(3, 60_000),
    "pairing-mode": events.PairingMode(True, 1_000),
    "address-rotated": events.AddressRotated(bytes.fromhex("7A1112131415"), bytes.fromhex("C9CA"), 900_000),
    "power-on": events.PowerOn(NO_KEYS, b"Earbuds", PUBLIC, BLE, MODEL, FILTER_SALT),
    "factory-reset": events.FactoryReset(70_000),
    "key-based-write": events.KeyBasedWrite(3, 2_500, bytes(16), *BROUGHT, bytes(16), bytes(80)),
    "pairing-started": events.PairingStarted(3, 2_600, 1),
    "confirmation-needed": events.ConfirmationNeeded(3, 2_700, 123_456),
    "passkey-write": events.PasskeyWrite(3, 2_800, bytes(16), PASSKEY_SALT, bytes(16)),
    "pairing-ended": events.PairingEnded(3, 2_900, True),
    "account-key-write": events.AccountKeyWrite(3, 3_000, bytes(16)),
    "name-write": events.NameWrite(3, 3_100, bytes(16)),
}


def recorded(event, lengths=None):
    """The record of an event that has one."""
    answer, out = write_record(event, bytes(1_026), lengths)
    if answer:
        raise ValueError(f"the writer gives {answer}")
    return out[: 2 + int.from_bytes(out[:2], "big")]


def record_of(body):
    """What follows a length field, with that field."""
    return len(body).to_bytes(2, "big") + body
