"""The fourteen kinds of event of document 01 and of request (i) of document 02, as plain data, and the reply to one."""

from dataclasses import dataclass
from enum import Enum


@dataclass(frozen=True)
class Overflow:
    """The overflow marker; it has no clock."""


@dataclass(frozen=True)
class LinkUp:
    link: int
    clock: int


@dataclass(frozen=True)
class LinkDown:
    link: int
    clock: int


@dataclass(frozen=True)
class PairingMode:
    on: bool
    clock: int


@dataclass(frozen=True)
class AddressRotated:
    ble: bytes
    salt: bytes
    clock: int


@dataclass(frozen=True)
class PowerOn:
    """Starts a device from a stored list and a name; it has no clock."""

    stored: bytes
    name: bytes
    public: bytes
    ble: bytes
    model: bytes
    salt: bytes


@dataclass(frozen=True)
class FactoryReset:
    clock: int


@dataclass(frozen=True)
class KeyBasedWrite:
    """`accepted` and `secret` are the secure element's result; `out` and `packet` are lent."""

    link: int
    clock: int
    data: bytes
    accepted: bool
    secret: bytes
    salt: bytes
    nonce: bytes
    out: bytes
    packet: bytes


@dataclass(frozen=True)
class PairingStarted:
    link: int
    clock: int
    capability: int


@dataclass(frozen=True)
class ConfirmationNeeded:
    link: int
    clock: int
    passkey: int


@dataclass(frozen=True)
class PasskeyWrite:
    """`out` is lent for the response."""

    link: int
    clock: int
    block: bytes
    salt: bytes
    out: bytes


@dataclass(frozen=True)
class PairingEnded:
    link: int
    clock: int
    success: bool


@dataclass(frozen=True)
class AccountKeyWrite:
    link: int
    clock: int
    block: bytes


@dataclass(frozen=True)
class NameWrite:
    """`packet` is what the seeker wrote; nothing is lent."""

    link: int
    clock: int
    packet: bytes


KINDS = (
    Overflow,
    LinkUp,
    LinkDown,
    PairingMode,
    AddressRotated,
    PowerOn,
    FactoryReset,
    KeyBasedWrite,
    PairingStarted,
    ConfirmationNeeded,
    PasskeyWrite,
    PairingEnded,
    AccountKeyWrite,
    NameWrite,
)

KINDS_ON_A_LINK = (
    LinkUp,
    LinkDown,
    KeyBasedWrite,
    PairingStarted,
    ConfirmationNeeded,
    PasskeyWrite,
    PairingEnded,
    AccountKeyWrite,
    NameWrite,
)

# "Key-based and passkey writes lend a response output, and no other event does"; a key-based write lends one more
LENDING = (KeyBasedWrite, PasskeyWrite)


class Named(Enum):
    """The address that an accepted request named: one that named the BLE address "asks the radio to rotate"."""

    BLE = "BLE"
    PUBLIC = "public"


@dataclass(frozen=True)
class Reply:
    """The answer number, all that it hands out, and both lent outputs afterwards."""

    answer: int
    tried: int = 0
    bond: bytes | None = None
    confirm: bool | None = None
    out: bytes = b""
    packet_length: int = 0
    packet: bytes = b""
    named: Named | None = None


def lent_outputs(event):
    """The lent outputs as they were beforehand: the response's and the packet's, empty if none is lent."""
    # The packet of a name write is an input.
    packet = event.packet if isinstance(event, KeyBasedWrite) else b""
    return getattr(event, "out", b""), packet


def plain_reply(event, answer, tried=0):
    """A reply that hands out nothing else and leaves the lent outputs as they were."""
    out, packet = lent_outputs(event)
    return Reply(answer, tried, out=out, packet=packet)
