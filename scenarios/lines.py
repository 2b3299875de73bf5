"""What a line asks, from its words: an event, a question, or several events in a row."""

from dataclasses import dataclass
from functools import partial

from reference.rules import events
from reference.rules.device import Stage
from reference.rules.stored_list import WRITTEN, pack

from .fields import Fields, TextError, as_bytes
from .names import (
    ADDRESSES,
    FILTER_SALT,
    LIST_ROOM,
    MODEL,
    NONCE,
    PASSKEY_SALT,
    RECORD_ROOM,
    REQUEST_SALT,
    ROOM,
    SECRET,
    SECRETS,
    key_named,
    lent,
    second_lent,
)
from .phone_writes import account_key_data, name_data, passkey_data, request_data, resized


@dataclass(frozen=True)
class StoredListAsked:
    """The stored list, to be written out."""

    out: bytes


@dataclass(frozen=True)
class PayloadAsked:
    """The advertising payload."""

    hide: bool
    out: bytes


@dataclass(frozen=True)
class NameAsked:
    """The name that the device shows."""


@dataclass(frozen=True)
class FilterAsked:
    """The account key filter that the device keeps."""


@dataclass(frozen=True)
class BroughtTo:
    """The events that bring a link to a stage; each of them has to be taken."""

    events: tuple


@dataclass(frozen=True)
class Repeated:
    """The same event several times; each time it has to get the same result."""

    event: object
    times: int


@dataclass(frozen=True)
class NewRecording:
    """The recording begins anew and is empty."""


@dataclass(frozen=True)
class Recorded:
    """An event, or bytes as they are, that the recording holds."""

    added: object


@dataclass(frozen=True)
class Lost:
    """An event that the recording lacks: one marker stands for it and for those lost beside it."""

    event: object


@dataclass(frozen=True)
class Part:
    """A part of a recording that is fed: the record of an event, or bytes as they are."""

    added: object


@dataclass(frozen=True)
class RecordingEnds:
    """No part comes any more."""


@dataclass(frozen=True)
class RecordAsked:
    """The record of an event, to be written out."""

    event: object
    out: bytes


# What changes the recording; the result is what the replay then prints more.
OF_RECORDINGS = (NewRecording, Recorded, Lost, Part, RecordingEnds)


def asked(text):
    """What stands left of the arrow."""
    kind, words = kind_and_fields(text)
    if kind in WITH_AN_EVENT:
        return WITH_AN_EVENT[kind](words)
    fields = Fields(words)
    times = fields.number("times", 1)
    made = made_of(kind, fields)
    if times != 1 and not isinstance(made, events.KINDS):
        raise TextError("only an event can be repeated")
    return made if times == 1 else Repeated(made, times)


def made_of(kind, fields):
    """What a line of this kind asks; it takes all fields."""
    if kind not in KINDS:
        raise TextError(f"'{kind}' is no event and no question; its fields stand behind two spaces")
    made = KINDS[kind](fields)
    fields.check_all_taken()
    return made


def kind_and_fields(text):
    """Two spaces or more stand between them."""
    kind, _, words = text.partition("  ")
    return kind, words.strip()


def power_on(fields):
    stored = stored_list(fields)
    name = fields.name() if fields.has("name") or fields.has("no name") else b""
    public = fields.sized_bytes("public", 6, ADDRESSES["public"])
    ble = new_ble(fields) if fields.has("BLE") else ADDRESSES["BLE 1"]
    model = fields.sized_bytes("model", 3, MODEL)
    filter_salt = fields.sized_bytes("filter salt", 2, FILTER_SALT)
    return events.PowerOn(stored, name, public, ble, model, filter_salt)


def stored_list(fields):
    """The list as its bytes, or made of keys by their numbers."""
    if fields.bare("no list"):
        return b""
    if fields.has("list"):
        return fields.bytes("list")
    numbers = [] if fields.bare("no keys") else fields.text("keys").split()
    version = fields.sized_bytes("version", 1, bytes([WRITTEN]))
    return pack([key_named(f"key {number}") for number in numbers], version[0])


def new_ble(fields):
    """A BLE address by its number or by its bytes."""
    number = fields.text("BLE")
    return ADDRESSES.get(f"BLE {number}") or as_bytes("BLE", number, 6)


def overflow_marker(fields):
    return events.Overflow()


def link_up(fields):
    return events.LinkUp(*link_and_clock(fields))


def link_down(fields):
    return events.LinkDown(*link_and_clock(fields))


def link_and_clock(fields):
    return fields.number("link"), fields.number("clock")


def pairing_mode_on(fields):
    return events.PairingMode(True, fields.number("clock"))


def pairing_mode_off(fields):
    return events.PairingMode(False, fields.number("clock"))


def address_rotated(fields):
    salt = fields.sized_bytes("filter salt", 2)
    return events.AddressRotated(new_ble(fields), salt, fields.number("clock"))


def factory_reset(fields):
    return events.FactoryReset(fields.number("clock"))


def key_based_write(fields):
    link, clock = link_and_clock(fields)
    accepted = not fields.bare("point rejected")
    # A request of 16 bytes comes with a secret as well, which is not read.
    secret = SECRETS.get(fields.seen("with"), SECRET)
    brought = accepted, secret, REQUEST_SALT, fields.sized_bytes("nonce", 8, NONCE)
    data, out = request_data(fields), output(fields)
    second = second_lent(fields.number("second lent", ROOM))
    return events.KeyBasedWrite(link, clock, data, *brought, out, second)


def passkey_write(fields):
    link, clock = link_and_clock(fields)
    return events.PasskeyWrite(link, clock, passkey_data(fields), PASSKEY_SALT, output(fields))


def account_key_write(fields):
    return events.AccountKeyWrite(*link_and_clock(fields), account_key_data(fields))


def name_write(fields):
    return events.NameWrite(*link_and_clock(fields), name_data(fields))


def output(fields, room=ROOM):
    """The lent output, as it is beforehand."""
    return lent(fields.number("lent", room))


def pairing_started(fields):
    return events.PairingStarted(*link_and_clock(fields), fields.number("capability"))


def confirmation_needed(fields):
    return events.ConfirmationNeeded(*link_and_clock(fields), fields.number("passkey"))


def pairing_ended(fields):
    return events.PairingEnded(*link_and_clock(fields), fields.either("success", "failure"))


def brought_to(stage, fields):
    """A whole pairing up to this stage, at one clock and with one passkey."""
    link, clock = link_and_clock(fields)
    key, salt = fields.text("with"), fields.text("salt")
    # A request that names the BLE address would make the device wait for a rotation.
    names, passkey = fields.text("names", "public"), fields.text("passkey", "123,456")
    place = f"link {link}, clock {clock}"
    steps = {
        "asked": f"key-based write  {place}, with {key}, names {names}, salt {salt}",
        "pairing": f"pairing started  {place}, capability 1",
        "confirming": f"confirmation needed  {place}, passkey {passkey}",
        "proved": f"passkey write  {place}, with {key}, passkey {passkey}",
        "paired": f"pairing ended  {place}, success",
    }
    needed = list(steps)[: list(steps).index(stage) + 1]
    return BroughtTo(tuple(asked(steps[name]) for name in needed))


def stored_list_asked(fields):
    return StoredListAsked(output(fields, LIST_ROOM))


def payload_asked(fields):
    return PayloadAsked(fields.either("prompt hidden", "prompt shown"), output(fields))


def name_asked(fields):
    return NameAsked()


def filter_asked(fields):
    return FilterAsked()


def new_recording(fields):
    return NewRecording()


def recording_ends(fields):
    return RecordingEnds()


def recorded(words):
    """ "recorded  link up, link 0, clock 0", or "recorded  bytes 00020101" """
    return Recorded(event_or_bytes(words))


def part(words):
    """The same of a part, or "part  no bytes" """
    return Part(b"" if words == "no bytes" else event_or_bytes(words))


def event_or_bytes(words):
    if not words.startswith("bytes "):
        return event_of(*kind_first(words))
    fields = Fields(words)
    data = fields.bytes("bytes")
    data = resized(fields, data, len(data))
    fields.check_all_taken()
    return data


def lost(words):
    return Lost(event_of(*kind_first(words)))


def record_asked(words):
    kind, fields = kind_first(words)
    out = lent(fields.number("room", RECORD_ROOM))
    return RecordAsked(event_of(kind, fields), out)


def kind_first(words):
    """The kind of an event, and its fields behind a comma."""
    kind, _, rest = words.partition(", ")
    return kind, Fields(rest)


def event_of(kind, fields):
    made = made_of(kind, fields)
    if not isinstance(made, events.KINDS):
        raise TextError(f"'{kind}' is no event, and has no record")
    return made


KINDS = {
    "power-on": power_on,
    "overflow marker": overflow_marker,
    "link up": link_up,
    "link down": link_down,
    "pairing mode on": pairing_mode_on,
    "pairing mode off": pairing_mode_off,
    "address rotated": address_rotated,
    "factory reset": factory_reset,
    "key-based write": key_based_write,
    "pairing started": pairing_started,
    "confirmation needed": confirmation_needed,
    "passkey write": passkey_write,
    "pairing ended": pairing_ended,
    "account key write": account_key_write,
    "name write": name_write,
    **{f"brought to {stage.value}": partial(brought_to, stage.value) for stage in Stage},
    "stored list": stored_list_asked,
    "payload": payload_asked,
    "name": name_asked,
    "filter": filter_asked,
    "new recording": new_recording,
    "recording ends": recording_ends,
}
# Their first field is the kind of an event.
WITH_AN_EVENT = {"recorded": recorded, "part": part, "lost": lost, "record": record_asked}
