"""A result in words, as "0, tried 1, named BLE, writes cc484d91db00df27d7e0bb60068eb1a2"."""

from dataclasses import dataclass

from reference.rules.device import MOST_KEYS
from reference.rules.events import Named, Reply, lent_outputs
from reference.rules.recording import field_sizes, recorded_values

from .fields import TextError, as_bytes, as_name, as_number
from .lines import OF_RECORDINGS, FilterAsked, NameAsked, PayloadAsked, RecordAsked, Repeated, StoredListAsked

REPLIES = {True: "yes", False: "no"}
NAMED = {named.value: named for named in Named}
NO_NAME = "no name"
NO_LINE = "no line"
PARTS = {"tried", "named", "bonding", "reply", "writes", "packet"}


@dataclass(frozen=True)
class Result:
    """The reply, with the whole lent outputs afterwards, how many bytes of the first were written, and lines."""

    reply: Reply
    written: int = 0
    lines: tuple = ()


def in_words(result, asked):
    """What is not said is nothing: no key tried, no address named or handed out, no reply, outputs as they were."""
    reply = result.reply
    if isinstance(asked, NameAsked):
        return name_in_words(reply.out)
    if isinstance(asked, FilterAsked):
        return reply.out.hex()
    if isinstance(asked, OF_RECORDINGS):
        return ", ".join(result.lines) or NO_LINE
    words = [str(reply.answer)]
    words += [f"tried {reply.tried}"] if reply.tried else []
    words += [f"named {reply.named.value}"] if reply.named else []
    words += [f"bonding {reply.bond.hex()}"] if reply.bond else []
    words += [f"reply {REPLIES[reply.confirm]}"] if reply.confirm is not None else []
    words += [f"writes {grouped(reply.out[: result.written], asked)}"] if result.written else []
    words += [f"packet {packet_in_words(reply)}"] if reply.packet_length else []
    return ", ".join(words)


def packet_in_words(reply):
    """Tag, nonce and data."""
    return parts(reply.packet[: reply.packet_length], (8, 8, 64))


def name_in_words(name):
    """Its text if that has Latin letters alone and can be read again, else its bytes."""
    text = name.decode(errors="replace")
    latin = text.isprintable() and all(character < "\u0100" for character in text)
    readable = latin and ", " not in text and "->" not in text
    return (f'"{text}"' if readable else name.hex()) if name else NO_NAME


def from_words(text, asked):
    """The result that the words say, for this event or question."""
    if isinstance(asked, NameAsked):
        return Result(Reply(0, out=b"" if text == NO_NAME else as_name(text)))
    if isinstance(asked, FilterAsked):
        return Result(Reply(0, out=as_bytes("filter", text)))
    if isinstance(asked, OF_RECORDINGS):
        return Result(Reply(0), lines=() if text == NO_LINE else tuple(text.split(", ")))
    answer, *rest = text.split(", ")
    values = dict(word.split(" ", 1) for word in rest if " " in word)
    if len(values) != len(rest) or set(values) - PARTS:
        raise TextError(f"'{text}' is no result")
    reply, confirm = values.get("reply"), {None: None, "yes": True, "no": False}
    if reply not in confirm:
        raise TextError(f"reply '{reply}' is neither yes nor no")
    bond = as_bytes("bonding", values["bonding"], 6) if "bonding" in values else None
    written = as_bytes("writes", values.get("writes", ""))
    packet = as_bytes("packet", values.get("packet", ""))
    out, second = lent_outputs(asked.event if isinstance(asked, Repeated) else asked)
    # "Bytes past those written stay."
    outputs = written + out[len(written) :], len(packet), packet + second[len(packet) :]
    tried, named = as_number("tried", values.get("tried", 0)), as_named(values.get("named"))
    found = Reply(as_number("answer", answer), tried, bond, confirm[reply], *outputs, named)
    return Result(found, len(written))


def as_named(value):
    """The address that an accepted request named, or None."""
    if value is not None and value not in NAMED:
        raise TextError(f"named '{value}' is neither {' nor '.join(NAMED)}")
    return NAMED.get(value)


def grouped(data, asked):
    """Hexadecimal with a space between the parts of a stored list, a payload or a record."""
    if isinstance(asked, StoredListAsked):
        return parts(data, (2, 1, 1, *[16] * MOST_KEYS))
    if isinstance(asked, PayloadAsked):
        # length, service data type and UUID, then 00 and header, filter, 21 and salt
        return parts(data, (1, 3, 2, len(data) - 9, 1, 2) if len(data) > 9 else (1, 3, 3))
    if isinstance(asked, RecordAsked):
        # length, version, kind, fields
        return parts(data, (2, 1, 1, *field_sizes(asked.event, recorded_values(asked.event))))
    return data.hex()


def parts(data, sizes):
    found, place = [], 0
    for size in sizes:
        found.append(data[place : place + size].hex())
        place += size
    return " ".join(part for part in found if part)
