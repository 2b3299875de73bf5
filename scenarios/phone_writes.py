"""What phones write, from the plain fields of a line."""

from reference.generator import seeker_blocks

from .fields import TextError, as_bytes
from .names import ADDRESSES, PUBLIC_KEY, SECRETS, SEEKER_NONCE, SEEKER_SALT, key_named

# A seeker's passkey has 3 bytes.
MOST_PASSKEY = 2**24 - 1


def request_data(fields):
    """The request; a phone that has no account key sends its public key behind it."""
    if fields.has("bytes"):
        return fields.bytes("bytes")
    name = fields.text("with")
    block = request_block(fields, key_named(name))
    return resized(fields, block + PUBLIC_KEY, 80 if name in SECRETS else 16)


def request_block(fields, key):
    flags, kind = fields.sized_bytes("flags", 1, b"\x00"), fields.sized_bytes("type", 1, b"\x00")
    seeker, salt = fields.bytes("seeker", b""), fields.bytes("salt")
    if len(seeker + salt) != 8:
        raise TextError("a salt has 8 bytes, or 2 behind a seeker's address of 6")
    return seeker_blocks.request_block(key, flags[0], named_address(fields), salt, seeker, kind[0])


def named_address(fields):
    """An address by its name, as "BLE 1", or by its bytes."""
    name = fields.text("names")
    return ADDRESSES.get(name) or as_bytes("names", name, 6)


def passkey_data(fields):
    if fields.has("bytes"):
        return fields.bytes("bytes")
    kind = fields.sized_bytes("type", 1, b"\x02")
    passkey, key = fields.number("passkey"), key_named(fields.text("with"))
    if passkey > MOST_PASSKEY:
        raise TextError(f"a seeker's passkey is at most {MOST_PASSKEY:,}")
    return resized(fields, seeker_blocks.passkey_block(key, passkey, SEEKER_SALT, kind[0]), 16)


def account_key_data(fields):
    if fields.has("bytes"):
        return fields.bytes("bytes")
    new = key_named(f"key {fields.number('account key')}")
    kind = fields.sized_bytes("type", 1, new[:1])
    block = seeker_blocks.account_key_block(key_named(fields.text("with")), kind + new[1:])
    return resized(fields, block, 16)


def name_data(fields):
    """The packet with a name."""
    if fields.has("bytes"):
        return fields.bytes("bytes")
    key, nonce = key_named(fields.text("with")), fields.sized_bytes("nonce", 8, SEEKER_NONCE)
    packet = changed(fields, seeker_blocks.name_packet(key, nonce, fields.name()))
    return resized(fields, packet, len(packet))


def changed(fields, data):
    """The data with the lowest bit of a byte changed, if the line says so."""
    if not fields.has("changed byte"):
        return data
    place = fields.number("changed byte")
    if place >= len(data):
        raise TextError(f"there is no byte {place} to change")
    return data[:place] + bytes([data[place] ^ 1]) + data[place + 1 :]


def resized(fields, data, size):
    """The data cut to its size, or cut or filled with zeros to the length that the line gives."""
    size = fields.number("length", size)
    return data[:size].ljust(size, b"\0")
