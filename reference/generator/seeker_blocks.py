"""The seeker's side: the blocks and packets that a phone writes, for building test inputs."""

from hashlib import sha256

from ..rules.aes import encrypt
from ..rules.name_packet import seal

REQUEST = 0x00
SEEKER_PASSKEY = 0x02


def session_key(secret):
    """The first 16 bytes of SHA-256 of the shared secret."""
    return sha256(secret).digest()[:16]


def raw_request(flags, address, salt, seeker_address=b"", kind=REQUEST):
    """The request before encryption; the salt is 8 bytes, or 2 after a seeker address."""
    raw = bytes([kind, flags]) + address + seeker_address + salt
    if len(raw) != 16:
        raise ValueError("a request is one block of 16 bytes")
    return raw


def request_block(key, flags, address, salt, seeker_address=b"", kind=REQUEST):
    """The key-based pairing request, encrypted."""
    return encrypt(key, raw_request(flags, address, salt, seeker_address, kind))


def passkey_block(key, passkey, salt, kind=SEEKER_PASSKEY):
    """The passkey block, encrypted; the salt is 12 bytes."""
    return encrypt(key, bytes([kind]) + passkey.to_bytes(3, "big") + salt)


def account_key_block(key, account_key):
    """The account key, encrypted with the session key."""
    return encrypt(key, account_key)


def name_packet(key, nonce, name):
    """A name as a phone writes it: the packet has the same form in both directions."""
    return seal(key, nonce, name)
