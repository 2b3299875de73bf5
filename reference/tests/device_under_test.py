"""A device under test, with short ways to send it the events of a pairing."""

from ..generator import seeker_blocks
from ..rules.events import (
    AccountKeyWrite,
    ConfirmationNeeded,
    KeyBasedWrite,
    NameWrite,
    PairingEnded,
    PairingMode,
    PairingStarted,
    PasskeyWrite,
    PowerOn,
)
from ..rules.model import step
from ..rules.name_packet import seal
from ..rules.stored_list import pack

PUBLIC = bytes.fromhex("A0A1A2A3A4A5")
BLE = bytes.fromhex("B0B1B2B3B4B5")
MODEL = bytes.fromhex("123456")
FILTER_SALT = bytes.fromhex("C7C8")
SEEKER = bytes.fromhex("D0D1D2D3D4D5")
RESPONSE_SALT = bytes(range(0x70, 0x79))
PASSKEY_SALT = bytes(range(0x50, 0x5C))
SECRET = bytes(range(32))
# The key of this secret is an account key: it begins with 0x04.
SECRET_OF_ACCOUNT_KEY = bytes(range(0x11, 0x31))
OUT = bytes(range(0xE0, 0xF4))
NONCE = bytes(range(0x40, 0x48))
PACKET = bytes(range(0x90, 0xE8))
NAME = "Kopfhörer".encode()


def account_key(i):
    """The i-th account key of the tests."""
    return b"\x04" + bytes([i]) * 15


def power_on(keys=(), name=NAME):
    """Power-on with these account keys and this name."""
    return PowerOn(pack(keys), name, PUBLIC, BLE, MODEL, FILTER_SALT)


class DeviceUnderTest:
    """Keeps the state and the last reply; every method sends one event."""

    def __init__(self, keys=(), name=NAME):
        self.device = None
        self.salts = 0
        self.send(power_on(keys, name))

    def send(self, event):
        """Send the event, keep the next state, give back the answer number."""
        self.device, self.reply = step(self.device, event)
        return self.reply.answer

    def fresh_salt(self, size=8):
        """A salt that was not used before on this device."""
        self.salts += 1
        return self.salts.to_bytes(size, "big")

    def request(self, key, link=0, clock=0, out=OUT, packet=PACKET, nonce=NONCE, **parts):
        """A 16-byte key-based write with this account key."""
        block = self.request_block(key, **parts)
        return self.raw_request(block, link, clock, out, packet, nonce)

    def request_block(self, key, flags=0, address=PUBLIC, salt=None, seeker_address=b"", kind=0):
        """The encrypted request; one that names the public address leaves the device ready for the next."""
        salt = self.fresh_salt() if salt is None else salt
        return seeker_blocks.request_block(key, flags, address, salt, seeker_address, kind)

    def public_request(self, link=0, clock=0, accepted=True, key=None, out=OUT, secret=SECRET, **parts):
        """An 80-byte key-based write."""
        block = self.request_block(key or seeker_blocks.session_key(secret), **parts)
        return self.raw_request(block + bytes(64), link, clock, out, accepted=accepted, secret=secret)

    def raw_request(
        self, data, link=0, clock=0, out=OUT, packet=PACKET, nonce=NONCE, accepted=True, secret=SECRET
    ):
        """A key-based write of any bytes."""
        brought = accepted, secret, RESPONSE_SALT, nonce
        return self.send(KeyBasedWrite(link, clock, data, *brought, out, packet))

    def pairing_mode(self, on, clock=0):
        return self.send(PairingMode(on, clock))

    def pairing_started(self, link=0, clock=0, capability=1):
        return self.send(PairingStarted(link, clock, capability))

    def confirmation_needed(self, link=0, clock=0, passkey=123_456):
        return self.send(ConfirmationNeeded(link, clock, passkey))

    def passkey_write(self, key, link=0, clock=0, passkey=123_456, kind=2, out=OUT):
        block = seeker_blocks.passkey_block(key, passkey, bytes(12), kind)
        return self.raw_passkey_write(block, link, clock, out)

    def raw_passkey_write(self, block, link=0, clock=0, out=OUT):
        return self.send(PasskeyWrite(link, clock, block, PASSKEY_SALT, out))

    def pairing_ended(self, link=0, clock=0, success=True):
        return self.send(PairingEnded(link, clock, success))

    def account_key_write(self, key, new, link=0, clock=0):
        block = seeker_blocks.account_key_block(key, new)
        return self.send(AccountKeyWrite(link, clock, block))

    def name_write(self, key, name, link=0, clock=0, nonce=NONCE):
        """A name sealed with this key."""
        return self.raw_name_write(seal(key, nonce, name), link, clock)

    def raw_name_write(self, packet, link=0, clock=0):
        return self.send(NameWrite(link, clock, packet))

    def stage(self, link=0):
        """The stage of the link, or None if it is idle."""
        session = self.device.links[link]
        return session.stage.value if session else None

    def bring_to(self, stage, key, link=0, clock=0, secret=None):
        """Bring the link to the stage by events that are all taken; the request of a secret has 80 bytes."""
        by_secret = {"link": link, "clock": clock, "secret": secret}
        expected = {
            "asked": lambda: self.public_request(**by_secret) if secret else self.request(key, link, clock),
            "pairing": lambda: self.pairing_started(link, clock),
            "confirming": lambda: self.confirmation_needed(link, clock),
            "proved": lambda: self.passkey_write(key, link, clock),
            "paired": lambda: self.pairing_ended(link, clock),
        }
        for name, send in expected.items():
            if send() != 0:
                raise AssertionError(name)
            if name == stage:
                return
