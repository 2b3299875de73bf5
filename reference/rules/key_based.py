"""The key-based write, after the clock step."""

from hashlib import sha256

from .account_keys import used
from .aes import decrypt, encrypt
from .device import Session, Stage, hold
from .events import Named, Reply, plain_reply
from .lent_output import put
from .name_packet import seal

# "The tenth failure gets 7, the next write 5."
MOST_FAILURES = 10
# "The last 16 accepted salts are remembered"
MOST_SALTS = 16

REQUEST = 0x00
RESPONSE = 0x01
BONDING = 0x40
RETROACTIVE = 0x10
NAME_WANTED = 0x20


def key_based_write(device, event):
    """ "then 5, 6, 7, 8 for key-based writes", and of request (vii) "a new answer 16, after 5 and before 6" """
    if device.failures == MOST_FAILURES:
        return device, plain_reply(event, 5)
    # "uncounted, clock step only"
    if device.rotation_awaited:
        return device, plain_reply(event, 16)
    if len(event.data) == 80 and not device.pairing_mode:
        return device, plain_reply(event, 6)
    keys = candidates(device, event)
    found = first_fitting(device, keys, event.data[:16])
    if found is None:
        # "if none fits, the number of candidates"
        return count_failure(device), plain_reply(event, 7, tried=len(keys))
    place, key, request, named = found
    # "two are equal if length and bytes are"
    if salt_of(request) in device.spent:
        return device, plain_reply(event, 8, tried=place)
    return accept(device, event, place, key, request, named)


def candidates(device, event):
    """The keys to try, in order."""
    if len(event.data) == 16:
        # "a 16-byte write never reads it"
        return device.keys
    # "the only candidate key is the first 16 bytes of SHA-256 of the element's secret"
    if event.accepted:
        return (sha256(event.secret).digest()[:16],)
    # "a rejected point gives no candidate"
    return ()


def first_fitting(device, keys, block):
    """The place and the first key that fits, the decrypted request and the address that it names, or None."""
    # "trying stops at the first that fits"; "the place of the fitting key, counted from 1"
    for place, key in enumerate(keys, start=1):
        request = decrypt(key, block)
        named = named_by(device, request)
        if named is not None:
            return place, key, request, named
    return None


def named_by(device, request):
    """The fitting test: "Make it say current BLE address, public address, or neither"; None is neither."""
    # "It fits if the decrypted byte 0 is 0x00 and bytes 2 to 7 equal the current BLE address or the public address."
    if request[0] != REQUEST:
        return None
    # "if both are equal, BLE"
    if request[2:8] == device.ble:
        return Named.BLE
    return Named.PUBLIC if request[2:8] == device.public else None


def salt_of(request):
    """ "bytes 14 to 15 if flags 0x40 or 0x10 is set, else 8 to 15" """
    return request[14:] if request[1] & (BONDING | RETROACTIVE) else request[8:]


def count_failure(device):
    """ "count plus 1, this failure's moment stored" """
    return device.copy(failures=device.failures + 1, failed_at=device.clock)


def accept(device, event, place, key, request, named):
    """ "remember the salt, count becomes 0, K replaces the link's key, stage asked" """
    spent = (device.spent + (salt_of(request),))[-MOST_SALTS:]
    # A use is "being the key of an accepted 16-byte request": 80 bytes use none, even if their K equals a held key.
    keys = used(device.keys, key) if len(event.data) == 16 else device.keys
    # "a request that named the BLE address asks the radio to rotate"
    device = device.copy(keys=keys, spent=spent, failures=0, rotation_awaited=named is Named.BLE)
    device = hold(device, event.link, Session(key, Stage.ASKED, device.clock))
    # "the response is 0x01, public address (6), event salt (9), encrypted with K"
    response = encrypt(key, bytes([RESPONSE]) + device.public + event.salt)
    # "Flag 0x40 also hands out the address in bytes 8 to 13 for bonding."
    bond = request[8:14] if request[1] & BONDING else None
    # "An accepted request with 0x20 hands out the packet's length and writes the packet to a second output"
    packet = seal(key, event.nonce, device.name) if request[1] & NAME_WANTED else b""
    outputs = put(response, event.out), len(packet), put(packet, event.packet)
    # "The accepted answer hands this on"
    return device, Reply(0, place, bond, None, *outputs, named)
