"""The advertising payload of document 01, with the filter that the device keeps: request (v) of document 02."""

from hashlib import sha256

# "0x16, 0x2C, 0xFE, then service data"
SERVICE_DATA = b"\x16\x2c\xfe"
# "0x21; the 2 salt bytes"
SALT_HEADER = 0x21


def filter_size(count):
    """ "s = 6n div 5, plus 3." """
    return 6 * count // 5 + 3


def filter_place(x, size):
    """ "M = X mod 8s; each sets bit M mod 8 of byte M div 8, bit 0 lowest." """
    m = x % (8 * size)
    return m // 8, m % 8


def account_key_filter(keys, salt):
    """The filter of these keys, all with the same salt."""
    size = filter_size(len(keys))
    # "The filter starts as zeros."
    filter_bytes = bytearray(size)
    for key in keys:
        digest = sha256(key + salt).digest()
        # "cut into eight big-endian numbers X"
        for i in range(0, 32, 4):
            byte, bit = filter_place(int.from_bytes(digest[i : i + 4], "big"), size)
            filter_bytes[byte] |= 1 << bit
    return bytes(filter_bytes)


def account_data(keys, kept_filter, salt, hide):
    """The service data with pairing mode off."""
    # "Off, empty list: 00 00."
    if not keys:
        return b"\x00\x00"
    # "header (s times 16, plus 0 to show or 2 to hide the prompt, as the asker says)"
    header = filter_size(len(keys)) * 16 + (2 if hide else 0)
    # "the payload copies it in after its header byte and no longer builds it"
    return bytes([0x00, header]) + kept_filter + bytes([SALT_HEADER]) + salt


def advertisement(device, hide):
    """The whole AD structure."""
    # "Pairing mode on: 3-byte model ID."
    if device.pairing_mode:
        data = device.model
    else:
        data = account_data(device.keys, device.filter, device.salt, hide)
    # "length byte (of what follows)"
    follows = SERVICE_DATA + data
    return bytes([len(follows)]) + follows
