"""The packet of the personalized name: counter mode and HMAC-SHA256 as source document 004 gives them."""

from hashlib import sha256

from .aes import encrypt

BLOCK = 16
TAG = 8
NONCE = 8
# SHA-256 hashes blocks of 64 bytes; the HMAC's key is filled up to one of them.
HASH_BLOCK = 64
INNER_PADDING = 0x36
OUTER_PADDING = 0x5C


def xor(first, second):
    """As many bytes as the shorter one has."""
    return bytes(a ^ b for a, b in zip(first, second))


def counter_mode(key, nonce, data):
    """ "encryptedBlock[i] = clearBlock[i] ^ AES(key, concat((uint8) i, 0x00000000000000, nonce))" """
    done = b""
    for i in range(0, len(data), BLOCK):
        # "(block number in one byte, seven zero bytes, nonce)"; the last block may be shorter than 16 bytes
        counter = bytes([i // BLOCK]) + bytes(7) + nonce
        done += xor(data[i : i + BLOCK], encrypt(key, counter))
    return done


def hmac_sha256(key, message):
    """ "sha256(concat((K ^ opad), sha256(concat((K ^ ipad), concat(nonce, encrypted_data)))))" """
    # "The HMAC key is K and 48 zero bytes."
    filled = key + bytes(HASH_BLOCK - len(key))
    inner = xor(filled, bytes([INNER_PADDING]) * HASH_BLOCK)
    outer = xor(filled, bytes([OUTER_PADDING]) * HASH_BLOCK)
    return sha256(outer + sha256(inner + message).digest()).digest()


def tag_of(key, nonce, encrypted):
    """ "the first 8 bytes of HMAC-SHA256 over nonce and ciphertext" """
    return hmac_sha256(key, nonce + encrypted)[:TAG]


def seal(key, nonce, name):
    """The packet: tag, nonce, "then the data under the counter mode"."""
    encrypted = counter_mode(key, nonce, name)
    return tag_of(key, nonce, encrypted) + nonce + encrypted


def open_packet(key, packet):
    """What was sealed in the packet, or None if its tag is wrong."""
    tag, nonce, encrypted = packet[:TAG], packet[TAG : TAG + NONCE], packet[TAG + NONCE :]
    if tag != tag_of(key, nonce, encrypted):
        return None
    # Counter mode undoes itself.
    return counter_mode(key, nonce, encrypted)
