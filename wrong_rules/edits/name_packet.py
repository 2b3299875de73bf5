"""The packet: counter mode, HMAC, tag."""

COUNTER = "        counter = bytes([i // BLOCK]) + bytes(7) + nonce\n"
STREAM = "        done += xor(data[i : i + BLOCK], encrypt(key, counter))\n"
FILLED = "    filled = key + bytes(HASH_BLOCK - len(key))\n"
HASHED = "    return sha256(outer + sha256(inner + message).digest()).digest()\n"
TAGGED = "    return hmac_sha256(key, nonce + encrypted)[:TAG]\n"
SEALED = "    return tag_of(key, nonce, encrypted) + nonce + encrypted\n"
CHECKED = "    if tag != tag_of(key, nonce, encrypted):\n"
OPENED = "    return counter_mode(key, nonce, encrypted)\n"


def compared(part):
    """Only this part of the tags is compared."""
    return f"    if tag{part} != tag_of(key, nonce, encrypted){part}:\n"


def without(place):
    """One byte of the tags is not compared."""
    expected = "tag_of(key, nonce, encrypted)"
    return f"    if tag[:{place}] + tag[{place + 1}:] != {expected}[:{place}] + {expected}[{place + 1}:]:\n"


EDITS = (
    ("blocks are counted from 1", COUNTER, COUNTER.replace("i // BLOCK", "i // BLOCK + 1")),
    ("every block has the number 0", COUNTER, COUNTER.replace("i // BLOCK", "0")),
    ("the block number counts bytes", COUNTER, COUNTER.replace("i // BLOCK", "i")),
    ("the block number is the eighth byte", COUNTER, "        counter = bytes(7) + bytes([i // BLOCK]) + nonce\n"),
    ("the block number stands last", COUNTER, "        counter = nonce + bytes(7) + bytes([i // BLOCK])\n"),
    (
        "the nonce stands behind the block number",
        COUNTER,
        "        counter = bytes([i // BLOCK]) + nonce + bytes(7)\n",
    ),
    ("the nonce is in reverse", COUNTER, COUNTER.replace("nonce", "nonce[::-1]")),
    ("the nonce is left out of the counter", COUNTER, COUNTER.replace("nonce", "bytes(8)")),
    ("a counter is decrypted", "from .aes import encrypt\n", "from .aes import decrypt as encrypt\n"),
    ("the name is sent in clear", STREAM, "        done += data[i : i + BLOCK]\n"),
    (
        "the name is filled up to whole blocks",
        STREAM,
        STREAM.replace("data[i : i + BLOCK]", "data[i : i + BLOCK].ljust(BLOCK, bytes(1))"),
    ),
    (
        "a last block below 16 bytes is left out",
        "range(0, len(data), BLOCK)",
        "range(0, len(data) - BLOCK + 1, BLOCK)",
    ),
    (
        "a last block of one byte is left out",
        "range(0, len(data), BLOCK)",
        "range(0, max(1, len(data) - 1), BLOCK)",
    ),
    ("three blocks at most", "range(0, len(data), BLOCK)", "range(0, min(48, len(data)), BLOCK)"),
    (
        "a short block takes the end of the stream",
        STREAM,
        "        done += xor(data[i : i + BLOCK], encrypt(key, counter)[-len(data[i : i + BLOCK]) :])\n",
    ),
    ("the HMAC's key has its zeros in front", FILLED, "    filled = bytes(HASH_BLOCK - len(key)) + key\n"),
    ("the HMAC's key is K four times", FILLED, "    filled = key * 4\n"),
    ("the HMAC's key is hashed first", FILLED, "    filled = sha256(key).digest() + bytes(32)\n"),
    ("the HMAC's block has 32 bytes", "HASH_BLOCK = 64", "HASH_BLOCK = 32"),
    ("the inner padding is 0x5C", "INNER_PADDING = 0x36", "INNER_PADDING = 0x5C"),
    ("the outer padding is 0x36", "OUTER_PADDING = 0x5C", "OUTER_PADDING = 0x36"),
    (
        "the paddings are exchanged",
        "    inner = xor(filled, bytes([INNER_PADDING]) * HASH_BLOCK)\n"
        "    outer = xor(filled, bytes([OUTER_PADDING]) * HASH_BLOCK)\n",
        "    outer = xor(filled, bytes([INNER_PADDING]) * HASH_BLOCK)\n"
        "    inner = xor(filled, bytes([OUTER_PADDING]) * HASH_BLOCK)\n",
    ),
    ("the HMAC has no outer hash", HASHED, "    return sha256(inner + message).digest()\n"),
    ("the tag is a hash of K and the message", HASHED, "    return sha256(key + message).digest()\n"),
    ("the nonce is left out of the HMAC", TAGGED, TAGGED.replace("nonce + ", "")),
    ("the ciphertext is left out of the HMAC", TAGGED, TAGGED.replace(" + encrypted", "")),
    ("the HMAC is of the first block alone", TAGGED, TAGGED.replace("encrypted)", "encrypted[:BLOCK])")),
    ("the HMAC has the ciphertext before the nonce", TAGGED, TAGGED.replace("nonce + encrypted", "encrypted + nonce")),
    (
        "the HMAC is of the name in clear",
        TAGGED,
        TAGGED.replace("nonce + encrypted", "nonce + counter_mode(key, nonce, encrypted)"),
    ),
    ("the tag is the last 8 bytes", TAGGED, TAGGED.replace("[:TAG]", "[-TAG:]")),
    ("the tag is in reverse", TAGGED, TAGGED.replace("[:TAG]", "[:TAG][::-1]")),
    ("the tag has 7 bytes", "TAG = 8\n", "TAG = 7\n"),
    ("the tag has 16 bytes", "TAG = 8\n", "TAG = 16\n"),
    ("the packet has its nonce first", SEALED, "    return nonce + tag_of(key, nonce, encrypted) + encrypted\n"),
    ("the packet has its tag last", SEALED, "    return nonce + encrypted + tag_of(key, nonce, encrypted)\n"),
    ("the packet has no nonce", SEALED, "    return tag_of(key, nonce, encrypted) + bytes(8) + encrypted\n"),
    ("the packet of an empty name has no tag", SEALED, SEALED.replace("return ", "return nonce if not name else ")),
    ("the tag is not compared", CHECKED, "    if False:\n"),
    ("the tag of an empty name is not compared", CHECKED, CHECKED.replace("if ", "if encrypted and ")),
    ("the first four bytes of the tag are compared", CHECKED, compared("[:4]")),
    ("the tag is compared on 7 bytes", CHECKED, compared("[:7]")),
    ("the tag is compared from its second byte on", CHECKED, compared("[1:]")),
    *((f"byte {place} of the tag is not compared", CHECKED, without(place)) for place in range(1, 7)),
    (
        "a wrong tag is one that differs in every byte",
        CHECKED,
        "    if all(a != b for a, b in zip(tag, tag_of(key, nonce, encrypted))):\n",
    ),
    ("zeros are a right tag", CHECKED, CHECKED.replace("if ", "if any(tag) and ")),
    ("what comes is taken as it is", OPENED, "    return encrypted\n"),
    (
        "what comes is decrypted from the second block on",
        OPENED,
        "    return encrypted[:BLOCK] + counter_mode(key, nonce, encrypted)[BLOCK:]\n",
    ),
)
