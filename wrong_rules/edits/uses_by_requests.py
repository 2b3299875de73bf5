"""The key-based write: which account key a request uses."""

USED = "    keys = used(device.keys, key) if len(event.data) == 16 else device.keys\n"
REPLY = "    return device, Reply(0, place, bond, None, *outputs, named)\n"
LOCKED = "        return device, plain_reply(event, 5)\n"
MODE_OFF = "        return device, plain_reply(event, 6)\n"
FAILED = "        return count_failure(device), plain_reply(event, 7, tried=len(keys))\n"
SPENT = "        return device, plain_reply(event, 8, tried=place)\n"
IF_HELD = "used(device.keys, key) if key in device.keys else device.keys"
FIRST_USED = "device.copy(keys=device.keys[1:] + device.keys[:1])"

# Accepted requests of 16 bytes that use no key.
EXCEPTIONS = {
    "a request in pairing mode": "device.pairing_mode",
    "a request by the first key": "place == 1",
    "a request by the fourth key": "place == 4",
    "a request by the ninth key": "place == 9",
    "a request by a key of a list that is not full": "len(device.keys) < 10",
    "a request by a key that is K on another link": "any(s and s.key == key for s in device.links[: event.link])",
    "a request on a link that holds a K": "device.links[event.link]",
    "a request that names the public address": "named is Named.PUBLIC",
    "a request that names the BLE address": "named is Named.BLE",
    "a request with flag 0x40": "request[1] & BONDING",
    "a request with flag 0x10": "request[1] & RETROACTIVE",
    "a request with flag 0x20": "request[1] & NAME_WANTED",
    "a request after a failure": "device.failures",
}


def uses(keys):
    """16 bytes make the list this one."""
    return USED.replace("used(device.keys, key)", keys)


def refused(line, change):
    """A refusal changes the device."""
    return line.replace("return device,", f"return {change},")


EDITS = (
    ("an accepted request uses no key", USED, uses("device.keys")),
    ("an accepted request uses the first key", USED, uses("used(device.keys, device.keys[0])")),
    ("an accepted request moves its key to the front", USED, uses("(key,) + used(device.keys, key)[:-1]")),
    ("an accepted request removes its key", USED, uses("used(device.keys, key)[:-1]")),
    *(
        (f"{words} uses no key", USED, USED.replace("== 16 else", f"== 16 and not ({if_so}) else"))
        for words, if_so in EXCEPTIONS.items()
    ),
    ("80 bytes use K as a key of the list", USED, "    keys = used(device.keys, key)\n"),
    ("80 bytes use K if it is held", USED, f"    keys = {IF_HELD}\n"),
    (
        "80 bytes use K if it is held, and 16 bytes none",
        USED,
        f"    keys = device.keys if len(event.data) == 16 else {IF_HELD}\n",
    ),
    ("80 bytes use the first key", USED, USED.replace("else device.keys", "else device.keys[1:] + device.keys[:1]")),
    (
        "the told place is the one after the move",
        REPLY,
        REPLY.replace("place", "place if len(event.data) == 80 else len(keys)"),
    ),
    (
        "5 uses the key that would fit",
        LOCKED,
        "        _, key, *_ = first_fitting(device, device.keys, event.data[:16]) or (0, None)\n"
        + refused(LOCKED, f"device.copy(keys={IF_HELD})"),
    ),
    (
        "6 uses K if it is held",
        MODE_OFF,
        "        key = sha256(event.secret).digest()[:16]\n" + refused(MODE_OFF, f"device.copy(keys={IF_HELD})"),
    ),
    ("7 uses the first key", FAILED, FAILED.replace("(device)", f"({FIRST_USED})")),
    (
        "7 for another address uses the key",
        FAILED,
        "        typed = [k for k in keys if decrypt(k, event.data[:16])[:2] == bytes(2) and k in device.keys]\n"
        "        device = device.copy(keys=used(device.keys, typed[0])) if typed else device\n" + FAILED,
    ),
    ("8 uses its key", SPENT, refused(SPENT, f"device.copy(keys={IF_HELD})")),
    (
        "8 uses K of 80 bytes if it is held",
        SPENT,
        refused(SPENT, f"device.copy(keys={IF_HELD}) if len(event.data) == 80 else device"),
    ),
)
