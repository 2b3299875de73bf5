"""The key-based write: the address that an accepted request names, and the wait for a rotation."""

REFUSED = "        return device, plain_reply(event, 16)\n"
CHECK_16 = '    # "uncounted, clock step only"\n    if device.rotation_awaited:\n' + REFUSED
CHECK_6 = (
    "    if len(event.data) == 80 and not device.pairing_mode:\n        return device, plain_reply(event, 6)\n"
)
MODE_OFF = "        return device, plain_reply(event, 6)\n"
FAILED = "        return count_failure(device), plain_reply(event, 7, tried=len(keys))\n"
SPENT = "        return device, plain_reply(event, 8, tried=place)\n"
UP_TO_7 = (
    "    keys = candidates(device, event)\n"
    "    found = first_fitting(device, keys, event.data[:16])\n"
    "    if found is None:\n"
    '        # "if none fits, the number of candidates"\n' + FAILED
)
UP_TO_8 = (
    "    place, key, request, named = found\n"
    '    # "two are equal if length and bytes are"\n'
    "    if salt_of(request) in device.spent:\n" + SPENT
)
BEGUN = "rotation_awaited=named is Named.BLE"
REPLY = "    return device, Reply(0, place, bond, None, *outputs, named)\n"
BLE = "    if request[2:8] == device.ble:\n        return Named.BLE\n"
PUBLIC = "    return Named.PUBLIC if request[2:8] == device.public else None\n"
# What a request that gets 16 would have been without the wait.
OTHERWISE = "        found = first_fitting(device, candidates(device, event), event.data[:16])\n"

# Requests that name the BLE address and begin no wait.
EXCEPTIONS = {
    "a request of 16 bytes": "len(event.data) == 16",
    "a request of 80 bytes": "len(event.data) == 80",
    "a request in pairing mode": "device.pairing_mode",
    "a request where both addresses are equal": "device.ble == device.public",
    "a request with flag 0x40": "request[1] & BONDING",
    "a request with flag 0x10": "request[1] & RETROACTIVE",
    "a request with flag 0x20": "request[1] & NAME_WANTED",
    "a request after a failure": "device.failures",
    "a request on a link that holds a K": "device.links[event.link]",
    "a request while another link holds a K": "any(s and n != event.link for n, s in enumerate(device.links))",
    "a request by a key that is not first": "place > 1",
}
# Requests that do not wait.
NOT_WAITING = {
    "16 bytes do not wait": "len(event.data) == 16",
    "80 bytes do not wait": "len(event.data) == 80",
    "80 bytes do not wait in pairing mode": "len(event.data) == 80 and device.pairing_mode",
    "a link with a K does not wait": "device.links[event.link]",
    "a link without a K does not wait": "not device.links[event.link]",
    "a device without a K does not wait": "not any(device.links)",
    "a device without keys does not wait": "not device.keys",
}


def refused(change):
    """16 changes the device."""
    return REFUSED.replace("return device,", f"return {change},")


def if_found(change):
    """16 changes the device where a key would fit."""
    return OTHERWISE + refused(f"device if found is None else {change}")


EDITS = (
    ("16 is left out", CHECK_16, ""),
    ("16 comes after 6", CHECK_16 + CHECK_6, CHECK_6 + CHECK_16),
    ("16 comes after 7", CHECK_16 + CHECK_6 + UP_TO_7, CHECK_6 + UP_TO_7 + CHECK_16),
    ("16 comes after 8", CHECK_16 + CHECK_6 + UP_TO_7 + UP_TO_8, CHECK_6 + UP_TO_7 + UP_TO_8 + CHECK_16),
    *(
        (words, CHECK_16, CHECK_16.replace("rotation_awaited:", f"rotation_awaited and not ({if_so}):"))
        for words, if_so in NOT_WAITING.items()
    ),
    *((f"16 is told as {answer}", REFUSED, REFUSED.replace("16", str(answer))) for answer in (4, 5, 6, 7, 8)),
    ("16 tells one key tried", REFUSED, REFUSED.replace("16)", "16, tried=1)")),
    ("16 tells the number of keys", REFUSED, REFUSED.replace("16)", "16, tried=len(device.keys))")),
    ("16 counts as a failure", REFUSED, refused("count_failure(device)")),
    ("16 drops K", REFUSED, refused("hold(device, event.link, None)")),
    ("16 lifts the wait", REFUSED, refused("device.copy(rotation_awaited=False)")),
    (
        "16 for a request that no key fits counts as a failure",
        REFUSED,
        OTHERWISE + refused("count_failure(device) if found is None else device"),
    ),
    (
        "16 remembers the salt",
        REFUSED,
        if_found("device.copy(spent=(device.spent + (salt_of(found[2]),))[-MOST_SALTS:])"),
    ),
    (
        "16 uses the key that would fit",
        REFUSED,
        if_found("device.copy(keys=used(device.keys, found[1]) if found[1] in device.keys else device.keys)"),
    ),
    (
        "16 replaces K",
        REFUSED,
        if_found("hold(device, event.link, Session(found[1], Stage.ASKED, device.clock))"),
    ),
    (
        "16 tells the place of the key that would fit",
        REFUSED,
        OTHERWISE + REFUSED.replace("16)", "16, tried=0 if found is None else found[0])"),
    ),
    (
        "16 names the address",
        REFUSED,
        OTHERWISE + "        named = None if found is None else found[3]\n"
        "        return device, Reply(16, out=event.out, packet=event.packet, named=named)\n",
    ),
    (
        "16 hands out the address for bonding",
        REFUSED,
        OTHERWISE + "        bond = found[2][8:14] if found and found[2][1] & BONDING else None\n"
        "        return device, Reply(16, bond=bond, out=event.out, packet=event.packet)\n",
    ),
    (
        "16 writes a response",
        REFUSED,
        OTHERWISE + "        raw = bytes([RESPONSE]) + device.public + event.salt\n"
        "        out = put(encrypt(found[1], raw), event.out) if found else event.out\n"
        "        return device, Reply(16, out=out, packet=event.packet)\n",
    ),
    ("no request begins a wait", BEGUN, "rotation_awaited=False"),
    ("every accepted request begins a wait", BEGUN, "rotation_awaited=True"),
    ("the public address begins a wait, and not the BLE address", BEGUN, BEGUN.replace("BLE", "PUBLIC")),
    *(
        (f"{words} begins no wait", BEGUN, BEGUN.replace("named is Named.BLE", f"named is Named.BLE and not ({if_so})"))
        for words, if_so in EXCEPTIONS.items()
    ),
    ("6 begins a wait", MODE_OFF, MODE_OFF.replace("device,", "device.copy(rotation_awaited=True),", 1)),
    ("7 begins a wait", FAILED, FAILED.replace("(device)", "(device.copy(rotation_awaited=True))")),
    ("8 begins a wait", SPENT, SPENT.replace("device,", "device.copy(rotation_awaited=True),", 1)),
    (
        "8 begins a wait if the BLE address is named",
        SPENT,
        SPENT.replace("device,", "device.copy(rotation_awaited=named is Named.BLE),", 1),
    ),
    (
        "8 names the address",
        SPENT,
        "        return device, Reply(8, place, out=event.out, packet=event.packet, named=named)\n",
    ),
    ("no address is named", REPLY, REPLY.replace(", named)", ")")),
    ("the BLE address is always named", REPLY, REPLY.replace(", named)", ", Named.BLE)")),
    ("the public address is always named", REPLY, REPLY.replace(", named)", ", Named.PUBLIC)")),
    (
        "the named address is exchanged",
        REPLY,
        REPLY.replace(", named)", ", Named.PUBLIC if named is Named.BLE else Named.BLE)"),
    ),
    ("the public address is not named", REPLY, REPLY.replace("named)", "named if named is Named.BLE else None)")),
    (
        "equal addresses are named public, and the wait begins",
        REPLY,
        REPLY.replace("named)", "Named.PUBLIC if device.ble == device.public else named)"),
    ),
    ("80 bytes name no address", REPLY, REPLY.replace("named)", "named if len(event.data) == 16 else None)")),
    (
        "equal addresses count as public",
        BLE + PUBLIC,
        "    if request[2:8] == device.public:\n        return Named.PUBLIC\n"
        "    return Named.BLE if request[2:8] == device.ble else None\n",
    ),
)
