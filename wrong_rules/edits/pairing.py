"""Pairing started, confirmation needed, passkey write, pairing ended, account key write."""

REFUSED = "    return drop(device, event.link), plain_reply(event, answer)\n"
STAGE = "    return None if session.stage is needed else 10\n"
ENTERED = "    session = Session(key, stage, device.clock, passkey)\n"
CAPABILITY = "capability == NO_INPUT_NO_OUTPUT or capability > KEYBOARD_DISPLAY"
LENGTH = "    if len(block) != 16:\n        return None\n"
FIRST_BYTE = "    return plain if plain[0] == first else None\n"
EQUAL = 'int.from_bytes(plain[1:4], "big") == session.passkey'
RAW = 'bytes([PROVIDER_PASSKEY]) + session.passkey.to_bytes(3, "big") + event.salt'
PROVED = "        device, _ = enter(device, event, Stage.PROVED)\n"
UNEQUAL = "        device = drop(device, event.link)\n    return device, Reply"
FAILURE = (
    "    if answer != 9 and not event.success:\n"
    "        return drop(device, event.link), plain_reply(event, 0)\n"
)
SUCCESS = "    return enter(device, event, Stage.PAIRED)\n"
CONFIRMING = "    answer = stage_refusal(device, event.link, Stage.CONFIRMING)\n"
PAIRED = "    answer = stage_refusal(device, event.link, Stage.PAIRED)\n"
BAD_KEY = "        return refuse(device, event, 12)\n    # \"K is dropped"
BAD_PASSKEY = "        return refuse(device, event, 12)\n    # \"bytes 1 to 3"
TAKEN = "    device = drop(device, event.link)\n    # \"A use is"
NEW_KEY = "    if key not in device.keys:\n"
BUILT = "        kept = account_key_filter(keys, device.salt)\n"
STARTED = "    return enter(device, event, Stage.PAIRING)\n"
LIFTED = "device.copy(rotation_awaited=False)"


def keeps(answer):
    """This answer leaves the link's K."""
    dropped = "drop(device, event.link)"
    return REFUSED.replace(dropped, f"(device if answer == {answer} else {dropped})")


def also(needed, other):
    """An event that needs one stage is taken in another one too."""
    return f"    if needed is Stage.{needed} and session.stage is Stage.{other}:\n        return None\n" + STAGE


def uses_k(indented):
    """K of the link moves to the end of the list, if it is held."""
    moved = "tuple(sorted(device.keys, key=lambda k: k == device.links[event.link].key))"
    return f"{indented}device = device.copy(keys={moved})\n"


def length_first(line, held):
    """The block's length is looked at first: also on an idle link, or only where a K is held."""
    return line + f"    answer = 12 if {held} and len(event.block) != 16 else answer\n"


EDITS = (
    ("an idle link gets 10", "        return 9\n", "        return 10\n"),
    ("10 keeps K", REFUSED, keeps(10)),
    ("11 keeps K", REFUSED, keeps(11)),
    ("12 keeps K", REFUSED, keeps(12)),
    (
        "a refusal drops every K",
        REFUSED,
        "    return device.copy(links=(None,) * 8), plain_reply(event, answer)\n",
    ),
    ("a refusal drops K of link 0", REFUSED, REFUSED.replace("event.link", "0")),
    ("10 is given as 9", STAGE, STAGE.replace("10", "9")),
    ("10 is left out", STAGE, "    return None\n"),
    ("pairing started is taken in pairing", STAGE, also("ASKED", "PAIRING")),
    ("confirmation needed is taken in asked", STAGE, also("PAIRING", "ASKED")),
    ("confirmation needed is taken in confirming", STAGE, also("PAIRING", "CONFIRMING")),
    ("a passkey write is taken in proved", STAGE, also("CONFIRMING", "PROVED")),
    ("a passkey write is taken in pairing", STAGE, also("CONFIRMING", "PAIRING")),
    ("pairing ended is taken in confirming", STAGE, also("PROVED", "CONFIRMING")),
    ("pairing ended is taken in paired", STAGE, also("PROVED", "PAIRED")),
    ("an account key write is taken in proved", STAGE, also("PAIRED", "PROVED")),
    ("an account key write is taken in asked", STAGE, also("PAIRED", "ASKED")),
    (
        "a link that goes on takes K of link 0",
        "    key = device.links[event.link].key\n",
        "    key = (device.links[0] or device.links[event.link]).key\n",
    ),
    (
        "a stage's time begins with the request",
        ENTERED,
        ENTERED.replace("device.clock", "device.links[event.link].began"),
    ),
    ("capability 3 is taken", CAPABILITY, "capability > KEYBOARD_DISPLAY"),
    ("capability 4 is refused", CAPABILITY, "capability >= NO_INPUT_NO_OUTPUT"),
    (
        "capability 5 is taken",
        CAPABILITY,
        "capability == NO_INPUT_NO_OUTPUT or capability > KEYBOARD_DISPLAY + 1",
    ),
    ("capabilities above 4 are taken", CAPABILITY, "capability == NO_INPUT_NO_OUTPUT"),
    ("capability 0 is refused", CAPABILITY, "capability in (0, 3) or capability > KEYBOARD_DISPLAY"),
    ("capability 2 is refused", CAPABILITY, "capability in (2, 3) or capability > KEYBOARD_DISPLAY"),
    ("11 comes before 9 and 10", "if answer is None and refused:", "if refused:"),
    ("11 comes before 10", "if answer is None and refused:", "if answer != 9 and refused:"),
    (
        "pairing started goes to confirming",
        "enter(device, event, Stage.PAIRING)",
        "enter(device, event, Stage.CONFIRMING)",
    ),
    ("confirmation needed forgets our passkey", "Stage.CONFIRMING, event.passkey)", "Stage.CONFIRMING, 0)"),
    (
        "a block may be longer than 16 bytes",
        LENGTH,
        LENGTH.replace("!= 16", "< 16").replace("return None\n", "return None\n    block = block[:16]\n"),
    ),
    ("a block may be shorter than 16 bytes", LENGTH, "    block = block.ljust(16, bytes(1))\n" + LENGTH),
    ("the first byte of a block is not looked at", FIRST_BYTE, "    return plain\n"),
    ("12 comes before 10 in a passkey write", CONFIRMING, length_first(CONFIRMING, "device.links[event.link]")),
    ("12 comes before 9 in a passkey write", CONFIRMING, length_first(CONFIRMING, "True")),
    ("12 comes before 10 in an account key write", PAIRED, length_first(PAIRED, "device.links[event.link]")),
    ("12 comes before 9 in an account key write", PAIRED, length_first(PAIRED, "True")),
    ("a seeker's passkey begins with 0x03", "SEEKER_PASSKEY = 0x02", "SEEKER_PASSKEY = 0x03"),
    ("the passkey is read little-endian", EQUAL, EQUAL.replace('"big"', '"little"')),
    ("the passkey is bytes 1 to 2", EQUAL, 'int.from_bytes(plain[1:3], "big") == session.passkey >> 8'),
    ("the passkey is bytes 2 to 3", EQUAL, 'int.from_bytes(plain[2:4], "big") == session.passkey & 0xFFFF'),
    ("every passkey is equal", EQUAL, "True"),
    ("no passkey is equal", EQUAL, "False"),
    (
        "a seeker's passkey above 999,999 gets 12",
        EQUAL,
        EQUAL + '\n    if int.from_bytes(plain[1:4], "big") > 999_999:\n        return refuse(device, event, 12)',
    ),
    ("the response's passkey is little-endian", RAW, RAW.replace('"big"', '"little"')),
    ("the passkey response begins with 0x02", "PROVIDER_PASSKEY = 0x03", "PROVIDER_PASSKEY = 0x02"),
    ("the passkey response is not encrypted", "encrypt(session.key, raw)", "raw"),
    ("the passkey response has zeros for its salt", RAW, RAW.replace("event.salt", "bytes(12)")),
    (
        "the response tells the seeker's passkey",
        RAW,
        RAW.replace("session.passkey.to_bytes(3, \"big\")", "decrypt(session.key, event.block)[1:4]"),
    ),
    ("an equal passkey goes to paired", PROVED, PROVED.replace("PROVED", "PAIRED")),
    ("an equal passkey stays in confirming", PROVED, "        pass\n"),
    ("an unequal passkey stays in confirming", UNEQUAL, UNEQUAL.replace("drop(device, event.link)", "device")),
    (
        "an unequal passkey goes to proved",
        UNEQUAL,
        UNEQUAL.replace("drop(device, event.link)", "enter(device, event, Stage.PROVED)[0]"),
    ),
    (
        "an unequal passkey drops every K",
        UNEQUAL,
        UNEQUAL.replace("drop(device, event.link)", "device.copy(links=(None,) * 8)"),
    ),
    ("the reply is turned round", "Reply(0, confirm=equal, out=out)", "Reply(0, confirm=not equal, out=out)"),
    (
        "an unequal passkey gets 12",
        "Reply(0, confirm=equal, out=out)",
        "Reply(0 if equal else 12, confirm=equal, out=out)",
    ),
    (
        "an unequal passkey gets no response",
        "Reply(0, confirm=equal, out=out)",
        "Reply(0, confirm=equal, out=out if equal else event.out)",
    ),
    (
        "no reply to an equal passkey",
        "Reply(0, confirm=equal, out=out)",
        "Reply(0, confirm=None if equal else False, out=out)",
    ),
    (
        "a bad passkey block keeps K",
        BAD_PASSKEY,
        BAD_PASSKEY.replace("refuse(device, event, 12)", "device, plain_reply(event, 12)"),
    ),
    ("pairing failure on an idle link gets 0", FAILURE, FAILURE.replace("answer != 9 and ", "")),
    ("pairing failure is refused out of proved", FAILURE, FAILURE.replace("answer != 9", "answer is None")),
    ("pairing failure keeps K", FAILURE, FAILURE.replace("drop(device, event.link)", "device")),
    (
        "pairing failure drops every K",
        FAILURE,
        FAILURE.replace("drop(device, event.link)", "device.copy(links=(None,) * 8)"),
    ),
    ("pairing failure is taken as success", FAILURE, ""),
    (
        "pairing success drops K",
        SUCCESS,
        "    return drop(device, event.link), plain_reply(event, 0)\n",
    ),
    *(
        (f"{words} lifts the wait for a rotation", line, line.replace("(device, event", f"({LIFTED}, event"))
        for words, line in (
            ("pairing started", STARTED),
            ("an equal passkey", PROVED),
            ("pairing failure", FAILURE),
            ("pairing success", SUCCESS),
            ("a taken account key write", TAKEN),
        )
    ),
    ("an account key begins with 0x05", "ACCOUNT_KEY = 0x04", "ACCOUNT_KEY = 0x05"),
    (
        "a bad account key block keeps K",
        BAD_KEY,
        BAD_KEY.replace("refuse(device, event, 12)", "device, plain_reply(event, 12)"),
    ),
    ("a taken account key write keeps K", TAKEN, TAKEN.replace("drop(device, event.link)", "device")),
    (
        "a taken account key write drops every K",
        TAKEN,
        TAKEN.replace("drop(device, event.link)", "device.copy(links=(None,) * 8)"),
    ),
    (
        "a held account key keeps K",
        TAKEN,
        TAKEN.replace("drop(device, event.link)", "device if key in device.keys else drop(device, event.link)"),
    ),
    ("an account key write uses K too", TAKEN, uses_k("    ") + TAKEN),
    ("an equal passkey uses K", PROVED, uses_k("        ") + PROVED),
    ("pairing success uses K", SUCCESS, uses_k("    ") + SUCCESS),
    ("a refused account key write uses K", BAD_KEY, uses_k("        ") + BAD_KEY),
    ("a new key leaves the filter", NEW_KEY, "    if False:\n"),
    ("a key that evicts leaves the filter", NEW_KEY, NEW_KEY.replace(":\n", " and len(device.keys) < 10:\n")),
    ("a new key in pairing mode leaves the filter", NEW_KEY, NEW_KEY.replace(":\n", " and not device.pairing_mode:\n")),
    ("the first key leaves the filter", NEW_KEY, NEW_KEY.replace(":\n", " and device.keys:\n")),
    (
        "a held key is given a filter of its own",
        NEW_KEY,
        "    if key in device.keys:\n        kept = account_key_filter((key,), device.salt)\n" + NEW_KEY,
    ),
    ("the filter is built without the new key", BUILT, BUILT.replace("(keys,", "(device.keys,")),
    ("the filter is built of the new key alone", BUILT, BUILT.replace("(keys,", "((key,),")),
    (
        "the bits of the evicted key stay",
        BUILT,
        BUILT + "        if len(device.keys) == 10:\n"
        "            kept = bytes(a | b for a, b in zip(device.filter, kept))\n",
    ),
    (
        "the account key is stored as it was written",
        "with_key(device.keys, key)",
        "with_key(device.keys, event.block)",
    ),
)
