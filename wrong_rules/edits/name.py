"""What a name is, and the name write."""

NAMED = "    return len(data) <= MOST_NAME and is_utf8(data)\n"
STAGES = "(Stage.ASKED, Stage.PAIRING, Stage.CONFIRMING, Stage.PROVED)"
IDLE = "    if session is None:\n        return device, plain_reply(event, 9)\n"
STAGE = "    if session.stage not in TAKEN_IN:\n"
PAIRED = "        return drop(device, event.link), plain_reply(event, 10)\n"
OPENED = "    name = open_packet(session.key, event.packet)\n"
WRONG = "    if name is None or not is_name(name):\n"
REFUSED = "        return device, plain_reply(event, 15)\n"
TAKEN = "    return device.copy(name=name), plain_reply(event, 0)\n"
DROPPED = "drop(device, event.link)"
EVERY = "device.copy(links=(None,) * 8)"


def moved(change):
    """The link's session with another moment, stage or passkey."""
    held = "{f: getattr(session, f) for f in ('key', 'stage', 'began', 'passkey')}"
    session = f"type(session)(**({held} | {change}))"
    return f"device.copy(links=device.links[: event.link] + ({session},) + device.links[event.link + 1 :])"


def refused(change):
    """15 changes the device, where it should not."""
    return REFUSED.replace("return device,", f"return {change},")


def taken(change):
    """A name that is taken changes something else as well."""
    return TAKEN.replace("device.copy(name=name)", f"{change}.copy(name=name)")


MOMENT = moved("{'began': device.clock}")
ASKED = moved("{'stage': Stage.ASKED}")
NO_PASSKEY = moved("{'passkey': 0}")

EDITS = (
    ("a name of 64 bytes is refused", "MOST_NAME = 64", "MOST_NAME = 63"),
    ("a name of 65 bytes is taken", "MOST_NAME = 64", "MOST_NAME = 65"),
    ("names of any length are taken", NAMED, "    return is_utf8(data)\n"),
    ("a name's characters are counted", NAMED, NAMED.replace("len(data)", 'len(data.decode(errors="replace"))')),
    ("bytes that are no UTF-8 are a name", NAMED, "    return len(data) <= MOST_NAME\n"),
    ("a name has ASCII letters alone", NAMED, NAMED.replace("is_utf8(data)", "data.isascii()")),
    ("an empty name is none", NAMED, NAMED.replace("len(data) <=", "0 < len(data) <=")),
    ("a name has no zero byte", NAMED, NAMED.replace("is_utf8", "0 not in data and is_utf8")),
    *(
        (f"no name is taken in {stage.lower()}", STAGES, STAGES.replace(f"Stage.{stage}", "None"))
        for stage in ("ASKED", "PAIRING", "CONFIRMING", "PROVED")
    ),
    ("a name is taken in paired", STAGES, STAGES.replace(")", ", Stage.PAIRED)")),
    ("a name write on an idle link gets 10", IDLE, IDLE.replace("9", "10")),
    ("a name write on an idle link gets 15", IDLE, IDLE.replace("9", "15")),
    ("a name write on an idle link drops every K", IDLE, IDLE.replace("return device", f"return {EVERY}")),
    ("a name write in paired gets 9", PAIRED, PAIRED.replace("10", "9")),
    ("a name write in paired gets 15", PAIRED, PAIRED.replace("10", "15")),
    ("a name write in paired keeps K", PAIRED, PAIRED.replace(DROPPED, "device")),
    ("a name write in paired drops every K", PAIRED, PAIRED.replace(DROPPED, EVERY)),
    (
        "a name write in paired takes the name",
        PAIRED,
        PAIRED.replace(DROPPED, DROPPED + ".copy(name=open_packet(session.key, event.packet) or device.name)"),
    ),
    (
        "15 comes before 10",
        STAGE,
        "    if open_packet(session.key, event.packet) is None:\n        return device, plain_reply(event, 15)\n" + STAGE,
    ),
    ("a packet is opened with K of link 0", OPENED, OPENED.replace("session.key", "(device.links[0] or session).key")),
    (
        "a packet is opened with any account key",
        OPENED,
        "    names = (open_packet(key, event.packet) for key in (session.key, *device.keys))\n"
        "    name = next((one for one in names if one is not None), None)\n",
    ),
    ("a wrong tag empties the name", OPENED, OPENED.replace("event.packet)", 'event.packet) or b""')),
    ("the content is not looked at", WRONG, "    if name is None:\n"),
    (
        "ill-formed bytes are left out of the name",
        WRONG,
        '    name = None if name is None else name.decode(errors="ignore").encode()\n' + WRONG,
    ),
    ("a wrong tag and ill-formed bytes get 0", REFUSED, REFUSED.replace("15", "0")),
    ("a wrong tag gets 12", REFUSED, REFUSED.replace("15", "12 if name is None else 15")),
    ("ill-formed bytes get 12", REFUSED, REFUSED.replace("15", "15 if name is None else 12")),
    ("a wrong tag gets 2", REFUSED, REFUSED.replace("15", "2 if name is None else 15")),
    ("ill-formed bytes get 14", REFUSED, REFUSED.replace("15", "15 if name is None else 14")),
    ("15 drops K", REFUSED, refused(DROPPED)),
    ("15 drops K for a wrong tag alone", REFUSED, refused(f"({DROPPED} if name is None else device)")),
    ("15 drops K for ill-formed bytes alone", REFUSED, refused(f"(device if name is None else {DROPPED})")),
    ("15 drops every K", REFUSED, refused(EVERY)),
    ("15 moves the stage's moment", REFUSED, refused(MOMENT)),
    ("15 goes back to asked", REFUSED, refused(ASKED)),
    ("15 forgets our passkey", REFUSED, refused(NO_PASSKEY)),
    ("15 empties the name", REFUSED, refused('device.copy(name=b"")')),
    ("15 takes what was read", REFUSED, refused("device.copy(name=device.name if name is None else name)")),
    ("a taken name write lifts the wait for a rotation", TAKEN, taken("device.copy(rotation_awaited=False)")),
    ("15 counts as a failure", REFUSED, refused("device.copy(failures=min(10, device.failures + 1))")),
    ("15 sets the count to 0", REFUSED, refused("device.copy(failures=0)")),
    ("a taken name is not stored", TAKEN, TAKEN.replace("device.copy(name=name)", "device")),
    ("an empty name leaves the earlier one", TAKEN, TAKEN.replace("name=name", "name=name or device.name")),
    (
        "a taken name uses K",
        TAKEN,
        TAKEN.replace("name=name", "name=name, keys=tuple(sorted(device.keys, key=lambda k: k == session.key))"),
    ),
    ("a taken name stands behind the earlier one", TAKEN, TAKEN.replace("name=name", "name=(device.name + name)[:64]")),
    (
        "the end of a longer earlier name stays",
        TAKEN,
        TAKEN.replace("name=name", "name=name + device.name[len(name) :]"),
    ),
    ("a taken name is cut to 63 bytes", TAKEN, TAKEN.replace("name=name", "name=name[:63]")),
    ("a taken name ends at a zero byte", TAKEN, TAKEN.replace("name=name", "name=name.partition(bytes(1))[0]")),
    ("a taken name drops K", TAKEN, taken(DROPPED)),
    ("a taken name drops every K", TAKEN, taken(EVERY)),
    ("a taken name moves the stage's moment", TAKEN, taken(MOMENT)),
    ("a taken name goes back to asked", TAKEN, taken(ASKED)),
    ("a taken name forgets our passkey", TAKEN, taken(NO_PASSKEY)),
    ("a taken name sets the count to 0", TAKEN, taken("device.copy(failures=0)")),
    ("a taken name ends pairing mode", TAKEN, taken("device.copy(pairing_mode=False)")),
    ("a taken name empties the salts", TAKEN, taken("device.copy(spent=())")),
    (
        "a taken name remembers its nonce as a salt",
        TAKEN,
        taken("device.copy(spent=(device.spent + (event.packet[8:16],))[-16:])"),
    ),
    ("the name that is held gets 15", WRONG, WRONG.replace("if ", "if name == device.name or ")),
)
