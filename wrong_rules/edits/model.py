"""The order of the checks, and the answers 1, 2, 3, 13 and 4."""

REFUSAL = "    answer = refusal_without_change(event)\n"
LINK = '    if getattr(event, "link", 0) >= LINKS:\n        return 1\n'
LENGTH = "    if isinstance(event, events.KeyBasedWrite) and len(event.data) not in (16, 80):\n        return 2\n"
PASSKEY = "    if isinstance(event, events.ConfirmationNeeded) and event.passkey > MOST_PASSKEY:\n        return 3\n"
OUTPUT = "    if isinstance(event, events.LENDING) and len(event.out) < RESPONSE_SIZE:\n        return 13\n"
PACKET = (
    "    if isinstance(event, events.NameWrite) and not LEAST_PACKET <= len(event.packet) <= MOST_PACKET:\n"
    "        return 2\n"
)
SECOND = "    if isinstance(event, events.KeyBasedWrite) and len(event.packet) < PACKET_ROOM:\n        return 13\n"
SIZES = "LEAST_PACKET, MOST_PACKET = 16, 80"
REFUSED = "    if answer is not None:\n"
UNCHANGED = "        return device, plain_reply(event, answer)\n"
EARLIER = "        return drop_all(device), plain_reply(event, 4)\n"
RULE = "    return RULES[type(event)](clock_step(device, event.clock), event)\n"


def no_clock_step(answer):
    """The event changes nothing with this answer, and stores no clock."""
    return (
        "    after, reply = RULES[type(event)](clock_step(device, event.clock), event)\n"
        f"    return (device if reply.answer == {answer} else after), reply\n"
    )


def uses(line, if_so):
    """A request that is refused here uses the key that fits, where this is so."""
    return (
        f"        if type(event) is events.KeyBasedWrite and {if_so}:\n"
        "            used, _ = key_based.key_based_write(device, event)\n"
        "            device = device.copy(keys=used.keys)\n" + line
    )


def awaited_before(answer):
    """16 comes before this answer in a key-based write."""
    return (
        f"    if answer == {answer} and isinstance(event, events.KeyBasedWrite) and device.rotation_awaited:\n"
        "        return device, plain_reply(event, 16)\n" + REFUSED
    )


def lifts(kind):
    """An event of this kind that gets 4 lifts the wait for a rotation."""
    return EARLIER.replace(
        "drop_all(device)",
        f"drop_all(device).copy(rotation_awaited=device.rotation_awaited and not isinstance(event, events.{kind}))",
    )


def earlier(answer, later, if_so, device="device"):
    """A later check comes before this one in a name write."""
    return (
        f"    if answer == {answer} and isinstance(event, events.NameWrite) and {if_so}:\n"
        f"        return {device}, plain_reply(event, {later})\n" + REFUSED
    )


EDITS = (
    ("link 7 is refused", LINK, LINK.replace(">= LINKS", ">= LINKS - 1")),
    ("80 bytes get 2", LENGTH, LENGTH.replace("not in (16, 80)", "!= 16")),
    ("17 bytes are taken", LENGTH, LENGTH.replace("(16, 80)", "(16, 17, 80)")),
    ("15 bytes are taken", LENGTH, LENGTH.replace("(16, 80)", "(15, 16, 80)")),
    ("79 bytes are taken", LENGTH, LENGTH.replace("(16, 80)", "(16, 79, 80)")),
    ("81 bytes are taken", LENGTH, LENGTH.replace("(16, 80)", "(16, 80, 81)")),
    ("our passkey 999,999 gets 3", "MOST_PASSKEY = 999_999", "MOST_PASSKEY = 999_998"),
    ("our passkey 1,000,000 is taken", "MOST_PASSKEY = 999_999", "MOST_PASSKEY = 1_000_000"),
    ("3 is left out", PASSKEY, ""),
    ("an output of 15 bytes is taken", "RESPONSE_SIZE = 16", "RESPONSE_SIZE = 15"),
    ("an output of 16 bytes gets 13", "RESPONSE_SIZE = 16", "RESPONSE_SIZE = 17"),
    ("13 is left out in passkey writes", OUTPUT, OUTPUT.replace("events.LENDING", "events.KeyBasedWrite")),
    ("13 is left out in key-based writes", OUTPUT, OUTPUT.replace("events.LENDING", "events.PasskeyWrite")),
    ("13 uses the key that fits", UNCHANGED, uses(UNCHANGED, "answer == 13")),
    ("4 uses the key that fits", EARLIER, uses(EARLIER, "True")),
    ("2 comes before 1", LINK + LENGTH, LENGTH + LINK),
    ("2 comes before 1 in a name write", LINK + LENGTH + PACKET, PACKET + LINK + LENGTH),
    ("3 comes before 1", LINK + LENGTH + PACKET + PASSKEY, PASSKEY + LINK + LENGTH + PACKET),
    ("13 comes before 1", LINK + LENGTH + PACKET + PASSKEY + OUTPUT, OUTPUT + LINK + LENGTH + PACKET + PASSKEY),
    ("13 comes before 2", LENGTH + PACKET + PASSKEY + OUTPUT, OUTPUT + LENGTH + PACKET + PASSKEY),
    (
        "13 for the second output comes before 1",
        LINK + LENGTH + PACKET + PASSKEY + OUTPUT + SECOND,
        SECOND + LINK + LENGTH + PACKET + PASSKEY + OUTPUT,
    ),
    (
        "13 for the second output comes before 2",
        LENGTH + PACKET + PASSKEY + OUTPUT + SECOND,
        SECOND + LENGTH + PACKET + PASSKEY + OUTPUT,
    ),
    (
        "4 comes before 13 for the second output",
        REFUSED,
        "    if answer == 13 and len(event.out) >= RESPONSE_SIZE and event.clock < device.clock:\n"
        "        return drop_all(device), plain_reply(event, 4)\n" + REFUSED,
    ),
    (
        "5 comes before 13 for the second output",
        REFUSED,
        "    if answer == 13 and len(event.out) >= RESPONSE_SIZE and device.failures == 10:\n"
        "        return device, plain_reply(event, 5)\n" + REFUSED,
    ),
    ("4 comes before 2 in a name write", REFUSED, earlier(2, 4, "event.clock < device.clock", "drop_all(device)")),
    ("9 comes before 2 in a name write", REFUSED, earlier(2, 9, "device.links[event.link] is None")),
    (
        "10 comes before 2 in a name write",
        REFUSED,
        earlier(2, 10, 'device.links[event.link] and device.links[event.link].stage.value == "paired"'),
    ),
    ("a packet of 15 bytes is taken", SIZES, SIZES.replace("16", "15")),
    ("a packet of 16 bytes gets 2", SIZES, SIZES.replace("16", "17")),
    ("a packet of 80 bytes gets 2", SIZES, SIZES.replace("80", "79")),
    ("a packet of 81 bytes is taken", SIZES, SIZES.replace("80", "81")),
    ("2 is left out in name writes", PACKET, ""),
    (
        "a packet has 16 or 80 bytes",
        PACKET,
        PACKET.replace("not LEAST_PACKET <= len(event.packet) <= MOST_PACKET", "len(event.packet) not in (16, 80)"),
    ),
    ("a packet of a wrong size gets 15", PACKET, PACKET.replace("return 2", "return 15")),
    ("a packet of a wrong size gets 12", PACKET, PACKET.replace("return 2", "return 12")),
    ("a second output of 79 bytes is taken", "PACKET_ROOM = 80", "PACKET_ROOM = 79"),
    ("a second output of 80 bytes gets 13", "PACKET_ROOM = 80", "PACKET_ROOM = 81"),
    ("a second output of 16 bytes is enough", "PACKET_ROOM = 80", "PACKET_ROOM = 16"),
    ("13 is left out for the second output", SECOND, ""),
    (
        "the second output is asked for in requests of 16 bytes alone",
        SECOND,
        SECOND.replace("and len(event.packet)", "and len(event.data) == 16 and len(event.packet)"),
    ),
    ("a short second output gets 2", SECOND, SECOND.replace("return 13", "return 2")),
    (
        "4 comes before 1, 2, 3 and 13",
        REFUSAL,
        "    if event.clock < device.clock:\n        return drop_all(device), plain_reply(event, 4)\n" + REFUSAL,
    ),
    ("1, 2, 3 and 13 drop every K", UNCHANGED, UNCHANGED.replace("device,", "drop_all(device),", 1)),
    (
        "1, 2, 3 and 13 store the clock",
        UNCHANGED,
        UNCHANGED.replace("device,", "device.copy(clock=max(event.clock, device.clock)),", 1),
    ),
    (
        "1, 2, 3 and 13 make the clock step",
        UNCHANGED,
        UNCHANGED.replace("device,", "clock_step(device, event.clock).copy(clock=device.clock),", 1),
    ),
    ("an equal clock gets 4", "event.clock < device.clock", "event.clock <= device.clock"),
    ("4 is left out", "event.clock < device.clock", "False"),
    ("4 drops no K", EARLIER, EARLIER.replace("drop_all(device)", "device")),
    (
        "4 drops K of the event's link alone",
        EARLIER,
        "        links = device.links\n"
        '        link = getattr(event, "link", 0)\n'
        "        kept = links[:link] + (None,) + links[link + 1 :]\n"
        "        return device.copy(links=kept), plain_reply(event, 4)\n",
    ),
    (
        "4 stores the clock",
        EARLIER,
        EARLIER.replace("drop_all(device)", "drop_all(device).copy(clock=event.clock)"),
    ),
    (
        "4 sets the count to 0",
        EARLIER,
        EARLIER.replace("drop_all(device)", "drop_all(device).copy(failures=0)"),
    ),
    (
        "4 lifts the wait for a rotation",
        EARLIER,
        EARLIER.replace("drop_all(device)", "drop_all(device).copy(rotation_awaited=False)"),
    ),
    *(
        (f"{words} that gets 4 lifts the wait for a rotation", EARLIER, lifts(kind))
        for words, kind in (
            ("a rotation", "AddressRotated"),
            ("a reset", "FactoryReset"),
            ("a key-based write", "KeyBasedWrite"),
        )
    ),
    *((f"16 comes before {answer}", REFUSED, awaited_before(answer)) for answer in (1, 2, 13)),
    (
        "16 comes before 4",
        EARLIER,
        "        if isinstance(event, events.KeyBasedWrite) and device.rotation_awaited:\n"
        "            return device, plain_reply(event, 16)\n" + EARLIER,
    ),
    *(
        (
            f"{words} gets 16 during the wait",
            RULE,
            f"    if isinstance(event, events.{kind}) and device.rotation_awaited:\n"
            "        return clock_step(device, event.clock), plain_reply(event, 16)\n" + RULE,
        )
        for words, kind in (
            ("pairing started", "PairingStarted"),
            ("a passkey write", "PasskeyWrite"),
            ("an account key write", "AccountKeyWrite"),
            ("a name write", "NameWrite"),
        )
    ),
    (
        "4 does what the event does",
        EARLIER,
        "        after, _ = RULES[type(event)](device, event)\n"
        "        return drop_all(after), plain_reply(event, 4)\n",
    ),
    *((f"{answer} makes no clock step", RULE, no_clock_step(answer)) for answer in (5, 6, 8, 9, 12, 15, 16)),
    (
        "a taken name write makes no clock step",
        RULE,
        "    taken_name = isinstance(event, events.NameWrite) and device.links[event.link]\n"
        "    return RULES[type(event)](device if taken_name else clock_step(device, event.clock), event)\n",
    ),
    ("7 makes no clock step", RULE, no_clock_step(7).replace("device if", "after.copy(clock=device.clock) if")),
    (
        "link up drops nothing",
        "events.LinkUp: control.link_changed",
        "events.LinkUp: lambda d, e: (d, plain_reply(e, 0))",
    ),
    (
        "link down drops nothing",
        "events.LinkDown: control.link_changed",
        "events.LinkDown: lambda d, e: (d, plain_reply(e, 0))",
    ),
    *(
        (
            f"link {words} lifts the wait for a rotation",
            f"events.{kind}: control.link_changed",
            f"events.{kind}: lambda d, e: control.link_changed(d.copy(rotation_awaited=False), e)",
        )
        for words, kind in (("up", "LinkUp"), ("down", "LinkDown"))
    ),
)
