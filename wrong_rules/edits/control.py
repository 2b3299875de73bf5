"""Overflow marker, power-on, links, pairing mode, rotation and factory reset."""

MARKER = "    return drop_all(device), plain_reply(event, 0)\n\n\ndef power_on"
REFUSED = "        return device, Reply(14)\n"
TAKEN = "    return made, Reply(0)\n"
CHANGED = "    return drop(device, event.link), plain_reply(event, 0)\n"
MODE = "device.copy(pairing_mode=event.on)"
ROTATED = "device.copy(ble=event.ble, salt=event.salt, filter=kept, rotation_awaited=False)"
BUILT_ON_ROTATION = "account_key_filter(device.keys, event.salt)"
RESET = (
    '    device = drop_all(device).copy(keys=(), filter=kept, name=b"")\n'
    "    return device.copy(spent=(), failures=0, rotation_awaited=False), plain_reply(event, 0)\n"
)
BUILT_ON_POWER_ON = "account_key_filter(keys, event.salt)"
BAD = "    if keys is None or not is_name(event.name):\n"
KEPT_IN_PROVED = 's if s and s.stage.value == "proved" else None'
FIELDS = (
    "links", "clock", "failures", "spent", "pairing_mode", "keys", "name", "ble", "salt", "filter", "public", "model",
    "rotation_awaited",
)


def marker(change):
    """The marker drops every K and changes something else as well."""
    return MARKER.replace("drop_all(device)", f"drop_all(device).copy({change})")


def keeps(field):
    """Power-on keeps a field of the earlier device."""
    return f"    if device is not None:\n        made = made.copy({field}=device.{field})\n" + TAKEN


def lifted(but_if):
    """A rotation lifts the wait, but not if this is so."""
    return ROTATED.replace("rotation_awaited=False", f"rotation_awaited=device.rotation_awaited and {but_if}")


EDITS = (
    ("the marker is ignored", MARKER, MARKER.replace("drop_all(device)", "device")),
    ("the marker clears link 0 alone", MARKER, MARKER.replace("drop_all(device)", "drop(device, 0)")),
    (
        "the marker clears all links but the last",
        MARKER,
        MARKER.replace("drop_all(device)", "device.copy(links=(None,) * 7 + device.links[7:])"),
    ),
    (
        "the marker keeps K in proved",
        MARKER,
        MARKER.replace("drop_all(device)", f"device.copy(links=tuple({KEPT_IN_PROVED} for s in device.links))"),
    ),
    ("the marker empties the salts", MARKER, marker("spent=()")),
    ("the marker sets the count to 0", MARKER, marker("failures=0")),
    ("the marker ends pairing mode", MARKER, marker("pairing_mode=False")),
    ("the marker sets the clock to 0", MARKER, marker("clock=0")),
    ("the marker empties the list", MARKER, marker("keys=()")),
    ("the marker empties the name", MARKER, marker('name=b""')),
    ("the marker empties the filter", MARKER, marker('filter=b""')),
    ("the marker uses the first key", MARKER, marker("keys=device.keys[1:] + device.keys[:1]")),
    ("the marker lifts the wait for a rotation", MARKER, marker("rotation_awaited=False")),
    ("the marker begins a wait for a rotation", MARKER, marker("rotation_awaited=True")),
    (
        "a refused power-on drops every K",
        REFUSED,
        "        return (drop_all(device) if device else None), Reply(14)\n",
    ),
    (
        "a refused power-on sets the clock to 0",
        REFUSED,
        "        return (device.copy(clock=0) if device else None), Reply(14)\n",
    ),
    (
        "a refused power-on empties the list",
        REFUSED,
        "        return (device.copy(keys=()) if device else None), Reply(14)\n",
    ),
    (
        "a refused power-on takes the new address",
        REFUSED,
        "        return (device.copy(ble=event.ble) if device else None), Reply(14)\n",
    ),
    (
        "a refused power-on ends pairing mode",
        REFUSED,
        "        return (device.copy(pairing_mode=False) if device else None), Reply(14)\n",
    ),
    (
        "a refused power-on sets the count to 0",
        REFUSED,
        "        return (device.copy(failures=0) if device else None), Reply(14)\n",
    ),
    (
        "a refused power-on empties the salts",
        REFUSED,
        "        return (device.copy(spent=()) if device else None), Reply(14)\n",
    ),
    (
        "a refused power-on takes the new name",
        REFUSED,
        "        return (device.copy(name=event.name) if device else None), Reply(14)\n",
    ),
    (
        "a refused power-on empties the name",
        REFUSED,
        '        return (device.copy(name=b"") if device else None), Reply(14)\n',
    ),
    (
        "a refused power-on builds the filter with its salt",
        REFUSED,
        "        kept = account_key_filter(device.keys, event.salt) if device else None\n"
        "        return (device.copy(filter=kept) if device else None), Reply(14)\n",
    ),
    (
        "a refused power-on lifts the wait for a rotation",
        REFUSED,
        "        return (device.copy(rotation_awaited=False) if device else None), Reply(14)\n",
    ),
    (
        "a power-on that is refused for its name lifts the wait for a rotation",
        REFUSED,
        "        lifts = device is not None and keys is not None\n"
        "        return (device.copy(rotation_awaited=False) if lifts else device), Reply(14)\n",
    ),
    ("a malformed list gets 0", REFUSED, REFUSED.replace("14", "0")),
    ("a bad name gets 15", REFUSED, REFUSED.replace("14", "14 if keys is None else 15")),
    ("a bad name at power-on is taken", BAD, "    if keys is None:\n"),
    (
        "a long name at power-on is taken",
        BAD,
        "    if keys is None or not is_name(event.name[:64]):\n",
    ),
    (
        "a bad name at power-on keeps the earlier one",
        BAD,
        "    if not is_name(event.name):\n"
        "        event = type(event)(**{**vars(event), 'name': device.name if device else b''})\n" + BAD,
    ),
    (
        "a bad name at power-on is an empty one",
        BAD,
        "    if not is_name(event.name):\n        event = type(event)(**{**vars(event), 'name': b''})\n" + BAD,
    ),
    ("an empty name at power-on gets 14", BAD, BAD.replace("not is_name", "not event.name or not is_name")),
    (
        "an empty name at power-on keeps the earlier one",
        TAKEN,
        "    if device is not None and not event.name:\n        made = made.copy(name=device.name)\n" + TAKEN,
    ),
    ("power-on gives no name", "tuple(keys), event.name", 'tuple(keys), b""'),
    ("power-on cuts the name to 63 bytes", "tuple(keys), event.name", "tuple(keys), event.name[:63]"),
    (
        "power-on ends the name at a zero byte",
        "tuple(keys), event.name",
        "tuple(keys), event.name.partition(bytes(1))[0]",
    ),
    *((f"power-on keeps {field}", TAKEN, keeps(field)) for field in FIELDS),
    ("power-on uses the first key", "tuple(keys), event.name", "tuple(keys[1:] + keys[:1]), event.name"),
    ("power-on makes an empty filter", BUILT_ON_POWER_ON, "account_key_filter((), event.salt)"),
    ("power-on builds the filter of the first key", BUILT_ON_POWER_ON, "account_key_filter(keys[:1], event.salt)"),
    (
        "power-on builds the filter with the earlier salt",
        BUILT_ON_POWER_ON,
        "account_key_filter(keys, device.salt if device else event.salt)",
    ),
    ("power-on exchanges the addresses", "event.public, event.ble", "event.ble, event.public"),
    ("power-on reverses the model ID", "event.model, event.salt", "event.model[::-1], event.salt"),
    ("power-on reverses the filter salt", "event.model, event.salt, kept", "event.model, event.salt[::-1], kept"),
    ("link up and down drop every K", CHANGED, CHANGED.replace("drop(device, event.link)", "drop_all(device)")),
    ("link up and down drop K of link 0", CHANGED, CHANGED.replace("event.link)", "0)")),
    (
        "link up and down empty the name",
        CHANGED,
        CHANGED.replace("drop(device, event.link)", 'drop(device, event.link).copy(name=b"")'),
    ),
    ("pairing mode empties the name", MODE, 'device.copy(pairing_mode=event.on, name=b"")'),
    ("pairing mode lifts the wait", MODE, "device.copy(pairing_mode=event.on, rotation_awaited=False)"),
    *(
        (
            f"pairing mode {words} lifts the wait",
            MODE,
            f"device.copy(pairing_mode=event.on, rotation_awaited=device.rotation_awaited and {but_if})",
        )
        for words, but_if in (("on", "not event.on"), ("off", "event.on"))
    ),
    ("rotation empties the name", ROTATED, ROTATED.replace(")", ', name=b"")')),
    ("pairing mode empties the filter", MODE, 'device.copy(pairing_mode=event.on, filter=b"")'),
    (
        "pairing mode on empties the filter, and off builds it",
        MODE,
        'device.copy(pairing_mode=event.on, filter=b"" if event.on else account_key_filter(device.keys, device.salt))',
    ),
    ("pairing mode is only ever switched on", MODE, "device.copy(pairing_mode=True)"),
    ("pairing mode is inverted by each event", MODE, "device.copy(pairing_mode=not device.pairing_mode)"),
    ("pairing mode drops every K", MODE, "drop_all(device).copy(pairing_mode=event.on)"),
    ("pairing mode empties the salts", MODE, "device.copy(pairing_mode=event.on, spent=())"),
    ("pairing mode sets the count to 0", MODE, "device.copy(pairing_mode=event.on, failures=0)"),
    ("rotation keeps the filter salt", ROTATED, ROTATED.replace("salt=event.salt, ", "")),
    ("rotation keeps the address", ROTATED, ROTATED.replace("ble=event.ble, ", "")),
    ("rotation changes the public address", ROTATED, ROTATED.replace("ble=event.ble", "public=event.ble")),
    ("rotation drops every K", ROTATED, ROTATED.replace("device.copy", "drop_all(device).copy")),
    ("rotation keeps the filter", ROTATED, ROTATED.replace(", filter=kept", "")),
    ("rotation empties the filter", ROTATED, ROTATED.replace("filter=kept", 'filter=b""')),
    (
        "rotation in pairing mode keeps the filter",
        ROTATED,
        ROTATED.replace("filter=kept", "filter=device.filter if device.pairing_mode else kept"),
    ),
    ("rotation builds the filter with the old salt", BUILT_ON_ROTATION, "account_key_filter(device.keys, device.salt)"),
    (
        "rotation adds the bits of the new salt to the old ones",
        ROTATED,
        ROTATED.replace("filter=kept", "filter=bytes(a | b for a, b in zip(device.filter, kept))"),
    ),
    ("rotation empties the salts", ROTATED, ROTATED.replace(")", ", spent=())")),
    ("rotation sets the count to 0", ROTATED, ROTATED.replace(")", ", failures=0)")),
    ("rotation ends pairing mode", ROTATED, ROTATED.replace(")", ", pairing_mode=False)")),
    ("rotation does not lift the wait", ROTATED, ROTATED.replace(", rotation_awaited=False", "")),
    ("rotation to the same address does not lift the wait", ROTATED, lifted("event.ble == device.ble")),
    ("rotation to the public address does not lift the wait", ROTATED, lifted("event.ble == device.public")),
    ("rotation to the same salt does not lift the wait", ROTATED, lifted("event.salt == device.salt")),
    ("rotation in pairing mode does not lift the wait", ROTATED, lifted("device.pairing_mode")),
    ("rotation while a link holds a K does not lift the wait", ROTATED, lifted("any(device.links)")),
    ("rotation begins a wait", ROTATED, ROTATED.replace("rotation_awaited=False", "rotation_awaited=True")),
    ("a reset keeps the wait", RESET, RESET.replace(", rotation_awaited=False", "")),
    ("a reset begins a wait", RESET, RESET.replace("rotation_awaited=False", "rotation_awaited=True")),
    ("a reset keeps the keys", RESET, RESET.replace("keys=(), ", "")),
    ("a reset keeps the filter", RESET, RESET.replace("filter=kept, ", "")),
    ("a reset keeps the name", RESET, RESET.replace(', name=b""', "")),
    ("a reset keeps the salts", RESET, RESET.replace("spent=(), ", "")),
    ("a reset keeps the count", RESET, RESET.replace(", failures=0", "")),
    ("a reset keeps every K", RESET, RESET.replace("drop_all(device)", "device")),
    ("a reset ends pairing mode", RESET, RESET.replace("failures=0", "failures=0, pairing_mode=False")),
    ("a reset sets the clock to 0", RESET, RESET.replace("failures=0", "failures=0, clock=0")),
    ("a reset clears the filter salt", RESET, RESET.replace("failures=0", "failures=0, salt=bytes(2)")),
)
