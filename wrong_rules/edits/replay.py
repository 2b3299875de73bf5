"""The replay of a recording."""

LINE = 'f"{number} {BY_EVENT[type(event)].name} {answer} {keys}"'
ADDED = "        lines.append(line)\n"
KEYS = "len(device.keys) if device else 0"
COUNTED = f"    keys = {KEYS}\n"
EARLY = "    if device is None and not isinstance(event, PowerOn):\n        return None, 14\n"
# A device without keys, and its answer before the first power-on.
NO_KEYS = 'step(None, PowerOn(bytes((0, 2, 2, 0)), b"", bytes(6), bytes(6), bytes(3), bytes(2)))[0]'
BY_NO_KEYS = EARLY.replace("        return", f"        answer = step({NO_KEYS}, event)[1].answer\n        return")
STEP = "    device, reply = step(device, event)\n"
ANSWER = "    return device, reply.answer\n"
BEGIN = "    device, number, lines = None, 0, []\n"
STEPPED = "    device, answer = replayed(device, event)\n"
NUMBERED = "    number = (number + 1) % NUMBERS\n"


def refused(change):
    """A power-on that is refused changes this device."""
    return f"    before = device\n{STEP}    if reply.answer == 14 and before is not None:\n        {change}\n"


EDITS = (
    ("lines are numbered from 0", BEGIN, BEGIN.replace("0", "-1")),
    ("no line has a number", LINE, LINE.replace("{number} ", "")),
    (
        "the number is that of the line since power-on",
        NUMBERED,
        NUMBERED + "    number = 1 if isinstance(event, PowerOn) and not answer else number\n",
    ),
    ("a line is missing for a marker", ADDED, '        if BY_EVENT[type(event)].name != "marker":\n    ' + ADDED),
    ("a header is printed", BEGIN, BEGIN.replace("[]", '["number kind answer size"]')),
    ("two spaces stand between", LINE, LINE.replace(" {answer}", "  {answer}")),
    ("a tab stands between", LINE, LINE.replace("} {", "}\\t{", 1)),
    ("the size stands before the answer", LINE, LINE.replace("{answer} {keys}", "{keys} {answer}")),
    ("the answer stands before the kind", LINE, 'f"{number} {answer} {BY_EVENT[type(event)].name} {keys}"'),
    ("no size is shown", LINE, LINE.replace(" {keys}", "")),
    ("the answer has two digits", LINE, LINE.replace("{answer}", "{answer:02}")),
    ("a space stands at the end", LINE, LINE.replace("{keys}", "{keys} ")),
    ("the size is that before the event", STEPPED + NUMBERED + COUNTED, COUNTED + STEPPED + NUMBERED),
    ("the size before power-on is not 0", KEYS, KEYS.replace("else 0", "else 1")),
    (
        "the size before power-on is that of a refused list",
        KEYS,
        'len(device.keys) if device else getattr(event, "stored", b"").count(4)',
    ),
    ("the size is that of the list's bytes", KEYS, KEYS.replace("len(device.keys)", "4 + 16 * len(device.keys)")),
    ("a refused power-on shows size 0", KEYS, "len(device.keys) if device and answer != 14 else 0"),
    ("before the first power-on events get 0", EARLY, EARLY.replace("14", "0")),
    ("before the first power-on events get 9", EARLY, EARLY.replace("14", "9")),
    (
        "before the first power-on a marker gets 0",
        EARLY,
        EARLY.replace("14", '0 if BY_EVENT[type(event)].name == "marker" else 14'),
    ),
    (
        "before the first power-on 1, 2, 3 and 13 are shown",
        EARLY,
        BY_NO_KEYS.replace("14", "answer if answer in (1, 2, 3, 13) else 14"),
    ),
    (
        "before the first power-on a marker is not shown",
        ADDED,
        '        if device or BY_EVENT[type(event)].name != "marker":\n    ' + ADDED,
    ),
    ("before the first power-on nothing is shown", ADDED, "        if device:\n    " + ADDED),
    (
        "before the first power-on a device without keys answers",
        EARLY,
        BY_NO_KEYS.replace("14", "answer"),
    ),
    (
        "the first power-on makes a device, also if it is refused",
        ANSWER,
        f"    if device is None:\n        device = {NO_KEYS}\n" + ANSWER,
    ),
    ("a refused power-on later drops the device", STEP, refused("device = None")),
    ("a refused power-on later shows 0", STEP, refused("return device, 0")),
    ("a refused power-on later drops every K", STEP, refused("device = before.copy(links=(None,) * 8)")),
    ("a refused power-on later empties the list", STEP, refused("device = before.copy(keys=())")),
    ("a refused power-on later sets the clock to 0", STEP, refused("device = before.copy(clock=0)")),
    (
        "a later power-on is not given to the device",
        EARLY,
        EARLY + "    if device is not None and isinstance(event, PowerOn):\n        return device, 0\n",
    ),
    (
        "a later power-on begins from no device",
        STEP,
        "    if isinstance(event, PowerOn):\n        device = None\n" + STEP,
    ),
    (
        "a marker is shown and not given to the device",
        EARLY,
        EARLY + '    if BY_EVENT[type(event)].name == "marker":\n        return device, 0\n',
    ),
    ("every event shows 0", ANSWER, ANSWER.replace("reply.answer", "14 if reply.answer == 14 else 0")),
    (
        "an event that is refused is forgotten",
        STEP,
        "    before = device\n" + STEP + "    if reply.answer:\n        device = before\n",
    ),
    (
        "the device is that of power-on at every event",
        ANSWER,
        "    if isinstance(event, PowerOn):\n        replayed.made = device\n    return replayed.made, reply.answer\n",
    ),
)
