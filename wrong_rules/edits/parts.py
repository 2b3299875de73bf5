"""A replay that is fed by parts."""

LOOP = "    while at < len(part):\n"
BEGIN = "    lines, at = [], 0\n"
ADDED = "        lines += [line] if line else []\n"
FED = "    return replay, lines\n"

# These show where a whole part is fed, and not in the calls of one part.
FEEDING = (
    (
        "an empty part is the end",
        BEGIN,
        BEGIN + "    if not part:\n        replay, cut = end(replay)\n        return replay, [cut] if cut else []\n",
    ),
    ("an empty part drops what is held", BEGIN, BEGIN + '    replay = replay if part else replay.copy(held=b"")\n'),
    ("an empty part ends the skipping", BEGIN, BEGIN + "    replay = replay if part else replay.copy(skip=0)\n"),
    (
        "an empty part drops one byte of a length field",
        BEGIN,
        BEGIN + '    replay = replay.copy(held=b"") if not part and len(replay.held) == 1 else replay\n',
    ),
    ("each part begins a record", BEGIN, BEGIN + '    replay = replay.copy(held=b"", skip=0)\n'),
    ("what is held is dropped at the next part", BEGIN, BEGIN + '    replay = replay.copy(held=b"")\n'),
    ("the skipping ends with the part", BEGIN, BEGIN + "    replay = replay.copy(skip=0)\n"),
    ("each part is a recording", BEGIN, BEGIN + "    replay = Replay()\n"),
    ("each part begins without a device", BEGIN, BEGIN + "    replay = replay.copy(device=None)\n"),
    ("the number begins anew with each part", BEGIN, BEGIN + "    replay = replay.copy(number=0)\n"),
    ("the number counts the parts too", BEGIN, BEGIN + "    replay = replay.copy(number=replay.number + 1)\n"),
    ("the first record of a part is read alone", LOOP, LOOP.replace("while", "if")),
    ("a last byte that stands alone is not read", LOOP, LOOP.replace("len(part)", "len(part) - 1")),
    ("a part of one byte is not read", LOOP, LOOP.replace("at <", "1 < len(part) and at <")),
    ("the lines of a part stand in the wrong order", ADDED, "        lines = ([line] if line else []) + lines\n"),
    ("a part shows its last line alone", ADDED, "        lines = [line] if line else lines\n"),
    ("a part that ends within a record shows no line", FED, "    return replay, [] if replay.held else lines\n"),
)

SKIPPING = "    if replay.skip:\n        return skipped(replay, part, at)\n"
FIELD = "    replay, at = with_more(replay, part, at, LENGTH_FIELD)\n"
NO_FIELD = "    if len(replay.held) < LENGTH_FIELD:\n        return replay, None, at\n"
LENGTH = '    length = int.from_bytes(replay.held[:LENGTH_FIELD], "big")\n'
TOO_LONG = "    if length > MOST_LENGTH:\n"
SKIP = '        return skipped(replay.copy(held=b"", skip=length), part, at)\n'
BODY = "    replay, at = with_more(replay, part, at, LENGTH_FIELD + length)\n"
NOT_WHOLE = "    if len(replay.held) < LENGTH_FIELD + length:\n        return replay, None, at\n"
HELD = "replay.held[LENGTH_FIELD:]"
EVENT = f"    event = read_record({HELD})\n"
MORE = "    more = part[at : at + missing]\n"
JOINED = "replay.copy(held=replay.held + more), at + len(more)"
PASSED = "    replay = replay.copy(skip=replay.skip - passed)\n"
SKIPPED = "    if not replay.skip:\n        replay, line = shown(replay, Overflow())\n"
KEPT = "    return Replay(device, number), line\n"
CUT = "shown(replay, Overflow()) if replay.held or replay.skip else (replay, None)"

READING = (
    ("a record of 1,024 bytes in parts is skipped", TOO_LONG, TOO_LONG.replace(">", ">=")),
    ("a record of 1,025 bytes in parts is read", TOO_LONG, TOO_LONG.replace("MOST_LENGTH", "MOST_LENGTH + 1")),
    ("the length field in parts counts for the limit", TOO_LONG, TOO_LONG.replace("length", "LENGTH_FIELD + length")),
    ("the length in parts is read little-endian", LENGTH, LENGTH.replace('"big"', '"little"')),
    (
        "a divided length field is read little-endian",
        FIELD,
        "    if len(replay.held) == 1 and at < len(part):\n"
        "        replay, at = replay.copy(held=part[at : at + 1] + replay.held), at + 1\n" + FIELD,
    ),
    (
        "the first byte of a divided length field is taken for zero",
        FIELD,
        "    replay = replay.copy(held=bytes(1)) if len(replay.held) == 1 else replay\n" + FIELD,
    ),
    (
        "one byte of a length field is dropped at the end of a part",
        NO_FIELD,
        NO_FIELD.replace("return replay", 'return replay.copy(held=b"")'),
    ),
    (
        "one byte of a length field at the end of a part is a marker",
        NO_FIELD,
        "    if len(replay.held) == 1:\n        return *shown(replay, Overflow()), at\n" + NO_FIELD,
    ),
    (
        "a length field at the end of a part is dropped",
        NOT_WHOLE,
        '    if len(replay.held) == LENGTH_FIELD and length:\n        replay = replay.copy(held=b"")\n' + NOT_WHOLE,
    ),
    (
        "a record that goes over parts is lost",
        NOT_WHOLE,
        NOT_WHOLE.replace("return replay", 'return replay.copy(held=b"")'),
    ),
    (
        "a record that goes over parts is a marker for each",
        NOT_WHOLE,
        NOT_WHOLE.replace("return replay, None", "return *shown(replay, Overflow())"),
    ),
    ("a record is read from its last part alone", EVENT, EVENT.replace(HELD, "part[max(0, at - length) : at]")),
    (
        "a record that ends with its part is shown with the next part",
        NOT_WHOLE,
        NOT_WHOLE.replace("length:", "length or at == len(part):"),
    ),
    (
        "a record that ends with its part is not shown",
        EVENT,
        "    if at == len(part):\n        return replay.copy(held=b\"\"), None, at\n" + EVENT,
    ),
    ("a record of free length is read before its last byte", BODY, "    length -= length > 20\n" + BODY),
    ("held bytes past 1,024 are lost", JOINED, JOINED.replace("replay.held +", "replay.held[:1_024] +")),
    ("what is held stands behind the new bytes", JOINED, JOINED.replace("replay.held + more", "more + replay.held")),
    (
        "a byte of the next part is looked at twice",
        JOINED,
        JOINED.replace("len(more)", "len(more) - (len(more) > 1 and len(replay.held) > LENGTH_FIELD)"),
    ),
    (
        "a byte of the next part is left out",
        MORE,
        "    at += at == 0 and len(part) > 1 and len(replay.held) > LENGTH_FIELD\n" + MORE,
    ),
    ("the first byte of a whole record stays", KEPT, "    return Replay(device, number, replay.held[:1]), line\n"),
)

SKIPS = (
    ("a long record in parts is not shown", SKIPPED, "    if not replay.skip:\n        line = None\n"),
    (
        "a long record that goes over parts is not shown",
        SKIPPING,
        "    if replay.skip:\n"
        "        passed = min(replay.skip, len(part) - at)\n"
        "        return replay.copy(skip=replay.skip - passed), None, at + passed\n",
    ),
    (
        "a long record that ends with its part is not shown",
        SKIPPED,
        SKIPPED.replace("replay.skip:", "replay.skip and at + passed < len(part):"),
    ),
    (
        "a long record is a marker for each part",
        SKIPPED,
        "    skip = replay.skip\n    replay, line = shown(replay, Overflow())\n    replay = replay.copy(skip=skip)\n",
    ),
    (
        "a long record is shown at its beginning too",
        SKIP,
        "        replay, line = shown(replay, Overflow())\n        return replay.copy(skip=length), line, at\n",
    ),
    ("a long record is shown and read further", SKIP, "        return *shown(replay, Overflow()), at\n"),
    ("a long record ends with its part", PASSED, PASSED.replace("replay.skip - passed", "0")),
    ("a long record ends a byte early", SKIP, SKIP.replace("skip=length", "skip=length - 1")),
    ("a long record ends a byte late", SKIP, SKIP.replace("skip=length", "skip=min(65_535, length + 1)")),
    ("the length field counts as skipped", SKIP, SKIP.replace("skip=length", "skip=length - LENGTH_FIELD")),
    ("what is to be skipped is counted in 15 bits", SKIP, SKIP.replace("skip=length", "skip=length % 32_768")),
    (
        "the first byte of a part is not counted while skipping",
        SKIPPING,
        SKIPPING.replace("part, at)", "part, at + 1)"),
    ),
)

ENDS = (
    ("every end is a marker", CUT, "shown(replay, Overflow())"),
    ("a cut record in parts is not shown", CUT, CUT.replace("replay.held or ", "")),
    ("a long record in parts that is cut is not shown", CUT, CUT.replace(" or replay.skip", "")),
    ("one byte of a length field is no cut record", CUT, CUT.replace("replay.held or", "len(replay.held) > 1 or")),
    ("a length field alone is no cut record", CUT, CUT.replace("replay.held or", "len(replay.held) not in (0, 2) or")),
    (
        "a cut record in parts is read as far as it goes",
        CUT,
        CUT.replace("Overflow())", "read_record(replay.held[LENGTH_FIELD:]) or Overflow())"),
    ),
    (
        "a cut record in parts counts twice",
        CUT,
        CUT.replace("replay, O", "shown(replay, Overflow())[0] if replay.held else replay, O"),
    ),
    (
        "a long record in parts that is cut counts twice",
        CUT,
        CUT.replace("replay, O", "shown(replay, Overflow())[0] if replay.skip else replay, O"),
    ),
    (
        "a cut record is still held after the end",
        CUT,
        CUT.replace("shown(", "(replay.copy(number=replay.number + 1), shown(").replace("())", "())[1])"),
    ),
)

EDITS = FEEDING + READING + SKIPS + ENDS
