"""Recordings: the writer of records, and the reader of recordings."""

TOO_LONG = "    if length > MOST_LENGTH:\n        return 2, out\n"
TOO_SHORT = "    if len(out) < LENGTH_FIELD + length:\n        return 13, out\n"
WRITTEN = "    return 0, put(record(event, values, length), out)\n"
HEAD_BYTES = 'length.to_bytes(LENGTH_FIELD, "big") + bytes([VERSION, layout.kind])'
REJECTED = '    if "secret" in values and not event.accepted:\n'
LENGTHS = "lengths or [len(values[name]) for name in outputs]"

WRITING = (
    ("a record of 1,024 bytes gets 2", TOO_LONG, TOO_LONG.replace(">", ">=")),
    ("a record of 1,025 bytes is written", TOO_LONG, TOO_LONG.replace("MOST_LENGTH", "MOST_LENGTH + 1")),
    ("the length field counts for the limit", TOO_LONG, TOO_LONG.replace("length >", "LENGTH_FIELD + length >")),
    (
        "the length is counted in two bytes",
        "    length = record_length(event, values)\n",
        "    length = record_length(event, values) % 65_536\n",
    ),
    ("13 comes before 2", TOO_LONG + TOO_SHORT, TOO_SHORT + TOO_LONG),
    ("a long record gets 13", TOO_LONG, TOO_LONG.replace("return 2", "return 13")),
    ("a short output gets 2", TOO_SHORT, TOO_SHORT.replace("return 13", "return 2")),
    ("an output with no byte to spare for a record gets 13", TOO_SHORT, TOO_SHORT.replace("<", "<=")),
    ("an output that lacks a byte of a record is written to", TOO_SHORT, TOO_SHORT.replace("+ length", "+ length - 1")),
    ("an output without room for the length field is written to", TOO_SHORT, TOO_SHORT.replace("LENGTH_FIELD + ", "")),
    ("13 asks for room for the longest record", TOO_SHORT, TOO_SHORT.replace("+ length", "+ MOST_LENGTH")),
    (
        "13 writes the part of a record that has room",
        TOO_SHORT,
        TOO_SHORT.replace("13, out", "13, record(event, values, length)[: len(out)]"),
    ),
    ("2 writes a marker", TOO_LONG, TOO_LONG.replace("2, out", "2, put(bytes([0, 2, 1, 1])[: len(out)], out)")),
    (
        "bytes past a record are cut",
        WRITTEN,
        WRITTEN.replace("put(record(event, values, length), out)", "record(event, values, length)"),
    ),
    ("the length of a record is written little-endian", HEAD_BYTES, HEAD_BYTES.replace('"big"', '"little"')),
    (
        "the length of a record is written with its own field",
        HEAD_BYTES,
        HEAD_BYTES.replace("length.", "(length + LENGTH_FIELD)."),
    ),
    (
        "the length of a record is written without version and kind",
        HEAD_BYTES,
        HEAD_BYTES.replace("length.", "(length - HEAD)."),
    ),
    (
        "the kind is written before the version",
        HEAD_BYTES,
        HEAD_BYTES.replace("VERSION, layout.kind", "layout.kind, VERSION"),
    ),
    ("version 2 is written", HEAD_BYTES, HEAD_BYTES.replace("VERSION", "2")),
    ("the secret of a rejected point is recorded", REJECTED, REJECTED.replace("not event.accepted", "False")),
    ("no secret is recorded", REJECTED, REJECTED.replace(" and not event.accepted", "")),
    (
        "the secret is recorded with requests of 80 bytes alone",
        REJECTED,
        REJECTED.replace("not event.accepted", "(not event.accepted or len(event.data) != 80)"),
    ),
    (
        "a rejected point is recorded with requests of 80 bytes alone",
        REJECTED,
        '    if "data" in values and len(event.data) != 80:\n        values["accepted"] = True\n' + REJECTED,
    ),
    ("the lengths of the outputs are exchanged", LENGTHS, f"({LENGTHS})[::-1]"),
    ("the lengths of the outputs are those that the rules ask for", LENGTHS, "(16, 80)"),
    ("the lengths of the outputs are recorded up to 255", LENGTHS, f"[min(length, 255) for length in {LENGTHS}]"),
)

SIZE = 'int.from_bytes(recording[place:begin], "big")'
WHOLE = "end <= len(recording) and end - begin <= MOST_LENGTH"
FOUND = "        found.append(event or Overflow())\n"
NEXT = "        place = end\n"
WHILE = "    while place < len(recording):\n"
BODY = '    """The event of a record, from what follows its length field, or None."""\n'
KNOWN = "len(body) < HEAD or body[0] != VERSION or body[1] not in BY_KIND"
LEFT = "    return None if data else values\n"
FITS = "        if not 0 <= size <= len(data):\n"
IS_EVENT = 'None not in values.values() and not (rejected and any(values["secret"]))'
OUTPUTS = "bytes(min(values[name], MOST_LENT))"
TOLD = "    return values.get(field.size, field.size)\n"
SHOWN = (
    '        shown = type("Shown", (Overflow,), {})\n'
    "        BY_EVENT[shown] = BY_KIND.get((recording[begin:end] + bytes(HEAD))[1], BY_KIND[1])\n"
)

READING = (
    ("the length of a record is read little-endian", SIZE, SIZE.replace('"big"', '"little"')),
    ("the length of a record is read with its own field", SIZE, f"max(0, {SIZE} - LENGTH_FIELD)"),
    ("the length of a record is read in its last byte alone", SIZE, f"{SIZE} % 256"),
    ("a record of 1,024 bytes is a marker", WHOLE, WHOLE.replace("<= MOST_LENGTH", "< MOST_LENGTH")),
    ("a record of 1,025 bytes is read", WHOLE, WHOLE.replace("<= MOST_LENGTH", "<= MOST_LENGTH + 1")),
    ("a record of any length is read", WHOLE, "end <= len(recording)"),
    ("a cut record is read as far as it goes", WHOLE, "end - begin <= MOST_LENGTH"),
    ("a record that lacks a byte is read", WHOLE, WHOLE.replace("end <= len", "end - 1 <= len")),
    (
        "a bad record is skipped",
        FOUND,
        "        if event or end > len(recording):\n            found.append(event or Overflow())\n",
    ),
    ("a long record is skipped", FOUND, "        if end - begin <= MOST_LENGTH:\n    " + FOUND),
    ("a cut record is ignored", FOUND, "        if end <= len(recording):\n    " + FOUND),
    ("a cut length field is ignored", WHILE, "    while place + 1 < len(recording):\n"),
    ("a cut length field of zero is ignored", WHILE, '    while recording[place:] not in (b"", bytes(1)):\n'),
    (
        "a cut record is shown twice",
        FOUND,
        FOUND + "        if end > len(recording):\n            found.append(Overflow())\n",
    ),
    (
        "a long record that is cut is shown twice",
        FOUND,
        FOUND + "        if end > max(len(recording), begin + MOST_LENGTH):\n            found.append(Overflow())\n",
    ),
    (
        "a long record is a marker for each 1,024 bytes",
        FOUND,
        FOUND + "        found += [Overflow()] * ((end - begin - 1) // MOST_LENGTH)\n",
    ),
    (
        "bad records in a row are one",
        FOUND,
        "        if event or found[-1:] != [Overflow()]:\n            found.append(event or Overflow())\n",
    ),
    ("a bad record ends the recording", NEXT, "        place = end if event else len(recording)\n"),
    (
        "a long record ends the recording",
        NEXT,
        "        place = end if end - begin <= MOST_LENGTH else len(recording)\n",
    ),
    (
        "behind a long record's first byte the next one is read",
        NEXT,
        "        place = end if end - begin <= MOST_LENGTH else place + 1\n",
    ),
    (
        "behind a long record's length field the next one is read",
        NEXT,
        "        place = end if end - begin <= MOST_LENGTH else begin\n",
    ),
    (
        "behind 1,024 bytes of a long record the next one is read",
        NEXT,
        "        place = min(end, begin + MOST_LENGTH)\n",
    ),
    (
        "behind a bad record's first byte the next one is read",
        NEXT,
        "        place = end if event or end - begin > MOST_LENGTH else place + 1\n",
    ),
    (
        "behind a cut record's length field the next one is read",
        NEXT,
        "        place = end if end <= len(recording) else begin\n",
    ),
    (
        "a length of 0 ends the recording",
        WHILE,
        WHILE + "        if recording[place : place + 2] == bytes(2):\n            break\n",
    ),
    (
        "a length of 0 is no record",
        WHILE,
        WHILE + "        if recording[place : place + 2] == bytes(2):\n            place += 2\n            continue\n",
    ),
    ("a bad record is shown as its kind", FOUND, SHOWN + FOUND.replace("Overflow()", "shown()")),
    ("the version is not looked at", KNOWN, KNOWN.replace("body[0] != VERSION or ", "")),
    ("version 0 is read", KNOWN, KNOWN.replace("body[0] != VERSION", "body[0] > VERSION")),
    ("version 2 is read", KNOWN, KNOWN.replace("body[0] != VERSION", "body[0] not in (VERSION, 2)")),
    ("version 255 is read", KNOWN, KNOWN.replace("body[0] != VERSION", "body[0] not in (VERSION, 255)")),
    (
        "version 2 of a power-on is read",
        KNOWN,
        KNOWN.replace("body[0] != VERSION", "body[0] not in (VERSION, 2 if body[1] == 6 else VERSION)"),
    ),
    (
        "the top bit of the kind is not looked at",
        BODY,
        BODY + "    body = body[:1] + bytes(one & 0x7F for one in body[1:2]) + body[2:]\n",
    ),
    ("bytes behind the fields are taken", LEFT, "    return values\n"),
    ("one byte behind the fields is taken", LEFT, "    return None if len(data) > 1 else values\n"),
    ("fields may be too short", FITS, "        if size < 0:\n"),
    ("the last field may lack a byte", FITS, "        if not 0 <= size <= len(data) + (place + 1 == len(fields)):\n"),
    (
        "a list that is longer than the record takes what there is",
        TOLD,
        "    return min(values.get(field.size, field.size), left)\n",
    ),
    ("every value of a flag is read", IS_EVENT, IS_EVENT.replace("None not in values.values() and ", "")),
    ("a rejected point may have a secret", IS_EVENT, "None not in values.values()"),
    (
        "the secret of a rejected point is looked at in its first byte",
        IS_EVENT,
        IS_EVENT.replace('any(values["secret"])', 'values["secret"][0]'),
    ),
    (
        "the secret of a rejected point is looked at in its last byte",
        IS_EVENT,
        IS_EVENT.replace('any(values["secret"])', 'values["secret"][-1]'),
    ),
    (
        "the secret of a rejected point is looked at without its last byte",
        IS_EVENT,
        IS_EVENT.replace('any(values["secret"])', 'any(values["secret"][:-1])'),
    ),
    (
        "an accepted point has to have a secret",
        IS_EVENT,
        IS_EVENT + ' and any(values.get("secret", b"1")) >= values.get("accepted", False)',
    ),
    ("no point has a secret", IS_EVENT, IS_EVENT.replace("rejected and any", '"secret" in values and any')),
    ("outputs of no bytes are lent", OUTPUTS, "bytes(0)"),
    ("outputs are lent as long as the rules ask", OUTPUTS, "bytes(MOST_LENT)"),
    ("the length of an output is read in its last byte", OUTPUTS, "bytes(min(values[name] % 256, MOST_LENT))"),
    ("the length of an output is read in four bytes", OUTPUTS, "bytes(min(values[name] % 2**32, MOST_LENT))"),
    (
        "no output of 2^63 bytes or more is lent",
        OUTPUTS,
        "bytes(min(values[name], MOST_LENT) if values[name] < 2**63 else 0)",
    ),
    (
        "the first output is lent as long as the second",
        OUTPUTS,
        'bytes(min(values.get("packet", values[name]), MOST_LENT))',
    ),
)

EDITS = WRITING + READING
