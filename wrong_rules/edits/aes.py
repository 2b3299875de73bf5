"""AES-128."""

EDITS = (
    ("another polynomial", "MODULUS = 0x11B", "MODULUS = 0x11D"),
    ("another affine constant", "0x63 >> i", "0x64 >> i"),
    ("nine rounds", "ROUNDS = 10", "ROUNDS = 9"),
    ("another column mixing", "MIX = (2, 3, 1, 1)\n", "MIX = (3, 2, 1, 1)\n"),
    ("another inverse column mixing", "INVERSE_MIX = (14, 11, 13, 9)", "INVERSE_MIX = (14, 13, 11, 9)"),
    ("rows are shifted the other way", "(i + 4 * (i % 4)) % 16", "(i - 4 * (i % 4)) % 16"),
    ("round constants grow from the second on", "power_of_two(index // 4 - 1)", "power_of_two(index // 4)"),
    (
        "the last round mixes columns",
        "    return add(SHIFT_ROWS(state.translate(S_BOX)), keys[ROUNDS])\n",
        "    state = bytes(SHIFT_ROWS(state.translate(S_BOX)))\n"
        "    return add(mix_columns(state, MIX), keys[ROUNDS])\n",
    ),
    (
        "a key schedule without rotation",
        "        turned = before[1:] + before[:1]\n",
        "        turned = before\n",
    ),
)
