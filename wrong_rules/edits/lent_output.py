"""Lent outputs."""

EDITS = (
    (
        "bytes past those written become zeros",
        "    return data + out[len(data) :]\n",
        "    return data + bytes(len(out) - len(data))\n",
    ),
    ("bytes past those written are cut", "    return data + out[len(data) :]\n", "    return data\n"),
    ("an output with no byte to spare gets 13", "len(out) < len(data)", "len(out) <= len(data)"),
    ("an output that lacks a byte is written to", "len(out) < len(data)", "len(out) < len(data) - 1"),
    ("13 writes what has room", "        return 13, out\n", "        return 13, data[: len(out)]\n"),
)
