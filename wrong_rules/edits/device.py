"""The numbers of links and of keys, and the change of one link."""

HELD = "    links = device.links[:link] + (session,) + device.links[link + 1 :]\n"

EDITS = (
    ("a ninth link", "LINKS = 8", "LINKS = 9"),
    ("seven links", "LINKS = 8", "LINKS = 7"),
    *((f"{most} keys at most", "MOST_KEYS = 10", f"MOST_KEYS = {most}") for most in range(5, 10)),
    (
        "a change of a link drops K on the later ones",
        HELD,
        "    links = device.links[:link] + (session,) + (None,) * (7 - link)\n",
    ),
    (
        "a change of a link drops K on the earlier ones",
        HELD,
        "    links = (None,) * link + (session,) + device.links[link + 1 :]\n",
    ),
    (
        "a change of a link changes the link beside it too",
        HELD,
        HELD + "    links = links[: link ^ 1] + (session,) + links[(link ^ 1) + 1 :]\n",
    ),
    (
        "dropping K on all links leaves link 7",
        "return device.copy(links=(None,) * LINKS)",
        "return device.copy(links=(None,) * 7 + device.links[7:])",
    ),
)
