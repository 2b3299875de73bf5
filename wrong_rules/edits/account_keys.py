"""The account key list and its order of use."""

USED = "    return tuple(other for other in keys if other != key) + (key,)\n"
WRITTEN = "    return used(keys, key)[-MOST_KEYS:]\n"


def if_held(result):
    """A held key that is used gives this list; a new one goes last."""
    others = "        place, others = keys.index(key), tuple(k for k in keys if k != key)\n"
    return f"    if key in keys:\n{others}        return {result}\n" + USED


def into_full(result):
    """A new key in a full list gives this list."""
    return f"    if key not in keys and len(keys) == MOST_KEYS:\n        return {result}\n" + WRITTEN


def written_again(result, if_so="True"):
    """A held key that is written again gives this list, where this is so."""
    return f"    if key in keys and {if_so}:\n        return {result}\n" + WRITTEN


EDITS = (
    ("a use leaves the order", USED, if_held("keys")),
    ("a used key moves to the front", USED, if_held("(key,) + others")),
    ("a used key becomes the second", USED, if_held("others[:1] + (key,) + others[1:]")),
    ("a used key moves before the last", USED, if_held("others[:-1] + (key,) + others[-1:]")),
    ("a used key moves by one place", USED, if_held("others[: place + 1] + (key,) + others[place + 1 :]")),
    (
        "a used key and the last change places",
        USED,
        if_held("keys[:place] + keys[-1:] + keys[place + 1 : -1] + (key,) if place < len(keys) - 1 else keys"),
    ),
    ("a used key turns the others round", USED, if_held("others[::-1] + (key,)")),
    ("a used key brings those behind it along", USED, if_held("keys[place + 1 :] + keys[: place + 1]")),
    ("a used key stays at its place as well", USED, if_held("keys + (key,)")),
    ("a used key stays at its place as well, and the first is lost", USED, if_held("(keys + (key,))[-MOST_KEYS:]")),
    ("a used key is lost", USED, if_held("others")),
    ("the first key is not moved by a use", USED, if_held("keys if place == 0 else others + (key,)")),
    ("the fourth key is not moved by a use", USED, if_held("keys if place == 3 else others + (key,)")),
    ("the sixth key is not moved by a use", USED, if_held("keys if place == 5 else others + (key,)")),
    ("the ninth key is not moved by a use", USED, if_held("keys if place == 8 else others + (key,)")),
    ("a use moves a key in full lists alone", USED, if_held("others + (key,) if len(keys) == MOST_KEYS else keys")),
    ("a use moves no key in full lists", USED, if_held("keys if len(keys) == MOST_KEYS else others + (key,)")),
    ("keys are compared without their last byte", USED, USED.replace("other != key", "other[:15] != key[:15]")),
    ("keys are compared without their second byte", USED, USED.replace("other != key", "other[2:] != key[2:]")),
    ("a new key goes first", WRITTEN, WRITTEN.replace("used", "((key,) + keys)[:MOST_KEYS] if key not in keys else used")),
    ("a new key removes the last", WRITTEN, into_full("keys[:-1] + (key,)")),
    ("a new key removes the second", WRITTEN, into_full("keys[:1] + keys[2:] + (key,)")),
    ("a new key removes the one in the middle", WRITTEN, into_full("keys[:2] + keys[3:] + (key,)")),
    ("a new key removes two", WRITTEN, into_full("keys[2:] + (key,)")),
    ("a new key takes the place of the first", WRITTEN, into_full("(key,) + keys[1:]")),
    ("a full list takes no key", WRITTEN, into_full("keys")),
    ("a full list is emptied for the new key", WRITTEN, into_full("(key,)")),
    *((f"{most} keys are kept", WRITTEN, WRITTEN.replace("MOST_KEYS", str(most))) for most in range(5, 10)),
    ("a key written again leaves the order", WRITTEN, written_again("keys")),
    (
        "a key written again leaves the order of a full list",
        WRITTEN,
        written_again("keys", "len(keys) == MOST_KEYS"),
    ),
    (
        "a key written again leaves the order of a list that is not full",
        WRITTEN,
        written_again("keys", "len(keys) < MOST_KEYS"),
    ),
    ("a key written again moves to the front", WRITTEN, written_again("(key,) + used(keys, key)[:-1]")),
    ("a key written again is stored a second time", WRITTEN, written_again("(keys + (key,))[-MOST_KEYS:]")),
    ("a key written again removes the first", WRITTEN, written_again("used(keys, key)[1:]", "len(keys) == MOST_KEYS")),
    ("a key written again is removed", WRITTEN, written_again("used(keys, key)[:-1]")),
)
