"""Situations of the stored list's versions and of its most keys by name, counted: a run has to reach each of them."""

from ..rules.device import MOST_KEYS
from ..rules.events import AccountKeyWrite, PowerOn
from ..rules.stored_list import HEADER, KEY, MOST_IN

# One beyond the most of each version, and for the older one every number that the newer one takes.
REFUSED = {version: range(most + 1, MOST_KEYS + 2) for version, most in MOST_IN.items()}
# The versions next to those that are read.
OTHERS = (0, 3)
NAMES = (
    *(f"version {version} read with {n} keys" for version, most in MOST_IN.items() for n in range(most + 1)),
    *(f"version {version} refused with {n} keys" for version, counts in REFUSED.items() for n in counts),
    *(f"version {version} refused, all else well-formed" for version in OTHERS),
    "new key behind a full list of version 1",
    "list of version 1 read where more keys were held",
    "last place taken by a new key",
    "new key in a full list",
)


class ListVersions:
    """What is counted as refused has a header that says its number of keys and no key too many or too few."""

    def __init__(self):
        self.counts = dict.fromkeys(NAMES, 0)
        # Whether the last list that was read was a full one of version 1, and no key was stored since.
        self.older_and_full = False

    def note(self, before, event, after, reply):
        """One step of the run."""
        if isinstance(event, PowerOn) and sizes_agree(event.stored):
            self.power_on(before, event.stored, reply)
        if isinstance(event, AccountKeyWrite) and reply.answer == 0 and set(before.keys) != set(after.keys):
            self.new_key(len(before.keys))

    def met(self, name, truth=True):
        self.counts[name] += bool(truth)

    def power_on(self, before, stored, reply):
        version, count = stored[2], stored[3]
        if reply.answer == 0:
            self.met(f"version {version} read with {count} keys")
            more = version == 1 and before is not None and len(before.keys) > MOST_IN[1]
            self.met("list of version 1 read where more keys were held", more)
            self.older_and_full = version == 1 and count == MOST_IN[1]
        elif all_account_keys(stored):
            self.refused(version, count)

    def refused(self, version, count):
        if count in REFUSED.get(version, ()):
            self.met(f"version {version} refused with {count} keys")
        if version in OTHERS:
            self.met(f"version {version} refused, all else well-formed", count <= MOST_KEYS)

    def new_key(self, count):
        self.met("new key behind a full list of version 1", self.older_and_full)
        self.met("last place taken by a new key", count == MOST_KEYS - 1)
        self.met("new key in a full list", count == MOST_KEYS)
        self.older_and_full = False

    def missed(self):
        return [name for name in NAMES if not self.counts[name]]


def sizes_agree(stored):
    """Whether length and count are those of the bytes."""
    if len(stored) < HEADER:
        return False
    size = HEADER + KEY * stored[3]
    return len(stored) == size and int.from_bytes(stored[:2], "big") == size - 2


def all_account_keys(stored):
    """Whether its keys are account keys, none of them twice: the list is refused for its version or count alone."""
    keys = [stored[at : at + KEY] for at in range(HEADER, len(stored), KEY)]
    return all(key[0] == 0x04 for key in keys) and len(set(keys)) == len(keys)
