"""Situations of the kept filter by name, counted: a run has to reach each of them."""

from ..rules.device import MOST_KEYS
from ..rules.events import AccountKeyWrite, AddressRotated, FactoryReset, KeyBasedWrite, PowerOn

COUNTS = range(MOST_KEYS + 1)
NAMES = (
    *(f"filter built at power-on, {count} keys" for count in COUNTS),
    *(f"filter built at a rotation, {count} keys" for count in COUNTS),
    *(f"filter built for a new key, {count} before it" for count in COUNTS),
    "filter built at a rotation in pairing mode",
    "filter built at a rotation to the same salt",
    "filter built for a new key in pairing mode",
    "filter emptied by a reset of a full list",
    "filter left by a refused rotation",
    "filter left by a refused reset",
    "filter left by a refused power-on",
    "filter left by a refused account key write",
    "filter left by a held key that moves",
    "filter left by a request whose key moves",
)


class Filters:
    """What is counted has keys in its list, where the name does not say how many."""

    def __init__(self):
        self.counts = dict.fromkeys(NAMES, 0)

    def note(self, before, event, after, reply):
        """One step of the run."""
        kind = KINDS.get(type(event))
        if kind and reply.answer == 0:
            kind(self, before, event, after)
        elif type(event) in REFUSED and before is not None and before.keys:
            self.met(f"filter left by a refused {REFUSED[type(event)]}")

    def met(self, name, truth=True):
        self.counts[name] += bool(truth)

    def power_on(self, before, event, after):
        self.met(f"filter built at power-on, {len(after.keys)} keys")

    def rotated(self, before, event, after):
        self.met(f"filter built at a rotation, {len(after.keys)} keys")
        self.met("filter built at a rotation in pairing mode", after.keys and after.pairing_mode)
        self.met("filter built at a rotation to the same salt", after.keys and before.salt == after.salt)

    def reset(self, before, event, after):
        self.met("filter emptied by a reset of a full list", len(before.keys) == MOST_KEYS)

    def account_key(self, before, event, after):
        if set(before.keys) == set(after.keys):
            self.met("filter left by a held key that moves", before.keys != after.keys)
            return
        self.met(f"filter built for a new key, {len(before.keys)} before it")
        self.met("filter built for a new key in pairing mode", after.pairing_mode)

    def request(self, before, event, after):
        self.met("filter left by a request whose key moves", before.keys != after.keys)

    def missed(self):
        return [name for name in NAMES if not self.counts[name]]


KINDS = {
    PowerOn: Filters.power_on,
    AddressRotated: Filters.rotated,
    FactoryReset: Filters.reset,
    AccountKeyWrite: Filters.account_key,
    KeyBasedWrite: Filters.request,
}
REFUSED = {
    PowerOn: "power-on",
    AddressRotated: "rotation",
    FactoryReset: "reset",
    AccountKeyWrite: "account key write",
}
