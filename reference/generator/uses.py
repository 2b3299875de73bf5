"""Situations of the use of account keys by name, counted: a run has to reach each of them."""

from ..rules.device import MOST_KEYS
from ..rules.events import AccountKeyWrite, KeyBasedWrite, PowerOn

PLACES = range(1, MOST_KEYS + 1)
BY_REQUEST = "a request"
BY_WRITING = "being written again"
NAMES = (
    *(f"full list, request by the key at place {place}" for place in PLACES),
    *(f"full list, key at place {place} written again" for place in PLACES),
    *(f"key stored longest ago kept, for its use by {way}" for way in (BY_REQUEST, BY_WRITING)),
    "request by a key that is K on another link",
    "80 bytes, K equals a held key that is not last",
    "8 for a key that is not last",
)


class Uses:
    """Follows the order of storing, and how each key was last used by something else than being stored."""

    def __init__(self):
        self.counts = dict.fromkeys(NAMES, 0)
        self.stored = []
        self.last_use = {}

    def note(self, before, event, after, reply):
        """One step of the run."""
        if isinstance(event, PowerOn) and reply.answer == 0:
            # The keys of a list that was read count as stored in its order.
            self.stored = list(after.keys)
        if isinstance(event, KeyBasedWrite) and reply.answer in (0, 8):
            note = self.request if len(event.data) == 16 else self.public_request
            note(before, event, after, reply)
        if isinstance(event, AccountKeyWrite) and reply.answer == 0:
            self.account_key(before.keys, after.keys)

    def met(self, name, truth=True):
        self.counts[name] += bool(truth)

    def request(self, before, event, after, reply):
        """A request of 16 bytes that a key fits."""
        keys, place = before.keys, reply.tried
        if reply.answer == 8:
            self.met("8 for a key that is not last", place < len(keys))
            return
        key = keys[place - 1]
        self.last_use[key] = BY_REQUEST
        if len(keys) == MOST_KEYS:
            self.met(f"full list, request by the key at place {place}")
        others = (session for link, session in enumerate(after.links) if session and link != event.link)
        self.met("request by a key that is K on another link", key in (session.key for session in others))

    def public_request(self, before, event, after, reply):
        if reply.answer == 0:
            held = after.links[event.link].key in before.keys[:-1]
            self.met("80 bytes, K equals a held key that is not last", held)

    def account_key(self, before, after):
        """The keys around a write that was taken; the written one is last."""
        key = after[-1]
        if key not in before:
            self.evicted(set(before) - set(after))
            self.stored = [held for held in self.stored if held in after[:-1]] + [key]
            return
        self.last_use[key] = BY_WRITING
        if len(before) == MOST_KEYS:
            self.met(f"full list, key at place {before.index(key) + 1} written again")

    def evicted(self, removed):
        """A key was removed although another one was stored before it: that one was used since."""
        if removed and self.stored[0] not in removed:
            self.met(f"key stored longest ago kept, for its use by {self.last_use[self.stored[0]]}")

    def missed(self):
        return [name for name in NAMES if not self.counts[name]]
