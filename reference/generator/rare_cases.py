"""Rare cases by name, so that a run can show that it met them."""

from ..rules.aes import decrypt
from ..rules.clock import TIMED
from ..rules.device import MOST_KEYS, Stage
from ..rules.events import AccountKeyWrite, KeyBasedWrite, PasskeyWrite, PowerOn
from ..rules.key_based import MOST_FAILURES, salt_of
from ..rules.stored_list import read_stored_list
from . import name_cases
from .clocks import LAST_CLOCK, LATE

NAMES = (
    "all five stages at once",
    "six links busy",
    "key stored",
    "key evicted",
    "held key written again",
    "stage in time at 9,999",
    "stage over at 10,000",
    "clock back by 1",
    "clock back",
    "late clock taken",
    "last clock taken",
    "tenth failure",
    "5 at 299,999",
    "lock over at 300,000",
    "rejected point",
    "long salt begins with a remembered short one",
    "long salt ends with a remembered short one",
    "short salt ends a remembered long one",
    "salt free again after 16 others",
    "replay of a short salt",
    "replay of a long salt",
    "tenth key fits",
    "full list read",
    "malformed list with a pairing under way",
    "passkey unequal",
    *name_cases.NAMES,
)


class RareCases:
    """Counts the rare cases of a run; it follows the salts accepted since power-on."""

    def __init__(self):
        self.counts = dict.fromkeys(NAMES, 0)
        self.accepted = []
        self.names = name_cases.NameCases(self.met)

    def note(self, before, event, after, reply):
        """One step of the run."""
        self.names.note(before, event, after, reply)
        if isinstance(event, PowerOn):
            self.power_on(before, event, reply)
        if before is None:
            return
        self.clocks(before, event, reply)
        self.links(before, event, after, reply)
        if isinstance(event, KeyBasedWrite):
            self.request(before, event, after, reply)
        if isinstance(event, AccountKeyWrite) and reply.answer == 0:
            self.account_key(before, after)
        self.met("passkey unequal", isinstance(event, PasskeyWrite) and reply.confirm is False)

    def met(self, name, truth):
        self.counts[name] += bool(truth)

    def power_on(self, before, event, reply):
        if reply.answer == 0:
            self.accepted = []
            self.met("full list read", len(read_stored_list(event.stored)) == MOST_KEYS)
        elif before is not None:
            malformed = read_stored_list(event.stored) is None
            self.met("malformed list with a pairing under way", malformed and any(before.links))

    def clocks(self, before, event, reply):
        clock = getattr(event, "clock", None)
        if clock is None:
            return
        self.met("clock back", reply.answer == 4)
        self.met("clock back by 1", reply.answer == 4 and clock == before.clock - 1)
        taken = reply.answer == 0
        self.met("late clock taken", taken and clock > LATE)
        self.met("last clock taken", taken and clock == LAST_CLOCK)

    def links(self, before, event, after, reply):
        stages = {session.stage for session in after.links if session is not None}
        self.met("all five stages at once", len(stages) == len(Stage))
        self.met("six links busy", after.links.count(None) <= 2)
        link = getattr(event, "link", 8)
        session = before.links[link] if link < 8 else None
        # A request is taken at any moment, so it tells nothing of the timer.
        if session is None or session.stage not in TIMED or isinstance(event, KeyBasedWrite):
            return
        age = event.clock - session.began
        self.met("stage in time at 9,999", age == 9_999 and reply.answer == 0)
        self.met("stage over at 10,000", age == 10_000 and reply.answer == 9)

    def request(self, before, event, after, reply):
        age = event.clock - before.failed_at
        locked = before.failures == MOST_FAILURES
        self.met("5 at 299,999", reply.answer == 5 and age == 299_999)
        self.met("lock over at 300,000", locked and reply.answer in (0, 7, 8) and age == 300_000)
        self.met("tenth failure", reply.answer == 7 and after.failures == MOST_FAILURES)
        rejected = len(event.data) == 80 and not event.accepted
        self.met("rejected point", reply.answer == 7 and rejected)
        self.met("tenth key fits", reply.answer in (0, 8) and reply.tried == MOST_KEYS)
        if reply.answer == 8 and len(event.data) == 16:
            salt = salt_of(decrypt(before.keys[reply.tried - 1], event.data))
            self.met("replay of a short salt", len(salt) == 2)
            self.met("replay of a long salt", len(salt) == 8)
        if reply.answer == 0:
            self.salt(before, after.spent[-1])

    def salt(self, before, salt):
        self.met("salt free again after 16 others", salt in self.accepted[-17:-16])
        self.accepted.append(salt)
        if len(salt) == 2:
            ends = any(len(s) == 8 and s[6:] == salt for s in before.spent)
            self.met("short salt ends a remembered long one", ends)
            return
        begins_with, ends_with = salt[:2] in before.spent, salt[6:] in before.spent
        self.met("long salt begins with a remembered short one", begins_with)
        self.met("long salt ends with a remembered short one", ends_with)

    def account_key(self, before, after):
        held = set(before.keys) == set(after.keys)
        self.met("held key written again", held)
        self.met("key stored", not held)
        self.met("key evicted", not held and len(before.keys) == MOST_KEYS)

    def missed(self):
        """The cases that the run did not meet."""
        return [name for name in NAMES if not self.counts[name]]
