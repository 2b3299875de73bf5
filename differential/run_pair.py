"""The two runs of demand 3, in document 01's words, on the library alone."""

from reference.rules.events import (
    AccountKeyWrite,
    KeyBasedWrite,
    NameWrite,
    Overflow,
    PasskeyWrite,
    PowerOn,
    lent_outputs,
)
from reference.rules.stored_list import read_stored_list

from .guarded_memory import InterfaceViolation
from .structs import STORED_LIST_MAX

IDLE, AWAITED = 9, 16
# Every number that a link can have in C, those above 7 too.
EVERY_LINK = frozenset(range(256))
NEED_A_KEY = (PasskeyWrite, AccountKeyWrite, NameWrite)
# What an account key write or a name write writes.
NEW_KEY, HELD_KEY, NAME = WRITTEN = ("a new key", "a held key", "a name")
# Under what the wait for a rotation is counted, which an added marker must not lift.
MARKED, COMPARED, REFUSED = DURING_WAIT = (
    "markers added during a wait for a rotation",
    "events compared during a wait for a rotation",
    "16 in both runs",
)


def taken_write(event, reply, stored):
    """What a run writes by this event, if it takes it, else None."""
    if not isinstance(event, (AccountKeyWrite, NameWrite)) or reply.answer != 0:
        return None
    if isinstance(event, NameWrite):
        return NAME
    return NEW_KEY if stored else HELD_KEY


def parts(what, second):
    """ "the first account key write, of a new or a held key, or name that only the first run takes" """
    return what is not None and second.answer != 0


def parting_by(what):
    """Under what partings are counted."""
    return f"partings by {what}"


def compared_after(what):
    """Under what events are counted that are compared after both took such a write, other links being apart."""
    return f"compared after both took {what}, other links apart"


def after_marker(kind):
    """Under what events of this kind are counted, on a link that waits for a request since a marker."""
    return f"{kind.__name__} after a marker"


def first_device(library, entry):
    """The device that a taken power-on gives, or None if this entry is none."""
    event, added = entry
    if added or not isinstance(event, PowerOn):
        return None
    device, reply = library.step(library.off(), event)
    return device if reply.answer == 0 else None


class Run:
    """One run: its device, its list written out, its name, and the links that wait for a request."""

    def __init__(self, library, device):
        self.library = library
        self.device = device
        self.list = self.written()
        self.name = self.shown_name()
        self.waiting = frozenset()

    def written(self):
        """The stored list, written out."""
        _, length, out = self.library.stored_list(self.device, bytes(STORED_LIST_MAX))
        return out[:length]

    def shown_name(self):
        """The name that the device shows."""
        name = self.device.name
        return bytes(name.bytes[: name.length])

    def send(self, event):
        """The reply, and the keys that the event stored."""
        before = keys(self.list)
        self.device, reply = self.library.step(self.device, event)
        self.list, self.name = self.written(), self.shown_name()
        return reply, keys(self.list) - before

    def forbidden_after_marker(self, event, reply, stored, counts):
        """What demand 3's last sentence forbids on a link between a marker and an accepted request, or None."""
        if isinstance(event, Overflow):
            self.waiting = EVERY_LINK
        link = getattr(event, "link", None)
        if link not in self.waiting:
            return None
        counts[after_marker(type(event))] += 1
        # "no passkey write, no account key write and no name write gets 0", and no event of any kind stores a key
        if stored or (isinstance(event, NEED_A_KEY) and reply.answer == 0):
            return f"after a marker and no request on link {link}: {event} got {reply}, stored {stored}"
        if isinstance(event, KeyBasedWrite) and reply.answer == 0:
            self.waiting -= {link}
        return None


class RunPair:
    """Both runs, from the same device."""

    def __init__(self, library, device, counts):
        self.first = Run(library, device)
        self.second = Run(library, device)
        self.counts = counts
        self.parted = False
        self.both_took = None

    def send(self, event, added):
        """What breaks the demand, or None."""
        try:
            return self.marker() if added else self.event(event)
        except InterfaceViolation as violation:
            return f"two runs: {violation}"

    def marker(self):
        """An added marker goes to the second run, and is compared with nothing."""
        self.counts["markers added"] += 1
        self.counts[MARKED] += self.second.device.rotation_awaited
        reply, stored = self.second.send(Overflow())
        return self.second.forbidden_after_marker(Overflow(), reply, stored, self.counts)

    def event(self, event):
        """An event of the list goes to both runs."""
        first, second = self.first.send(event), self.second.send(event)
        return (
            self.first.forbidden_after_marker(event, *first, self.counts)
            or self.second.forbidden_after_marker(event, *second, self.counts)
            or self.compare(event, *first, *second)
        )

    def compare(self, event, first, stored_first, second, stored_second):
        """Nothing is asked behind the parting."""
        if self.parted:
            return None
        self.counts["events compared"] += 1
        self.counts[COMPARED] += self.second.device.rotation_awaited
        self.counts[REFUSED] += first.answer == second.answer == AWAITED
        if self.both_took:
            self.counts[compared_after(self.both_took)] += 1
        if not self.alike(event, first, second):
            return f"two runs: {event} got {first} and {second}"
        # "where the second stores a key the first stores the same"
        if not stored_second <= stored_first:
            return f"two runs: {event} stored {stored_second} in the second run alone"
        what = taken_write(event, first, stored_first)
        if parts(what, second):
            self.parted = True
            self.counts[parting_by(what)] += 1
            return None
        if what and self.links_apart():
            self.both_took = what
        return self.unequal(event)

    def links_apart(self):
        """Whether a link holds something else in the one run than in the other."""
        return bytes(self.first.device.sessions) != bytes(self.second.device.sessions)

    def unequal(self, event):
        """What the two devices show differently, or None; up to the parting they show the same."""
        if self.first.list != self.second.list:
            return f"two runs: stored lists differ after {event}"
        if self.first.name != self.second.name:
            return f"two runs: names differ after {event}"
        # "In demand 3 this wait is alike in both runs."
        if self.first.device.rotation_awaited != self.second.device.rotation_awaited:
            return f"two runs: waits for a rotation differ after {event}"
        return None

    def alike(self, event, first, second):
        """The same answer, values and bytes, or 9 with untouched outputs in the second run only."""
        if first == second:
            return True
        untouched = (second.out, second.packet) == lent_outputs(event)
        lost = first.answer != IDLE and second.answer == IDLE and untouched
        self.counts["only the second got 9"] += lost
        return lost


def keys(text):
    """The keys that a written list holds."""
    read = read_stored_list(text)
    if read is None:
        raise InterfaceViolation(f"a stored list that can't be read: {text.hex()}")
    return set(read)
