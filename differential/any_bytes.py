"""Any bytes as a device: some get 255, some are the same device, and others are served as they stand."""

from collections import Counter
from random import Random

from reference.generator.every_kind import one_of_each
from reference.rules.advertising import filter_size
from reference.rules.events import (
    AddressRotated,
    FactoryReset,
    KeyBasedWrite,
    Overflow,
    PairingMode,
    PowerOn,
    plain_reply,
)

from . import corrupted_device
from .compare import Difference
from .guarded_memory import InterfaceViolation
from .struct_values import differing, keys, values

NOT_A_DEVICE = 255
LAST_ANSWER = AWAITED = 16
# Of a key-based write: what comes before 16 in the order of checks.
BEFORE_AWAITED = (1, 2, 13, 4)


class AnyBytes:
    """Corrupts devices of a run and hands them to every function."""

    def __init__(self, library, seed):
        self.library = library
        self.random = Random(seed)
        self.tried = Counter()

    def check(self, device, event):
        """The first difference of this device, or None; the event is the run's next one."""
        kinds = (event, *one_of_each(self.random, device.clock))
        try:
            return (
                self.refused(device, kinds)
                or self.ignored(device, kinds)
                or self.answered(device, kinds)
                or self.served(device, kinds)
                or self.waits(device, kinds)
            )
        except InterfaceViolation as violation:
            return Difference("any bytes: memory or reply", "", str(violation))

    def never_tried(self):
        ways = (*corrupted_device.NO_DEVICE, *corrupted_device.SAME_DEVICE, corrupted_device.made_to_wait)
        return [way.__name__ for way in ways if not self.tried[way.__name__]]

    def refused(self, device, kinds):
        """ "the fp_device handed in is none; it comes back as it was, nothing is written" """
        fault = self.random.choice(corrupted_device.NO_DEVICE)
        corrupted = corrupted_device.copy(device)
        fault(self.random, corrupted)
        self.tried[fault.__name__] += 1
        for event in kinds:
            expected = values(corrupted), plain_reply(event, NOT_A_DEVICE)
            found = self.step(corrupted, event)
            if expected != found:
                return differs(fault, event, corrupted, expected, found)
        out = self.random.randbytes(self.random.randrange(180))
        expected = [(NOT_A_DEVICE, 0, out)] * 3
        found = self.questions(corrupted, out)
        return None if expected == found else differs(fault, "questions", corrupted, expected, found)

    def ignored(self, device, kinds):
        """ "Not looked at, and zero in the device that comes back"; version 0x01 comes back as 0x02."""
        place = self.random.choice(corrupted_device.SAME_DEVICE)
        corrupted = corrupted_device.copy(device)
        if not place(self.random, corrupted):
            return None
        self.tried[place.__name__] += 1
        for event in kinds:
            expected, found = self.step(device, event), self.step(corrupted, event)
            if expected != found:
                return differs(place, event, corrupted, expected, found)
        out = self.random.randbytes(self.random.randrange(180))
        expected, found = self.questions(device, out), self.questions(corrupted, out)
        return None if expected == found else differs(place, "questions", corrupted, expected, found)

    def answered(self, device, kinds):
        """ "Any bytes .. get one answer": one of the table, and what comes back is a device."""
        odd = corrupted_device.copy(device)
        corrupted_device.any_numbers(self.random, odd)
        for event in kinds:
            after, reply = self.library.step(odd, event)
            _, again = self.library.step(after, Overflow())
            if reply.answer > LAST_ANSWER or again.answer != 0:
                return differs(corrupted_device.any_numbers, event, odd, "an answer of the table", reply)
        return None

    def served(self, device, kinds):
        """ "a device whose filter you changed advertises it so .. until one of these events" """
        other = corrupted_device.copy(device)
        corrupted_device.other_filter(self.random, other)
        for event in kinds:
            expected, reply = self.library.step(device, event)
            if not builds(event, device, expected, reply):
                expected.filter = other.filter
            found = self.step(other, event)
            if (values(expected), reply) != found:
                return differs(corrupted_device.other_filter, event, other, (values(expected), reply), found)
        return self.shown(other)

    def waits(self, device, kinds):
        """A device with the wait set by hand: its requests get 16, and every other event does what it did without."""
        other, way = corrupted_device.copy(device), corrupted_device.made_to_wait
        if not way(self.random, other):
            return None
        self.tried[way.__name__] += 1
        for event in kinds:
            expected, found = self.with_wait(device, event), self.step(other, event)
            if expected != found:
                return differs(way, event, other, expected, found)
        return None

    def with_wait(self, device, event):
        """What the event would give if the device waited for a rotation."""
        after, reply = self.library.step(device, event)
        if isinstance(event, KeyBasedWrite) and reply.answer not in BEFORE_AWAITED:
            # "clock step only": another event makes no more, if it leaves the mode as it is.
            after, _ = self.library.step(device, PairingMode(bool(device.pairing), event.clock))
            reply = plain_reply(event, AWAITED)
        lifted = isinstance(event, (PowerOn, AddressRotated, FactoryReset)) and reply.answer == 0
        after.rotation_awaited = 0 if lifted else 1
        return values(after), reply

    def shown(self, device):
        """The payload copies the filter as it stands."""
        count = len(keys(device))
        if device.pairing or not count:
            return None
        _, _, out = self.library.advertisement(device, 0, bytes(40))
        size = filter_size(count)
        expected, found = bytes(device.filter[:size]), out[6 : 6 + size]
        return None if expected == found else differs(corrupted_device.other_filter, "payload", device, expected, found)

    def step(self, device, event):
        after, reply = self.library.step(device, event)
        return values(after), reply

    def questions(self, device, out):
        """The stored list and both forms of the payload."""
        ask = self.library.advertisement
        return [self.library.stored_list(device, out), ask(device, 0, out), ask(device, 1, out)]


def builds(event, before, after, reply):
    """Whether the event builds the filter: a new salt, or other keys."""
    if isinstance(event, (PowerOn, AddressRotated, FactoryReset)):
        return reply.answer == 0
    return sorted(keys(before)) != sorted(keys(after))


def differs(fault, event, device, expected, found):
    """The difference, with the device's bytes."""
    what = f"any bytes: {fault.__name__}, {event!r}, device {bytes(device).hex()}"
    if isinstance(expected, tuple):
        ours, theirs = differing(expected[0], found[0])
        return Difference(what, (ours, expected[1]), (theirs, found[1]))
    return Difference(what, expected, found)
