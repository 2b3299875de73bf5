"""The situations of the wait for a rotation: each is counted where it occurs, and beside it not."""

import unittest

from ..generator.waits import NAMES, Waits
from ..rules.events import AddressRotated, FactoryReset, LinkDown, LinkUp, Overflow, PairingMode, PowerOn
from ..rules.stored_list import pack
from .device_under_test import (
    BLE,
    FILTER_SALT,
    MODEL,
    NAME,
    PUBLIC,
    SEEKER,
    DeviceUnderTest,
    account_key,
    power_on,
)

KEYS = [account_key(i) for i in range(3)]
NO_KEY = account_key(19)
OTHER = BLE[::-1]
SPENT = b"\xaa" * 8


class Counted(DeviceUnderTest):
    """A device under test in pairing mode, with a spent salt; its steps are noted."""

    def __init__(self):
        self.waits = Waits()
        super().__init__(KEYS)
        self.pairing_mode(True)
        self.request(KEYS[2], 7, salt=SPENT)
        self.count_from_here()

    def send(self, event):
        before = self.device
        answer = super().send(event)
        self.waits.note(before, event, self.device, self.reply)
        return answer

    def count_from_here(self):
        self.waits.counts = dict.fromkeys(NAMES, 0)

    def rotate(self, ble=OTHER, clock=0):
        return self.send(AddressRotated(ble, FILTER_SALT, clock))

    def counts(self):
        return {name for name, times in self.waits.counts.items() if times}


def waiting(clock=0):
    """A device that waits for a rotation since a request on link 0."""
    tested = Counted()
    tested.request(KEYS[1], 0, clock, address=BLE)
    tested.count_from_here()
    return tested


class Situations(unittest.TestCase):
    def check(self, tested, answer, *names):
        """The last answer, and all that was counted."""
        self.assertEqual(tested.reply.answer, answer)
        self.assertEqual(tested.counts(), set(names))


class Accepted(Situations):
    def test_sizes_and_addresses(self):
        for address, named in ((BLE, "BLE"), (PUBLIC, "public")):
            tested = Counted()
            tested.request(KEYS[0], address=address)
            self.check(tested, 0, f"16 bytes accepted, {named} address named")
            tested = Counted()
            tested.public_request(address=address)
            self.check(tested, 0, f"80 bytes accepted, {named} address named")

    def test_equal_addresses(self):
        equal, named = "accepted with both addresses equal since ", "16 bytes accepted, BLE address named"
        tested = Counted()
        tested.send(PowerOn(pack(KEYS), NAME, PUBLIC, PUBLIC, MODEL, FILTER_SALT))
        tested.request(KEYS[0])
        self.check(tested, 0, named, equal + "power-on")
        tested = Counted()
        tested.rotate(PUBLIC)
        tested.request(KEYS[0])
        self.check(tested, 0, named, equal + "a rotation")

    def test_after_failures(self):
        for address, named in ((BLE, "BLE"), (PUBLIC, "public")):
            tested = Counted()
            tested.request(NO_KEY)
            self.check(tested, 7)
            tested.request(KEYS[0], address=address)
            after = f"accepted after failures, {named} address named"
            self.check(tested, 0, after, f"16 bytes accepted, {named} address named")

    def test_not_after_failures_that_time_has_forgotten(self):
        for clock, names in ((299_999, ["accepted after failures, public address named"]), (300_000, [])):
            tested = Counted()
            tested.request(NO_KEY)
            tested.request(KEYS[0], clock=clock)
            self.check(tested, 0, "16 bytes accepted, public address named", *names)

    def test_after_8(self):
        for address, names in ((BLE, ["tried after 8 for the BLE address"]), (PUBLIC, [])):
            tested = Counted()
            tested.request(KEYS[0], address=address, salt=SPENT)
            self.check(tested, 8)
            tested.request(NO_KEY)
            self.check(tested, 7, *names)
            tested.request(NO_KEY)
            self.assertEqual(sum(tested.waits.counts.values()), len(names))

    def test_not_after_8_and_a_rotation(self):
        tested = Counted()
        tested.request(KEYS[0], address=BLE, salt=SPENT)
        tested.rotate()
        tested.request(NO_KEY)
        self.check(tested, 7)


class Awaited(Situations):
    def test_sorts_of_requests(self):
        on_another = "16 on another link"
        for parts, words in (
            ({"address": BLE}, "that name the BLE address"),
            ({"address": PUBLIC}, "that name the public address"),
            ({"address": SEEKER}, "that no key fits"),
            ({"salt": SPENT}, "with a remembered salt"),
        ):
            tested = waiting()
            tested.request(KEYS[0], 1, **parts)
            self.check(tested, 16, on_another, f"16 for 16 bytes {words}")
            tested = waiting()
            tested.public_request(1, **parts)
            self.check(tested, 16, on_another, f"16 for 80 bytes {words}")

    def test_pairing_mode_off_and_rejected_point(self):
        rejected, after = "16 for 80 bytes with a rejected point", "16 after a pairing mode event"
        tested = waiting()
        tested.public_request(1, accepted=False)
        self.check(tested, 16, "16 on another link", "16 for 80 bytes that no key fits", rejected)
        tested = waiting()
        tested.pairing_mode(False)
        tested.public_request(1, accepted=False)
        self.check(tested, 16, "16 on another link", "16 for 80 bytes with pairing mode off", after)

    def test_links(self):
        for link, which in ((0, "the same"), (1, "another"), (7, "another")):
            tested = waiting()
            tested.request(KEYS[0], link)
            self.check(tested, 16, f"16 on {which} link", "16 for 16 bytes that name the public address")

    def test_times(self):
        for clock, names in ((9_999, ()), (10_000, (10_000,)), (299_999, (10_000,)), (300_000, (10_000, 300_000))):
            tested = waiting(clock=5)
            tested.request(NO_KEY, 0, 5 + clock)
            times = (f"16 after {time:,} ms" for time in names)
            self.check(tested, 16, "16 on the same link", "16 for 16 bytes that no key fits", *times)

    def test_refusals_before_it(self):
        for answer, parts in (
            (1, {"link": 8}),
            (13, {"out": b""}),
            (4, {"clock": 0}),
        ):
            tested = waiting(clock=1)
            tested.request(KEYS[0], **{"clock": 1, **parts})
            self.check(tested, answer, f"{answer} for a request during the wait")
        tested = waiting()
        tested.raw_request(bytes(15))
        self.check(tested, 2, "2 for a request during the wait")


class NotLifted(Situations):
    def check_after(self, tested, *names):
        after = (f"16 after {name}" for name in names)
        tested.request(NO_KEY, 1, 5)
        self.check(tested, 16, "16 on another link", "16 for 16 bytes that no key fits", *after)

    def test_events(self):
        refused = PowerOn(b"", NAME, PUBLIC, BLE, MODEL, FILTER_SALT)
        for event, *names in (
            (Overflow(), "a marker"),
            (LinkUp(0, 5), "link up on its link"),
            (LinkDown(0, 5), "link down on its link"),
            (LinkUp(1, 5),),
            (LinkDown(8, 5),),
            (PairingMode(True, 5), "a pairing mode event"),
            (PairingMode(True, 4),),
            (AddressRotated(OTHER, FILTER_SALT, 4), "a refused rotation"),
            (FactoryReset(4), "a refused reset"),
            (refused, "a refused power-on"),
            (power_on(KEYS, b"\xff"), "a refused power-on"),
        ):
            tested = waiting(clock=5)
            tested.send(event)
            self.check_after(tested, *names)

    def test_several_events(self):
        tested = waiting()
        tested.send(Overflow())
        tested.send(LinkDown(0, 0))
        self.check_after(tested, "a marker", "link down on its link")

    def test_account_key_and_name(self):
        for link, names in ((0, ("an account key write on its link", "a name write on its link")), (7, ())):
            tested = waiting()
            key = KEYS[1] if link == 0 else KEYS[2]
            tested.name_write(key, b"name", link)
            self.assertEqual(tested.reply.answer, 0)
            tested.pairing_started(link)
            tested.confirmation_needed(link)
            tested.passkey_write(key, link)
            tested.pairing_ended(link)
            self.assertEqual(tested.account_key_write(key, account_key(9), link), 0)
            self.check_after(tested, *names)

    def test_each_wait_begins_anew(self):
        tested = waiting()
        tested.send(Overflow())
        tested.rotate()
        tested.request(KEYS[0], address=OTHER)
        tested.count_from_here()
        self.check_after(tested)


class Lifted(Situations):
    def lifted(self, tested, *names):
        """An accepted request after the wait."""
        tested.public_request()
        self.check(tested, 0, "80 bytes accepted, public address named", *names)

    def test_rotations(self):
        for ble, name in ((OTHER, "another"), (BLE, "the same")):
            tested = waiting()
            tested.rotate(ble)
            self.lifted(tested, f"accepted after a rotation to {name} address")
            tested.count_from_here()
            self.lifted(tested)

    def test_power_on_and_reset(self):
        tested = waiting()
        tested.send(power_on(KEYS))
        tested.pairing_mode(True)
        self.lifted(tested, "accepted after power-on")
        tested = waiting()
        tested.send(FactoryReset(0))
        self.lifted(tested, "accepted after a reset")

    def test_nothing_was_awaited(self):
        for event in (AddressRotated(OTHER, FILTER_SALT, 0), FactoryReset(0)):
            tested = Counted()
            tested.send(event)
            self.lifted(tested)

    def test_the_first_request_gets_another_answer(self):
        for answer, send in (
            (6, lambda tested: tested.public_request()),
            (7, lambda tested: tested.request(NO_KEY)),
            (8, lambda tested: tested.request(KEYS[0], salt=SPENT)),
        ):
            tested = waiting()
            tested.pairing_mode(answer != 6)
            tested.rotate()
            send(tested)
            self.check(tested, answer, f"{answer} for the first request after a wait")
            send(tested)
            self.assertEqual(sum(tested.waits.counts.values()), 1)

    def test_refusals_do_not_count_as_the_first(self):
        tested = waiting()
        tested.rotate()
        tested.request(KEYS[0], out=b"")
        self.lifted(tested, "accepted after a rotation to another address")


class Counting(unittest.TestCase):
    def test_every_situation_has_a_name(self):
        self.assertEqual(len(NAMES), len(set(NAMES)))
        self.assertEqual(Waits().missed(), list(NAMES))

    def test_another_run_begins(self):
        tested = waiting()
        tested.send(Overflow())
        tested.device = None
        tested.send(power_on(KEYS))
        tested.request(KEYS[0])
        self.assertEqual(tested.counts(), {"16 bytes accepted, public address named"})


if __name__ == "__main__":
    unittest.main()
