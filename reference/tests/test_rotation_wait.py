"""Which address a request named, and the wait for a rotation: request (vii) of document 02."""

import unittest

from ..rules.events import (
    AddressRotated,
    FactoryReset,
    LinkDown,
    LinkUp,
    Named,
    Overflow,
    PairingMode,
    PowerOn,
)
from ..rules.stored_list import pack
from .device_under_test import (
    BLE,
    FILTER_SALT,
    MODEL,
    NAME,
    OUT,
    PACKET,
    PUBLIC,
    SEEKER,
    DeviceUnderTest,
    account_key,
    power_on,
)

KEYS = [account_key(i) for i in range(3)]
NO_KEY = account_key(19)
OTHER = bytes.fromhex("B0B1B2B3B4B6")
OTHER_SALT = bytes.fromhex("0102")


def waiting(link=0, clock=50):
    """A device whose last request named the BLE address; a salt is remembered from before."""
    tested = DeviceUnderTest(KEYS)
    tested.request(KEYS[2], 7, clock, salt=b"\xaa" * 8)
    tested.request(KEYS[2], link, clock, address=BLE)
    return tested


def rotated_to(ble, clock=50):
    return AddressRotated(ble, OTHER_SALT, clock)


def every_request(tested):
    """A request of every sort, each as a function of link and clock."""
    return {
        "BLE address": lambda link, clock: tested.request(KEYS[0], link, clock, address=BLE),
        "public address": lambda link, clock: tested.request(KEYS[0], link, clock, address=PUBLIC),
        "name wanted": lambda link, clock: tested.request(KEYS[0], link, clock, flags=0x20),
        "remembered salt": lambda link, clock: tested.request(KEYS[0], link, clock, salt=b"\xaa" * 8),
        "no key fits": lambda link, clock: tested.request(NO_KEY, link, clock),
        "another address": lambda link, clock: tested.request(KEYS[0], link, clock, address=SEEKER),
        "another type": lambda link, clock: tested.request(KEYS[0], link, clock, kind=0x10),
        "80 bytes": lambda link, clock: tested.public_request(link, clock),
        "80 bytes, BLE address": lambda link, clock: tested.public_request(link, clock, address=BLE),
        "80 bytes, remembered salt": lambda link, clock: tested.public_request(link, clock, salt=b"\xaa" * 8),
        "80 bytes, rejected point": lambda link, clock: tested.public_request(link, clock, accepted=False),
        "80 bytes, no key fits": lambda link, clock: tested.public_request(link, clock, key=NO_KEY),
    }


class NamedAddress(unittest.TestCase):
    """ "The accepted answer hands this on, and a request that named the BLE address asks the radio to rotate." """

    def check(self, tested, send, named):
        self.assertEqual(send(), 0)
        self.assertIs(tested.reply.named, named)
        self.assertIs(tested.device.rotation_awaited, named is Named.BLE)

    def test_16_and_80_bytes(self):
        for address, named in ((BLE, Named.BLE), (PUBLIC, Named.PUBLIC)):
            for key in KEYS:
                tested = DeviceUnderTest(KEYS)
                self.check(tested, lambda: tested.request(key, address=address), named)
            tested = DeviceUnderTest(KEYS)
            tested.pairing_mode(True)
            self.check(tested, lambda: tested.public_request(address=address), named)

    def test_with_each_flag(self):
        for flags in (0x40, 0x10, 0x20, 0x80):
            parts = {"seeker_address": SEEKER, "salt": b"\x01\x02"} if flags in (0x40, 0x10) else {}
            for address, named in ((BLE, Named.BLE), (PUBLIC, Named.PUBLIC)):
                tested = DeviceUnderTest(KEYS)
                self.check(tested, lambda: tested.request(KEYS[0], flags=flags, address=address, **parts), named)

    def test_equal_addresses(self):
        tested = DeviceUnderTest(KEYS)
        tested.send(PowerOn(pack(KEYS), NAME, PUBLIC, PUBLIC, MODEL, FILTER_SALT))
        self.check(tested, lambda: tested.request(KEYS[0], address=PUBLIC), Named.BLE)
        tested = DeviceUnderTest(KEYS)
        tested.send(rotated_to(PUBLIC, 0))
        self.check(tested, lambda: tested.request(KEYS[0], address=PUBLIC), Named.BLE)

    def test_the_address_of_now(self):
        tested = DeviceUnderTest(KEYS)
        tested.send(rotated_to(OTHER))
        self.assertEqual(tested.request(KEYS[0], clock=50, address=BLE), 7)
        self.check(tested, lambda: tested.request(KEYS[0], clock=50, address=OTHER), Named.BLE)

    def test_other_answers_hand_out_none(self):
        tested = DeviceUnderTest(KEYS)
        parts = {"address": BLE, "salt": b"\x05" * 8}
        sent = (
            (2, lambda: tested.raw_request(bytes(17))),
            (13, lambda: tested.request(KEYS[0], out=bytes(15), **parts)),
            (6, lambda: tested.public_request(**parts)),
            (7, lambda: tested.request(NO_KEY, **parts)),
            (0, lambda: tested.request(KEYS[0], **parts)),
            (16, lambda: tested.request(KEYS[0], **parts)),
            (0, lambda: tested.send(rotated_to(BLE))),
            (4, lambda: tested.request(KEYS[0], clock=49, **parts)),
            (8, lambda: tested.request(KEYS[0], clock=50, **parts)),
            (0, lambda: tested.pairing_mode(True, 50)),
        )
        for answer, send in sent:
            self.assertEqual(send(), answer)
            accepted = answer == 0 and tested.reply.tried > 0
            self.assertIs(tested.reply.named, Named.BLE if accepted else None)

    def test_8_sets_no_wait(self):
        tested = DeviceUnderTest(KEYS)
        tested.request(KEYS[0], salt=b"\x05" * 8)
        before = tested.device
        self.assertEqual(tested.request(KEYS[0], address=BLE, salt=b"\x05" * 8), 8)
        self.assertEqual(tested.device, before)
        self.assertEqual(tested.request(KEYS[0]), 0)


class Waiting(unittest.TestCase):
    """ "further key-based writes get a new answer 16, after 5 and before 6, uncounted, clock step only" """

    def test_every_request_on_every_link(self):
        for mode in (False, True):
            for link in range(8):
                tested = waiting()
                tested.pairing_mode(mode, 50)
                for sort, send in every_request(tested).items():
                    before = tested.device
                    with self.subTest(sort, link=link, mode=mode):
                        self.assertEqual(send(link, 60), 16)
                        self.assertEqual(tested.device, before.copy(clock=60))
                        reply = tested.reply
                        self.assertEqual((reply.tried, reply.bond, reply.confirm, reply.named), (0, None, None, None))
                        self.assertEqual((reply.out, reply.packet_length, reply.packet), (OUT, 0, PACKET))

    def test_every_request_is_looked_at_without_the_wait(self):
        for sort in every_request(None):
            tested = waiting()
            tested.device = tested.device.copy(rotation_awaited=False)
            with self.subTest(sort):
                self.assertIn(every_request(tested)[sort](1, 60), (0, 6, 7, 8))

    def test_it_is_not_counted(self):
        tested = waiting()
        for _ in range(20):
            self.assertEqual(tested.request(NO_KEY, clock=50), 16)
        self.assertEqual(tested.device.failures, 0)
        tested.send(rotated_to(OTHER))
        self.assertEqual(tested.request(NO_KEY, clock=50), 7)
        self.assertEqual(tested.device.failures, 1)

    def test_failures_before_the_wait_are_forgotten(self):
        tested = DeviceUnderTest(KEYS)
        for _ in range(9):
            self.assertEqual(tested.request(NO_KEY), 7)
        self.assertEqual(tested.request(KEYS[0], address=BLE), 0)
        self.assertEqual((tested.device.failures, tested.device.rotation_awaited), (0, True))
        self.assertEqual(tested.request(NO_KEY), 16)

    def test_timers_run(self):
        tested = waiting(clock=50)
        self.assertEqual(tested.request(KEYS[0], link=3, clock=10_049), 16)
        self.assertEqual((tested.stage(0), tested.stage(7)), ("asked", "asked"))
        self.assertEqual(tested.request(KEYS[0], link=3, clock=10_050), 16)
        self.assertEqual(tested.device.links, (None,) * 8)
        self.assertEqual(tested.device.clock, 10_050)

    def test_no_time_lifts_it(self):
        tested = waiting()
        for clock in (10_050, 300_050, 2**64 - 1):
            self.assertEqual(tested.request(KEYS[0], clock=clock), 16)

    def test_the_pairing_goes_on(self):
        tested = waiting()
        self.assertEqual(tested.pairing_started(0, 50), 0)
        self.assertEqual(tested.confirmation_needed(0, 50), 0)
        self.assertEqual(tested.name_write(KEYS[2], b"name", 0, 50), 0)
        self.assertEqual(tested.passkey_write(KEYS[2], 0, 50), 0)
        self.assertEqual(tested.pairing_ended(0, 50), 0)
        self.assertEqual(tested.request(KEYS[0], clock=50), 16)
        self.assertEqual(tested.account_key_write(KEYS[2], account_key(9), 0, 50), 0)
        self.assertEqual(tested.request(KEYS[0], clock=50), 16)

    def test_refusals_before_it(self):
        tested = waiting()
        before = tested.device
        self.assertEqual(tested.request(KEYS[0], link=8, clock=60), 1)
        self.assertEqual(tested.raw_request(bytes(17), clock=60), 2)
        self.assertEqual(tested.request(KEYS[0], clock=60, out=bytes(15)), 13)
        self.assertEqual(tested.request(KEYS[0], clock=60, packet=bytes(79)), 13)
        self.assertEqual(tested.device, before)
        self.assertEqual(tested.request(KEYS[0], clock=49), 4)
        self.assertEqual(tested.device, before.copy(links=(None,) * 8))

    def test_5_comes_before_it(self):
        # No event makes such a device, since an accepted request sets the count to 0.
        for failures, answer in ((9, 16), (10, 5)):
            tested = waiting()
            tested.device = tested.device.copy(failures=failures, failed_at=50)
            before = tested.device
            for send in every_request(tested).values():
                self.assertEqual(send(1, 60), answer)
            self.assertEqual(tested.device, before.copy(clock=60))


class NotLifted(unittest.TestCase):
    """ "A marker does not lift it" """

    def check(self, tested, event, answer):
        before = tested.device
        self.assertEqual(tested.send(event), answer)
        self.assertTrue(tested.device.rotation_awaited)
        self.assertEqual(tested.device.ble, before.ble)
        self.assertEqual(tested.request(KEYS[0], 1, 60), 16)

    def test_markers_links_and_pairing_mode(self):
        for event in (
            Overflow(),
            LinkUp(0, 51),
            LinkDown(0, 51),
            LinkUp(5, 51),
            LinkDown(5, 51),
            PairingMode(True, 51),
            PairingMode(False, 51),
        ):
            self.check(waiting(), event, 0)

    def test_refused_rotation_and_reset(self):
        for event in (rotated_to(OTHER, 49), rotated_to(BLE, 49), FactoryReset(49)):
            self.check(waiting(), event, 4)

    def test_refused_power_on(self):
        malformed = PowerOn(pack(KEYS)[:-1], NAME, PUBLIC, OTHER, MODEL, FILTER_SALT)
        for event in (malformed, power_on(KEYS, b"\xff")):
            self.check(waiting(), event, 14)


class Lifted(unittest.TestCase):
    """ "rotation, power-on and factory reset do" """

    def test_rotation(self):
        for ble in (OTHER, BLE, PUBLIC):
            tested = waiting()
            before = tested.device
            self.assertEqual(tested.send(rotated_to(ble, 60)), 0)
            self.assertEqual((tested.device.ble, tested.device.rotation_awaited), (ble, False))
            self.assertEqual(tested.device.links, before.links)
            self.assertEqual(tested.request(KEYS[0], 1, 60), 0)

    def test_rotation_after_a_refused_one(self):
        tested = waiting()
        self.assertEqual(tested.send(rotated_to(OTHER, 49)), 4)
        self.assertEqual(tested.send(rotated_to(OTHER, 50)), 0)
        self.assertEqual(tested.request(KEYS[0], 1, 50, address=BLE), 7)
        self.assertEqual(tested.request(KEYS[0], 1, 50, address=OTHER), 0)

    def test_spent_salts_stay_spent(self):
        tested = waiting()
        tested.send(rotated_to(OTHER))
        self.assertEqual(tested.request(KEYS[0], 1, 50, salt=b"\xaa" * 8), 8)

    def test_power_on(self):
        tested = waiting()
        self.assertEqual(tested.send(power_on(KEYS)), 0)
        self.assertEqual(tested.request(KEYS[0], 1, 0, address=BLE), 0)

    def test_reset(self):
        tested = waiting()
        tested.pairing_mode(True, 50)
        self.assertEqual(tested.send(FactoryReset(50)), 0)
        self.assertFalse(tested.device.rotation_awaited)
        self.assertEqual(tested.request(KEYS[0], 1, 50), 7)
        self.assertEqual(tested.public_request(1, 50, address=BLE), 0)

    def test_the_next_request_waits_again(self):
        tested = waiting()
        ble = BLE
        for number in range(5):
            self.assertEqual(tested.request(KEYS[0], 1, 50, address=ble), 16)
            ble = bytes([number]) * 6
            tested.send(rotated_to(ble))
            self.assertEqual(tested.request(KEYS[0], 1, 50, address=ble), 0)
            self.assertIs(tested.reply.named, Named.BLE)


if __name__ == "__main__":
    unittest.main()
