"""Document 01's answer table row by row, the order of its checks, and its runs."""

import unittest

from ..rules.advertising import account_key_filter
from ..rules.events import (
    AccountKeyWrite,
    AddressRotated,
    ConfirmationNeeded,
    FactoryReset,
    LinkDown,
    LinkUp,
    NameWrite,
    Overflow,
    PairingEnded,
    PairingMode,
    PairingStarted,
    PasskeyWrite,
    PowerOn,
)
from ..rules.stored_list import stored_list
from .device_under_test import (
    BLE,
    FILTER_SALT,
    MODEL,
    OUT,
    PACKET,
    PUBLIC,
    DeviceUnderTest,
    account_key,
)

KEY = account_key(1)
SHORT = bytes(15)
STAGES = ("asked", "pairing", "confirming", "proved", "paired")


def events_on(link, clock):
    """One event of every kind that names a link and lends nothing."""
    return (
        LinkUp(link, clock),
        LinkDown(link, clock),
        PairingStarted(link, clock, 1),
        ConfirmationNeeded(link, clock, 0),
        PairingEnded(link, clock, True),
        PairingEnded(link, clock, False),
        AccountKeyWrite(link, clock, bytes(16)),
        NameWrite(link, clock, bytes(16)),
    )


class Table(unittest.TestCase):
    def setUp(self):
        self.tested = DeviceUnderTest([KEY])

    def unchanged(self, send, answer):
        """The answer comes, the state stays, and nothing is handed out."""
        before = self.tested.device
        self.assertEqual(send(), answer)
        self.assertEqual(self.tested.device, before)
        reply = self.tested.reply
        self.assertEqual((reply.tried, reply.bond, reply.confirm), (0, None, None))
        self.assertEqual(reply.packet_length, 0)

    def test_0_and_9_to_12_are_in_the_pairing_tests(self):
        self.tested.bring_to("paired", KEY)
        self.assertEqual(self.tested.stage(), "paired")

    def test_1_link_above_7(self):
        self.tested.bring_to("proved", KEY, clock=50)
        for link in (8, 9, 255):
            for event in events_on(link, 60):
                self.unchanged(lambda: self.tested.send(event), 1)
            self.unchanged(lambda: self.tested.request(KEY, link, 60), 1)
            self.unchanged(lambda: self.tested.passkey_write(KEY, link, 60), 1)

    def test_2_wrong_length(self):
        self.tested.bring_to("asked", KEY, clock=50)
        for size in (0, 1, 15, 17, 64, 79, 81, 96, 160):
            self.unchanged(lambda: self.tested.raw_request(bytes(size), clock=60), 2)
            self.assertEqual((self.tested.reply.out, self.tested.reply.packet), (OUT, PACKET))
        for size in (0, 1, 15, 81, 96, 160):
            self.unchanged(lambda: self.tested.raw_name_write(bytes(size), clock=60), 2)

    def test_3_our_passkey_too_large(self):
        self.tested.bring_to("pairing", KEY, clock=50)
        for passkey in (1_000_000, 1 << 24, 2**32 - 1):
            self.unchanged(lambda: self.tested.confirmation_needed(0, 60, passkey), 3)
        self.assertEqual(self.tested.confirmation_needed(0, 60, 999_999), 0)

    def test_4_clock_goes_back(self):
        for event in events_on(0, 49) + (
            PairingMode(True, 49),
            AddressRotated(b"\x01" * 6, b"\x02" * 2, 49),
            FactoryReset(49),
            PasskeyWrite(0, 49, bytes(16), bytes(12), OUT),
        ):
            tested = DeviceUnderTest([KEY])
            tested.bring_to("asked", KEY, link=3, clock=50)
            tested.bring_to("proved", KEY, link=0, clock=50)
            before = tested.device
            self.assertEqual(tested.send(event), 4)
            self.assertEqual(tested.device, before.copy(links=(None,) * 8))
            self.assertEqual(tested.reply.out, OUT if hasattr(event, "out") else b"")

    def test_4_for_a_key_based_write(self):
        self.tested.bring_to("asked", KEY, clock=50)
        self.assertEqual(self.tested.request(KEY, clock=49), 4)
        self.assertEqual(self.tested.device.links, (None,) * 8)
        self.assertEqual((self.tested.device.clock, self.tested.reply.out), (50, OUT))

    def test_13_output_too_short(self):
        self.tested.bring_to("confirming", KEY, clock=50)
        for size in (0, 1, 15):
            out = bytes(size)
            self.unchanged(lambda: self.tested.request(KEY, clock=60, out=out), 13)
            self.assertEqual(self.tested.reply.out, out)
            self.unchanged(lambda: self.tested.passkey_write(KEY, clock=60, out=out), 13)
            self.assertEqual(self.tested.reply.out, out)

    def test_13_second_output_too_short(self):
        self.tested.bring_to("confirming", KEY, clock=50)
        for size in (0, 16, 79):
            packet = bytes(size)
            for flags in (0x00, 0x20):
                self.unchanged(lambda: self.tested.request(KEY, clock=60, packet=packet, flags=flags), 13)
                self.assertEqual((self.tested.reply.out, self.tested.reply.packet), (OUT, packet))
        self.assertEqual(self.tested.request(KEY, clock=60, packet=bytes(80)), 0)

    def test_14_leaves_the_earlier_device(self):
        malformed = PowerOn(b"", b"", PUBLIC, BLE, MODEL, FILTER_SALT)
        self.unchanged(lambda: self.tested.send(malformed), 14)


class Order(unittest.TestCase):
    """ "Checked in this order: 1, 2, 3, 13, 4, then 5, 6, 7, 8 .. or 9, 10, 11, 12" """

    def setUp(self):
        self.tested = DeviceUnderTest([KEY])
        self.tested.bring_to("pairing", KEY, clock=50)

    def test_first_five_checks(self):
        tested = self.tested
        self.assertEqual(tested.raw_request(bytes(17), 8, 49, SHORT), 1)
        self.assertEqual(tested.raw_request(bytes(17), 0, 49, SHORT), 2)
        self.assertEqual(tested.raw_request(bytes(16), 0, 49, SHORT), 13)
        self.assertEqual(tested.raw_request(bytes(17), 8, 49, OUT, bytes(79)), 1)
        self.assertEqual(tested.raw_request(bytes(17), 0, 49, OUT, bytes(79)), 2)
        self.assertEqual(tested.raw_request(bytes(16), 0, 49, OUT, bytes(79)), 13)
        self.assertEqual(tested.raw_name_write(bytes(15), 8, 49), 1)
        self.assertEqual(tested.raw_name_write(bytes(15), 0, 49), 2)
        self.assertEqual(tested.confirmation_needed(8, 49, 1_000_000), 1)
        self.assertEqual(tested.confirmation_needed(0, 49, 1_000_000), 3)
        self.assertEqual(tested.raw_passkey_write(b"", 8, 49, SHORT), 1)
        self.assertEqual(tested.raw_passkey_write(b"", 0, 49, SHORT), 13)
        self.assertEqual(tested.stage(), "pairing")
        self.assertEqual(tested.raw_request(bytes(16), 0, 49), 4)

    def test_4_comes_before_5_and_6(self):
        for _ in range(10):
            self.tested.request(account_key(9), clock=50)
        self.assertEqual(self.tested.public_request(clock=49), 4)
        self.assertEqual(self.tested.public_request(clock=50), 5)

    def test_5_comes_before_6_7_and_8(self):
        tested = self.tested
        for _ in range(10):
            self.assertEqual(tested.request(account_key(9), clock=50), 7)
        self.assertEqual(tested.public_request(clock=50), 5)
        self.assertEqual(tested.request(account_key(9), clock=50), 5)
        self.assertEqual(tested.request(KEY, clock=50, salt=tested.device.spent[0]), 5)

    def test_6_comes_before_7(self):
        self.assertEqual(self.tested.public_request(clock=50, accepted=False), 6)

    def test_3_comes_before_9(self):
        self.assertEqual(self.tested.confirmation_needed(5, 50, 1_000_000), 3)
        self.assertEqual(self.tested.confirmation_needed(5, 50, 0), 9)

    def test_9_10_11(self):
        self.assertEqual(self.tested.pairing_started(5, 50, capability=3), 9)
        self.assertEqual(self.tested.pairing_started(0, 50, capability=3), 10)

    def test_10_comes_before_12(self):
        self.assertEqual(self.tested.raw_passkey_write(b"", 0, 50), 10)
        self.assertEqual(self.tested.raw_passkey_write(b"", 0, 50), 9)

    def test_name_write(self):
        tested = self.tested
        # A wrong tag throughout.
        self.assertEqual(tested.raw_name_write(bytes(81), 5, 50), 2)
        self.assertEqual(tested.raw_name_write(bytes(80), 5, 50), 9)
        tested.bring_to("paired", KEY, link=4, clock=50)
        self.assertEqual(tested.raw_name_write(bytes(81), 4, 50), 2)
        self.assertEqual(tested.raw_name_write(bytes(80), 4, 50), 10)
        self.assertEqual(tested.raw_name_write(bytes(80), 0, 50), 15)
        self.assertEqual(tested.raw_name_write(bytes(80), 0, 49), 4)
        self.assertEqual(tested.raw_name_write(bytes(80), 0, 50), 9)


class DeviceEvents(unittest.TestCase):
    def setUp(self):
        self.tested = DeviceUnderTest([KEY])
        for link, stage in enumerate(STAGES):
            self.tested.bring_to(stage, KEY, link, clock=50)

    def test_marker_drops_every_k_and_nothing_else(self):
        before = self.tested.device
        self.assertEqual(self.tested.send(Overflow()), 0)
        self.assertEqual(self.tested.device, before.copy(links=(None,) * 8))

    def test_paired_marker_account_key_write(self):
        self.tested.send(Overflow())
        self.assertEqual(self.tested.account_key_write(KEY, account_key(2), 4, 51), 9)
        self.assertEqual(self.tested.device.keys, (KEY,))

    def test_link_up_and_down_drop_that_link_only(self):
        for kind in (LinkUp, LinkDown):
            for link in range(8):
                tested = DeviceUnderTest([KEY])
                tested.device = self.tested.device
                links = list(tested.device.links)
                links[link] = None
                for clock in (51, 52):
                    self.assertEqual(tested.send(kind(link, clock)), 0)
                    self.assertEqual(tested.device.links, tuple(links))

    def test_pairing_mode(self):
        for on in (True, True, False, False):
            expected = self.tested.device.copy(pairing_mode=on, clock=51)
            self.assertEqual(self.tested.pairing_mode(on, 51), 0)
            self.assertEqual(self.tested.device, expected)

    def test_address_rotated(self):
        kept = account_key_filter([KEY], b"\x01\x02")
        expected = self.tested.device.copy(ble=b"\x09" * 6, salt=b"\x01\x02", filter=kept, clock=51)
        self.assertEqual(self.tested.send(AddressRotated(b"\x09" * 6, b"\x01\x02", 51)), 0)
        self.assertEqual(self.tested.device, expected)
        self.assertEqual(self.tested.request(KEY, 5, 51, address=BLE), 7)
        self.assertEqual(self.tested.request(KEY, 5, 51, address=PUBLIC), 0)
        self.assertEqual(self.tested.request(KEY, 5, 51, address=b"\x09" * 6), 0)

    def test_factory_reset(self):
        self.tested.request(account_key(9), 5, 51)
        self.tested.pairing_mode(True, 51)
        self.assertEqual(self.tested.send(FactoryReset(52)), 0)
        device = self.tested.device
        self.assertEqual((device.keys, device.name, device.spent, device.failures), ((), b"", (), 0))
        self.assertEqual((device.filter, device.links, device.clock), (bytes(3), (None,) * 8, 52))
        self.assertEqual((device.pairing_mode, device.ble, device.public), (True, BLE, PUBLIC))
        self.assertEqual(stored_list(device).hex(), "00020200")

    def test_only_power_on_makes_a_device(self):
        tested = DeviceUnderTest()
        tested.device = None
        with self.assertRaises(ValueError):
            tested.send(Overflow())


if __name__ == "__main__":
    unittest.main()
