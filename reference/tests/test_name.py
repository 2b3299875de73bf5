"""The personalized name: at power-on, asked for, written, and a sent packet that comes back."""

import unittest

from ..generator import seeker_blocks
from ..rules.events import AddressRotated, FactoryReset, LinkDown, LinkUp, Overflow, PairingMode, Reply
from ..rules.model import step
from ..rules.name import is_name
from ..rules.name_packet import open_packet, seal
from .device_under_test import (
    NAME,
    NONCE,
    OUT,
    PACKET,
    SECRET,
    SEEKER,
    DeviceUnderTest,
    account_key,
    power_on,
)

KEY, OTHER = account_key(1), account_key(2)
NEW = "Küche".encode()
WANTED = 0x20
SIZES = (0, 1, 15, 16, 17, 63, 64)
TAKEN_IN = ("asked", "pairing", "confirming", "proved")
ILL_FORMED = (b"\x80", b"\xc0\x80", b"\xe0\x80\x80", b"\xed\xa0\x80", b"\xf4\x90\x80\x80", b"a\xc3")


def device_at(stage, name=NAME):
    tested = DeviceUnderTest([KEY, OTHER], name)
    # A second link shows that other links are left as they are.
    tested.bring_to("proved", OTHER, link=5, clock=50)
    tested.bring_to(stage, KEY, clock=50)
    return tested


def changed(data, place, bit=1):
    return data[:place] + bytes([data[place] ^ bit]) + data[place + 1 :]


class Names(unittest.TestCase):
    def test_sizes(self):
        for size in range(65):
            self.assertTrue(is_name(b"n" * size))
        for size in (65, 66, 128, 320):
            self.assertFalse(is_name(b"n" * size))

    def test_bytes_are_counted_and_not_characters(self):
        self.assertTrue(is_name("ß".encode() * 32))
        self.assertFalse(is_name("ß".encode() * 33))
        self.assertTrue(is_name("😀".encode() * 16))
        self.assertFalse(is_name("😀".encode() * 16 + b"a"))

    def test_zero_bytes_are_valid(self):
        self.assertTrue(is_name(bytes(64)))

    def test_ill_formed(self):
        for name in ILL_FORMED:
            self.assertFalse(is_name(name))


class PowerOnWithName(unittest.TestCase):
    def test_taken(self):
        for size in SIZES:
            device, reply = step(None, power_on([KEY], b"n" * size))
            self.assertEqual((device.name, reply), (b"n" * size, Reply(0)))

    def test_bad_names_make_no_device(self):
        for name in (b"n" * 65, b"n" * 128, *ILL_FORMED):
            self.assertEqual(step(None, power_on([KEY], name)), (None, Reply(14)))

    def test_bad_names_leave_an_earlier_device(self):
        tested = device_at("paired")
        before = tested.device
        for name in (b"n" * 65, *ILL_FORMED):
            self.assertEqual(tested.send(power_on([OTHER], name)), 14)
            self.assertEqual(tested.device, before)

    def test_taken_again(self):
        tested = device_at("asked")
        self.assertEqual(tested.send(power_on([KEY], NEW)), 0)
        self.assertEqual(tested.device.name, NEW)


class Kept(unittest.TestCase):
    def test_reset_empties_it(self):
        tested = device_at("asked")
        self.assertEqual(tested.send(FactoryReset(50)), 0)
        self.assertEqual(tested.device.name, b"")

    def test_refused_reset_keeps_it(self):
        tested = device_at("asked")
        self.assertEqual(tested.send(FactoryReset(49)), 4)
        self.assertEqual(tested.device.name, NAME)

    def test_every_other_event_keeps_it(self):
        tested = device_at("paired")
        events = (LinkUp(0, 50), LinkDown(0, 50), PairingMode(True, 50), AddressRotated(SEEKER, b"12", 50), Overflow())
        for event in events:
            self.assertEqual(tested.send(event), 0)
            self.assertEqual(tested.device.name, NAME)


class Asked(unittest.TestCase):
    def ask(self, tested, flags=WANTED, link=0, **parts):
        if flags & 0x50:
            parts = {"seeker_address": SEEKER, "salt": tested.fresh_salt(2), **parts}
        return tested.request(KEY, link, flags=flags, **parts)

    def test_packet(self):
        for size in SIZES:
            name = b"n" * size
            tested = DeviceUnderTest([KEY], name)
            self.assertEqual(self.ask(tested), 0)
            packet = seal(KEY, NONCE, name)
            self.assertEqual(tested.reply.packet_length, 16 + size)
            self.assertEqual(tested.reply.packet, packet + PACKET[len(packet) :])
            self.assertEqual(open_packet(KEY, tested.reply.packet[: 16 + size]), name)

    def test_other_flags_beside_it(self):
        for flags in (0x20, 0x60, 0x30, 0x70, 0xA0, 0xFF):
            tested = DeviceUnderTest([KEY])
            self.assertEqual(self.ask(tested, flags), 0)
            self.assertEqual(tested.reply.packet_length, 16 + len(NAME))
            self.assertEqual(tested.reply.bond, SEEKER if flags & 0x40 else None)

    def test_without_the_flag(self):
        for flags in (0x00, 0x80, 0x40, 0x10, 0x0F, 0xDF):
            tested = DeviceUnderTest([KEY])
            self.assertEqual(self.ask(tested, flags), 0)
            self.assertEqual((tested.reply.packet_length, tested.reply.packet), (0, PACKET))

    def test_the_flag_leaves_the_salt_at_byte_8(self):
        tested = DeviceUnderTest([KEY])
        self.assertEqual(self.ask(tested, salt=bytes(8)), 0)
        self.assertEqual(tested.device.spent, (bytes(8),))
        self.assertEqual(self.ask(tested, salt=b"\x01" + bytes(7)), 0)
        self.assertEqual(self.ask(tested, salt=bytes(8)), 8)

    def test_refused(self):
        tested = DeviceUnderTest([KEY])
        self.assertEqual(tested.request(OTHER, flags=WANTED), 7)
        self.assertEqual((tested.reply.packet_length, tested.reply.packet), (0, PACKET))
        self.ask(tested, salt=bytes(8))
        self.assertEqual(self.ask(tested, salt=bytes(8)), 8)
        self.assertEqual((tested.reply.packet_length, tested.reply.packet), (0, PACKET))

    def test_room(self):
        for size in (80, 81, 120):
            tested = DeviceUnderTest([KEY], b"n" * 64)
            self.assertEqual(self.ask(tested, packet=bytes(size)), 0)
            self.assertEqual(len(tested.reply.packet), size)
            self.assertEqual(tested.reply.packet[80:], bytes(size - 80))

    def test_with_a_public_key(self):
        tested = DeviceUnderTest()
        tested.pairing_mode(True)
        self.assertEqual(tested.public_request(flags=WANTED), 0)
        packet = seal(seeker_blocks.session_key(SECRET), NONCE, NAME)
        self.assertEqual(tested.reply.packet[: tested.reply.packet_length], packet)


class Written(unittest.TestCase):
    def test_taken_from_asked_to_proved(self):
        for stage in TAKEN_IN:
            tested = device_at(stage)
            before = tested.device
            self.assertEqual(tested.name_write(KEY, NEW, clock=51), 0)
            # K, stage and moment stay: only the clock and the name are others.
            self.assertEqual(tested.device, before.copy(name=NEW, clock=51))
            self.assertEqual(tested.reply, Reply(0))

    def test_paired(self):
        tested = device_at("paired")
        before = tested.device
        self.assertEqual(tested.name_write(KEY, NEW, clock=51), 10)
        links = (None, *before.links[1:])
        self.assertEqual(tested.device, before.copy(links=links, clock=51))
        self.assertEqual(tested.account_key_write(KEY, account_key(3), clock=51), 9)

    def test_idle(self):
        tested = device_at("asked")
        before = tested.device
        self.assertEqual(tested.name_write(KEY, NEW, link=3, clock=51), 9)
        self.assertEqual(tested.device, before.copy(clock=51))

    def test_sizes(self):
        for size in SIZES:
            tested = device_at("asked")
            self.assertEqual(tested.name_write(KEY, b"w" * size, clock=51), 0)
            self.assertEqual(tested.device.name, b"w" * size)

    def refused(self, tested, packet):
        before = tested.device
        self.assertEqual(tested.raw_name_write(packet, clock=51), 15)
        self.assertEqual(tested.device, before.copy(clock=51))
        self.assertEqual(tested.reply, Reply(15))

    def test_wrong_tag(self):
        packet = seal(KEY, NONCE, NEW)
        for stage in TAKEN_IN:
            tested = device_at(stage)
            for place in (0, 1, 6, 7, 8, 15, 16, len(packet) - 1):
                for bit in (0x01, 0x80):
                    self.refused(tested, changed(packet, place, bit))
            self.refused(tested, seal(OTHER, NONCE, NEW))
            self.refused(tested, bytes(16))

    def test_ill_formed(self):
        for stage in TAKEN_IN:
            tested = device_at(stage)
            for name in ILL_FORMED:
                self.refused(tested, seal(KEY, NONCE, name))

    def test_wrong_sizes(self):
        tested = device_at("asked")
        before = tested.device
        for packet in (b"", bytes(1), seal(KEY, NONCE, b"")[:15], seal(KEY, NONCE, b"n" * 65), bytes(96)):
            self.assertEqual(tested.raw_name_write(packet, clock=51), 2)
            self.assertEqual(tested.device, before)

    def test_again_and_again(self):
        tested = device_at("asked")
        for name in (NEW, b"", NAME, NAME):
            self.assertEqual(tested.name_write(KEY, name, clock=51), 0)
            self.assertEqual(tested.device.name, name)
        self.assertEqual(tested.pairing_started(clock=51), 0)

    def test_timers_run_on(self):
        for stage in ("asked", "confirming"):
            tested = device_at(stage)
            self.assertEqual(tested.name_write(KEY, NEW, clock=10_048), 0)
            self.assertEqual(tested.name_write(OTHER, NEW, clock=10_048), 15)
            self.assertEqual(tested.name_write(KEY, b"in time", clock=10_049), 0)
            self.assertEqual(tested.name_write(KEY, b"too late", clock=10_050), 9)
            self.assertEqual(tested.device.name, b"in time")
        for stage in ("pairing", "proved"):
            self.assertEqual(device_at(stage).name_write(KEY, NEW, clock=2**40), 0)
        self.assertEqual(device_at("paired").name_write(KEY, NEW, clock=10_049), 10)
        self.assertEqual(device_at("paired").name_write(KEY, NEW, clock=10_050), 9)

    def test_after_a_marker(self):
        for stage in TAKEN_IN:
            tested = device_at(stage)
            tested.send(Overflow())
            self.assertEqual(tested.name_write(KEY, NEW, clock=51), 9)
            self.assertEqual(tested.device.name, NAME)


class ComingBack(unittest.TestCase):
    """ "A sent packet that comes back unchanged under the same K must read as the name sent." """

    def sent(self, tested, key=KEY, link=0):
        self.assertEqual(tested.request(key, link, 50, flags=WANTED), 0)
        return tested.reply.packet[: tested.reply.packet_length]

    def test_same_k(self):
        for size in SIZES:
            tested = DeviceUnderTest([KEY, OTHER], b"n" * size)
            packet = self.sent(tested)
            self.assertEqual(tested.raw_name_write(packet, clock=51), 0)
            self.assertEqual(tested.device.name, b"n" * size)

    def test_after_another_name(self):
        tested = DeviceUnderTest([KEY, OTHER])
        packet = self.sent(tested)
        self.assertEqual(tested.name_write(KEY, NEW, clock=51), 0)
        self.assertEqual(tested.raw_name_write(packet, clock=51), 0)
        self.assertEqual(tested.device.name, NAME)

    def test_on_another_link(self):
        tested = DeviceUnderTest([KEY, OTHER])
        packet = self.sent(tested)
        tested.bring_to("asked", KEY, link=3, clock=50)
        self.assertEqual(tested.raw_name_write(packet, 3, 51), 0)
        tested.bring_to("asked", OTHER, link=4, clock=51)
        self.assertEqual(tested.raw_name_write(packet, 4, 51), 15)

    def test_written_anew_and_asked_for_again(self):
        tested = DeviceUnderTest([KEY, OTHER])
        self.sent(tested)
        tested.name_write(KEY, NEW, clock=51)
        self.assertEqual(tested.request(OTHER, 1, 51, flags=WANTED), 0)
        packet = tested.reply.packet[: tested.reply.packet_length]
        self.assertEqual(open_packet(OTHER, packet), NEW)
        self.assertEqual(tested.reply.out[16:], OUT[16:])


if __name__ == "__main__":
    unittest.main()
