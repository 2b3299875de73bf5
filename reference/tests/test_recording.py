"""Recordings: the examples of docs/RECORDING.md, and each limit of writer and reader from both sides."""

import unittest
from dataclasses import replace

from ..rules.events import AccountKeyWrite, LinkUp, Overflow
from ..rules.record_layout import LAYOUTS
from ..rules.recording import read_record, read_recording, write_record
from . import recording_page
from .recorded_events import EVENTS, MARKER, record_of, recorded

LAST_NUMBER = 2**64 - 1
# The field of free length of a kind, and the length after the length field of a record in which it is empty.
FREE = {
    "power-on": ("name", 25),
    "key-based-write": ("data", 77),
    "passkey-write": ("block", 31),
    "account-key-write": ("block", 11),
    "name-write": ("packet", 11),
}
# Where a record's flag stands.
FLAGS = {"pairing-mode": 12, "key-based-write": 29, "pairing-ended": 13}


def with_length(name, length):
    """The event of this kind whose record has this length after its length field."""
    field, least = FREE[name]
    return replace(EVENTS[name], **{field: bytes(length - least)})


class Page(unittest.TestCase):
    def test_every_kind_is_in_the_table(self):
        layouts = [(layout.kind, layout.name) for layout in LAYOUTS]
        self.assertEqual([row[:2] for row in recording_page.rows()], layouts)

    def test_sizes_of_fields(self):
        for row, layout in zip(recording_page.rows(), LAYOUTS):
            sizes = {None: "..", "stored length": "that many"}
            ours = [sizes.get(field.size, str(field.size)) for field in layout.fields]
            self.assertEqual(row[2], ours, layout.name)

    def test_lengths(self):
        for _, name, sizes, length, more in recording_page.rows():
            self.assertEqual(2 + sum(int(size) for size in sizes if size.isdecimal()), length, name)
            self.assertEqual(more, name in FREE)

    def test_every_example_is_written(self):
        examples = recording_page.examples()
        self.assertEqual(list(examples), list(EVENTS))
        for name, event in EVENTS.items():
            self.assertEqual(recorded(event).hex(" "), examples[name].hex(" "), name)

    def test_every_example_is_read(self):
        for name, data in recording_page.examples().items():
            self.assertEqual(read_recording(data), [EVENTS[name]], name)

    def test_one_recording_of_all(self):
        joined = b"".join(recording_page.examples().values())
        self.assertEqual(read_recording(joined), list(EVENTS.values()))


class Writing(unittest.TestCase):
    def test_output_from_both_sides(self):
        for name, event in EVENTS.items():
            data = recorded(event)
            for more in (0, 1, 50):
                out = b"\xee" * (len(data) + more)
                self.assertEqual(write_record(event, out), (0, data + out[len(data) :]), name)
            for size in (0, 1, 2, len(data) - 1):
                out = b"\xee" * size
                self.assertEqual(write_record(event, out), (13, out), name)

    def test_1024_bytes_are_written(self):
        for name in FREE:
            data = recorded(with_length(name, 1_024))
            self.assertEqual(data[:2].hex(), "0400", name)
            self.assertEqual(len(data), 1_026)
            out = b"\xee" * 1_025
            self.assertEqual(write_record(with_length(name, 1_024), out), (13, out))

    def test_2_comes_before_13(self):
        for name in FREE:
            for length in (1_025, 1_026, 65_535, 65_536, 65_538, 70_000):
                for size in (0, 1_026, 1_027, 80_000):
                    out = b"\xee" * size
                    self.assertEqual(write_record(with_length(name, length), out), (2, out), (name, length, size))

    def test_long_stored_list(self):
        # 25 bytes of other fields and the name's 7
        for length, answer in ((996, 0), (997, 2), (65_535, 2), (65_536, 2), (66_000, 2)):
            event = replace(EVENTS["power-on"], stored=bytes(length))
            self.assertEqual(write_record(event, bytes(1_026))[0], answer)

    def test_lengths_of_lent_outputs(self):
        request, passkey = EVENTS["key-based-write"], EVENTS["passkey-write"]
        for length in (0, 1, 15, 16, 255, 256, 2**32, LAST_NUMBER):
            number = length.to_bytes(8, "big")
            self.assertEqual(recorded(request, (length, 80))[-16:-8], number)
            self.assertEqual(recorded(request, (16, length))[-8:], number)
            self.assertEqual(recorded(passkey, (length,))[-8:], number)

    def test_bytes_of_lent_outputs_are_not_recorded(self):
        request = EVENTS["key-based-write"]
        self.assertEqual(recorded(replace(request, out=b"\xaa" * 16, packet=b"\xbb" * 80)), recorded(request))

    def test_secret(self):
        secret = bytes(range(1, 33))
        accepted = recorded(replace(EVENTS["key-based-write"], accepted=True, secret=secret))
        rejected = recorded(replace(EVENTS["key-based-write"], accepted=False, secret=secret))
        self.assertEqual(accepted[29:62], b"\x01" + secret)
        self.assertEqual(rejected[29:62], bytes(33))

    def test_what_the_core_refuses_is_written(self):
        refused = (
            replace(EVENTS["link-up"], link=255, clock=LAST_NUMBER),
            replace(EVENTS["pairing-started"], capability=255),
            replace(EVENTS["confirmation-needed"], passkey=2**32 - 1),
            replace(EVENTS["power-on"], stored=b"", name=b"\xff" * 65),
            replace(EVENTS["name-write"], packet=b""),
        )
        for event in refused:
            self.assertEqual(read_recording(recorded(event)), [event])


class Reading(unittest.TestCase):
    def assertMarker(self, body, why=None):
        """One marker, and the record behind it is read."""
        self.assertIsNone(read_record(body), why)
        joined = recorded(EVENTS["link-up"]) + record_of(body) + recorded(EVENTS["link-down"])
        expected = [EVENTS["link-up"], Overflow(), EVENTS["link-down"]]
        self.assertEqual(read_recording(joined), expected, why)

    def test_no_version_or_no_kind(self):
        self.assertMarker(b"")
        for version in (0, 1, 2, 255):
            self.assertMarker(bytes([version]))

    def test_unknown_version(self):
        for name, event in EVENTS.items():
            for version in (0, 2, 255):
                self.assertMarker(bytes([version]) + recorded(event)[3:], (name, version))

    def test_unknown_kind(self):
        for kind in (0, 15, 16, 0x81, 255):
            for fields in (b"", recorded(EVENTS["link-up"])[4:]):
                self.assertMarker(bytes([1, kind]) + fields, kind)

    def test_wrong_size_of_a_fixed_kind(self):
        for name in EVENTS.keys() - FREE.keys():
            body = recorded(EVENTS[name])[2:]
            for size in range(2, len(body)):
                self.assertMarker(body[:size], (name, size))
            for more in (1, 2, 50, 1_024 - len(body)):
                self.assertMarker(body + bytes(more), (name, more))

    def test_least_size_of_a_free_kind(self):
        for name, (field, least) in FREE.items():
            body = recorded(with_length(name, least))[2:]
            self.assertEqual(len(body), least)
            self.assertEqual(getattr(read_record(body), field), b"", name)
            for size in range(2, least):
                self.assertMarker(body[:size], (name, size))

    def test_free_field_takes_what_is_left(self):
        for name, (field, least) in FREE.items():
            for more in (1, 15, 16, 17, 900):
                event = read_record(recorded(with_length(name, least + more))[2:])
                self.assertEqual(getattr(event, field), bytes(more))

    def test_length_of_the_stored_list(self):
        # Behind a list of 4 bytes stand 17 of other fields and 7 of the name: the list may take up to 11.
        body = recorded(EVENTS["power-on"])[2:]
        for length in (0, 3, 4, 5, 11):
            event = read_record(body[:2] + length.to_bytes(2, "big") + body[4:])
            self.assertEqual(event.stored, body[4 : 4 + length])
            self.assertEqual(event.name, body[4 + length + 17 :])
        for length in (12, 13, 28, 256, 1_024, 65_535):
            self.assertMarker(body[:2] + length.to_bytes(2, "big") + body[4:], length)

    def test_length_of_the_list_with_an_empty_name(self):
        body = recorded(replace(EVENTS["power-on"], name=b""))[2:]
        self.assertEqual(len(body), 25)
        self.assertMarker(body[:2] + b"\x00\x05" + body[4:])
        self.assertEqual(read_record(body[:2] + b"\x00\x03" + body[4:]).name, body[-1:])

    def test_flags(self):
        for name, place in FLAGS.items():
            data = recorded(EVENTS[name])
            for flag in (0, 1):
                self.assertIsNotNone(read_record(data[2:place] + bytes([flag]) + data[place + 1 :]), name)
            for flag in (2, 3, 128, 255):
                self.assertMarker(data[2:place] + bytes([flag]) + data[place + 1 :], (name, flag))

    def test_rejected_point_with_a_secret(self):
        data = recorded(EVENTS["key-based-write"])
        for place in (30, 45, 61):
            body = data[2:place] + b"\x01" + data[place + 1 :]
            self.assertMarker(body, place)
            self.assertTrue(read_record(body[:27] + b"\x01" + body[28:]).accepted)

    def test_accepted_point_with_a_secret_of_zeros(self):
        event = replace(EVENTS["key-based-write"], accepted=True)
        self.assertEqual(read_recording(recorded(event)), [event])

    def test_any_number_is_read(self):
        for link in range(256):
            self.assertEqual(read_record(bytes([1, 2, link]) + b"\xff" * 8), LinkUp(link, LAST_NUMBER))
        self.assertEqual(read_record(recorded(EVENTS["pairing-started"])[2:-1] + b"\xff").capability, 255)
        passkey = read_record(recorded(EVENTS["confirmation-needed"])[2:-4] + b"\xff" * 4).passkey
        self.assertEqual(passkey, 2**32 - 1)

    def test_lent_outputs(self):
        for lengths, lent in (((0, 0), (0, 0)), ((15, 79), (15, 79)), ((LAST_NUMBER, 2**32), (80, 80))):
            event = read_record(recorded(EVENTS["key-based-write"], lengths)[2:])
            self.assertEqual((len(event.out), len(event.packet)), lent)


class Lengths(unittest.TestCase):
    """What a length field says, and what is there."""

    def test_nothing(self):
        self.assertEqual(read_recording(b""), [])

    def test_one_left_over_byte(self):
        for byte in (b"\x00", b"\x01", b"\x04", b"\xff"):
            self.assertEqual(read_recording(byte), [Overflow()])
            self.assertEqual(read_recording(recorded(EVENTS["link-up"]) + byte), [EVENTS["link-up"], Overflow()])

    def test_cut_everywhere(self):
        for name, event in EVENTS.items():
            data = recorded(event)
            for size in range(1, len(data)):
                self.assertEqual(read_recording(MARKER + data[:size]), [Overflow(), Overflow()], (name, size))

    def test_cut_record_is_read_no_further(self):
        # The length says 13, and 12 bytes follow: three markers, if they were records.
        self.assertEqual(read_recording(b"\x00\x0d" + 3 * MARKER), [Overflow()])

    def test_1024_is_read_and_1025_is_not(self):
        event = AccountKeyWrite(3, 3_000, bytes(1_013))
        self.assertEqual(read_recording(recorded(event) + MARKER), [event, Overflow()])
        body = recorded(event)[2:] + b"\x00"
        self.assertEqual(read_recording(record_of(body) + recorded(EVENTS["link-up"])), [Overflow(), EVENTS["link-up"]])

    def test_long_records_are_skipped_whole(self):
        last = EVENTS["name-write"]
        for length in (1_025, 1_026, 4_096, 65_535):
            # What is skipped would be records of its own.
            body = (MARKER * (length // 4 + 1))[:length]
            long = record_of(body)
            self.assertEqual(read_recording(long + recorded(last)), [Overflow(), last], length)
            self.assertEqual(read_recording(3 * long + recorded(last)), [*[Overflow()] * 3, last], length)

    def test_long_and_cut_is_one_marker(self):
        for length in (1_025, 65_535):
            long = record_of(bytes(length))
            for size in (1, 2, 3, 6, 1_025, 1_026, len(long) - 1):
                self.assertEqual(read_recording(MARKER + long[:size]), [Overflow()] * 2, (length, size))

    def test_zero_lengths_in_a_row(self):
        self.assertEqual(read_recording(bytes(6)), [Overflow()] * 3)
        self.assertEqual(read_recording(bytes(7)), [Overflow()] * 4)


if __name__ == "__main__":
    unittest.main()
