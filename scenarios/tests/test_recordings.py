"""Lines about recordings: what is added, what the replay prints for it, and errors in words."""

import unittest
from ctypes import string_at
from dataclasses import replace

from differential.library_replay import LibraryReplay
from differential.parts_mistakes import EmptyPartIsTheEnd
from differential.replay_mistakes import StandIn as ProgramStandIn
from differential.stand_in_replay import StandIn

from ..run import first_difference
from ..sides import RIGHT_RULES, BuiltLibrary, SecondProgram
from .test_runner import Texts

BEGIN = "new recording  -> no line\nrecorded  power-on, keys 1 -> 1 power-on 0 1\n"
FED = "new recording  -> no line\npart  bytes 0002 01 01 0002 -> 1 marker 14 0\n"


class Printing(Texts):
    def test_each_line_counts(self):
        self.assertIsNone(self.difference(f"{BEGIN}recorded  overflow marker -> 2 marker 0 1"))
        found = self.difference(f"{BEGIN}recorded  overflow marker -> 2 marker 0 2")
        self.assertEqual(found.words(), "the text says: 2 marker 0 2; found: 2 marker 0 1")
        found = self.difference(f"{BEGIN}recorded  overflow marker -> no line")
        self.assertEqual(found.words(), "the text says: no line; found: 2 marker 0 1")

    def test_bytes_may_be_several_records_or_a_part_of_one(self):
        self.assertIsNone(self.difference(f"{BEGIN}recorded  bytes 0000 0000 -> 2 marker 0 1, 3 marker 0 1"))
        text = "recorded  bytes 00 -> 2 marker 0 1\nrecorded  bytes 02 01 01 00 02 01 01 -> 3 marker 0 1"
        self.assertIsNone(self.difference(BEGIN + text))
        self.assertIsNone(self.difference(f"{BEGIN}recorded  bytes 0401, length 1,027 -> 2 marker 0 1"))

    def test_a_new_recording_is_empty(self):
        self.assertIsNone(self.difference(BEGIN + BEGIN))

    def test_one_marker_for_what_is_lost_side_by_side(self):
        up = "link up, link 0, clock 0"
        text = f"{BEGIN}lost  {up} -> 2 marker 0 1\nlost  {up} -> no line\nrecorded  {up} -> 3 link-up 0 1\n"
        text += f"lost  {up} -> 4 marker 0 1\n"
        self.assertIsNone(self.difference(text))
        self.assertIsNone(self.difference(f"{text}new recording  -> no line\nlost  {up} -> 1 marker 14 0"))

    def test_what_the_writer_refuses_is_missing(self):
        write = "account key write, link 0, clock 0, with key 1, account key 2, length 1,014"
        self.assertIsNone(self.difference(f"{BEGIN}recorded  {write} -> no line\nrecord  {write} -> 2"))

    def test_the_device_is_another_one(self):
        text = "power-on  keys 1 2 -> 0\nnew recording -> no line\nrecorded  overflow marker -> 1 marker 14 0\n"
        stored = "0022 02 02 041112131415161718191a1b1c1d1e1f 042122232425262728292a2b2c2d2e2f"
        self.assertIsNone(self.difference(f"{text}stored list  -> 0, writes {stored}"))

    def test_bytes_behind_a_record_count(self):
        class WritesTooMuch(SecondProgram):
            def record(self, event, out):
                found = super().record(event, out)
                return replace(found, reply=replace(found.reply, out=found.reply.out[:-1] + b"?"))

        found = first_difference(self.text("record  overflow marker, room 6 -> 0, writes 0002 01 01"), WritesTooMuch())
        self.assertEqual(found.words(), "0, writes 0002 01 01, but the lent output holds 00020101843f")


class InParts(Texts):
    def test_a_line_comes_with_the_last_byte(self):
        self.assertIsNone(self.difference(f"{FED}part  bytes 01 -> no line\npart  bytes 01 -> 2 marker 14 0"))
        self.assertIsNone(self.difference("part  power-on, keys 1 -> 1 power-on 0 1\npart  bytes 0000 -> 2 marker 0 1"))
        self.assertIsNone(self.difference("part  bytes 0401, length 1,026 -> no line\npart  bytes 00 -> 1 marker 14 0"))

    def test_an_empty_part_is_not_the_end(self):
        self.assertIsNone(self.difference(f"{FED}part  no bytes -> no line\npart  bytes 0101 -> 2 marker 14 0"))

    def test_the_end_shows_a_cut_record(self):
        self.assertIsNone(self.difference(f"{FED}recording ends -> 2 marker 14 0\nrecording ends -> no line"))
        self.assertIsNone(self.difference("recording ends -> no line"))
        found = self.difference(f"{FED}recording ends -> no line")
        self.assertEqual(found.words(), "the text says: no line; found: 2 marker 14 0")

    def test_a_new_recording_has_no_parts(self):
        self.assertIsNone(self.difference(f"{FED}{FED}recording ends -> 2 marker 14 0"))

    def test_its_lines_are_those_of_the_joined_recording(self):
        other = RIGHT_RULES._replace(replay=lambda recording: [])
        found = first_difference(self.text(f"{FED}recording ends -> 2 marker 14 0"), SecondProgram(other))
        self.assertEqual(found.words(), "fed: 1 marker 14 0, 2 marker 14 0; joined: ")


class InPartsOfTheLibrary(Texts):
    def found(self, library, content):
        """The difference of a library whose replay is this one, or None."""

        class Records:
            def off(self):
                return None

        def feed(replay, address, length, at):
            return library.feed(replay, string_at(address, length) if length else b"", at)

        functions = {"fp_replay_start": library.start, "fp_replay_feed": feed, "fp_replay_end": library.end}
        side = BuiltLibrary(Records(), ProgramStandIn(), LibraryReplay(functions))
        return first_difference(self.text(content), side)

    def test_right(self):
        text = f"{FED}part  no bytes -> no line\npart  bytes 01 01 0000 00 -> 2 marker 14 0, 3 marker 14 0\n"
        self.assertIsNone(self.found(StandIn(), f"{text}recording ends -> 4 marker 14 0\nrecording ends -> no line"))

    def test_wrong(self):
        found = self.found(EmptyPartIsTheEnd(), f"{FED}part  no bytes -> no line")
        self.assertEqual(found.words(), "the text says: no line; found: 2 marker 14 0")

    def test_what_breaks_the_interface(self):
        class NoReplay(StandIn):
            def read(self, fp_replay):
                return None

        class Stays(StandIn):
            def feed(self, fp_replay, part, at):
                return super().feed(fp_replay, part, 0)

        self.assertEqual(self.found(NoReplay(), "part  no bytes -> no line").words(), "status 255")
        self.assertEqual(self.found(Stays(), "part  bytes 0000 0000 -> no line").words(), "place 2 after place 2")


class Errors(Texts):
    def test_in_words(self):
        self.assertIn("'link upp' is no event", self.error("recorded  link upp, link 0, clock 0"))
        self.assertIn("'payload' is no event, and has no record", self.error("recorded  payload, prompt shown"))
        self.assertIn("'stored list' is no event", self.error("lost  stored list"))
        self.assertIn("can't have: capability", self.error("record  link up, link 0, clock 0, capability 1"))
        self.assertIn("can't have: room", self.error("recorded  overflow marker, room 4"))
        self.assertIn("can't have: clock", self.error("recorded  bytes 00020101, clock 0"))
        self.assertIn("'x' is no field", self.error("new recording  x"))
        self.assertIn("'x' is no field", self.error("recording ends  x"))
        self.assertIn("'payload' is no event, and has no record", self.error("part  payload, prompt shown"))
        self.assertIn("'no byte' is no event", self.error("part  no byte"))
        self.assertIn("can't have: clock", self.error("part  bytes 00, clock 0"))


if __name__ == "__main__":
    unittest.main()
