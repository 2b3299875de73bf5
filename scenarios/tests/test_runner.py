"""The runner: a wrong result is named, errors are in words, and --write fills in what is missing."""

import pathlib
import tempfile
import unittest
from dataclasses import replace

from differential.library import reply_of
from differential.structs import FpReply

from ..fields import TextError
from ..run import first_difference
from ..sides import BuiltLibrary, SecondProgram
from ..texts import read, read_all
from ..write import rows, write

RIGHT = """# A comment.

power-on               keys 1                                             -> 0
brought to asked       link 0, clock 0, with key 1, salt 0000000000000001 -> 0
pairing started        link 0, clock 9,999, capability 1                  -> 0
"""


class Texts(unittest.TestCase):
    def setUp(self):
        folder = tempfile.TemporaryDirectory()
        self.addCleanup(folder.cleanup)
        self.path = pathlib.Path(folder.name) / "texts" / "sample.txt"
        self.path.parent.mkdir()

    def text(self, content):
        self.path.write_text(content)
        return read(self.path)

    def difference(self, content):
        return first_difference(self.text(content), SecondProgram())

    def error(self, line):
        """What is said of a line that can't be read."""
        with self.assertRaises(TextError) as caught:
            self.text("# A comment.\n" + line)
        return str(caught.exception).partition(": ")[2]


class Comparing(Texts):
    def test_right(self):
        self.assertIsNone(self.difference(RIGHT))

    def test_wrong_answer_is_named_by_its_line(self):
        found = self.difference(RIGHT.replace("capability 1                  -> 0", "capability 1 -> 9"))
        self.assertEqual(found.line.number, 5)
        self.assertEqual(found.words(), "the text says: 9; found: 0")

    def test_each_part_of_a_result_counts(self):
        line = "key-based write  link 0, clock 0, with key 1, names BLE 1, flags 40, seeker d89ef3010203, salt 0001"
        right = "0, tried 1, named BLE, bonding d89ef3010203, writes 5648e98396008dcc2221eb821a7cf50b"
        power_on = "power-on  keys 1 -> 0\n"
        self.assertIsNone(self.difference(f"{power_on}{line} -> {right}"))
        changes = ("tried 1", "tried 2"), ("010203", "010204"), ("f50b", "f50c"), (", w", ", reply no, w")
        addresses = ("named BLE", "named public"), ("named BLE, ", "")
        for part, other in changes + addresses:
            self.assertIsNotNone(self.difference(f"{power_on}{line} -> {right.replace(part, other)}"))

    def test_the_named_address_is_said_behind_the_number_tried(self):
        request = "key-based write  link 0, clock 0, with key 1, names {}, salt 000000000000000{}"
        words = "0, tried 1, named {}, writes 5648e98396008dcc2221eb821a7cf50b"
        text = "power-on  keys 1 -> 0\n"
        for number, (names, named) in enumerate((("public", "public"), ("BLE 1", "BLE"))):
            text += request.format(names, number)
            found = self.difference(text)
            self.assertEqual(found.words(), f"the text has no result; found: {words.format(named)}")
            text += f" -> {words.format(named)}\n"
        self.assertIsNone(self.difference(f"{text}{request.format('public', 2)} -> 16"))

    def test_an_address_is_named_by_the_accepted_answer_alone(self):
        spent = "key-based write  link 0, clock 0, with key 1, names BLE 1, salt 0000000000000001"
        text = RIGHT.partition("pairing started")[0] + spent
        self.assertIsNone(self.difference(f"{text} -> 8, tried 1"))
        found = self.difference(f"{text} -> 8, tried 1, named BLE")
        self.assertEqual(found.words(), "the text says: 8, tried 1, named BLE; found: 8, tried 1")

    def test_bytes_behind_those_written_count(self):
        class WritesTooMuch(SecondProgram):
            def result(self, asked):
                found = super().result(asked)
                return replace(found, reply=replace(found.reply, out=b"?"))

        found = first_difference(self.text(RIGHT), WritesTooMuch())
        self.assertEqual(found.words(), "0, but the lent output holds 3f")

    def test_bytes_of_the_second_output_count(self):
        class WritesTooMuch(SecondProgram):
            def result(self, asked):
                found = super().result(asked)
                return replace(found, reply=replace(found.reply, packet=b"?"))

        found = first_difference(self.text(RIGHT), WritesTooMuch())
        self.assertEqual(found.words(), "0, but the lent output holds  and the second one 3f")

    def test_each_part_of_a_packet_counts(self):
        line = "key-based write  link 0, clock 0, with key 1, names BLE 1, flags 20, salt 0000000000000001"
        writes = "writes 5648e98396008dcc2221eb821a7cf50b, packet 9cc61af31df28505 3132333435363738 3d"
        right = f"0, tried 1, named BLE, {writes}"
        power_on = 'power-on  keys 1, name "a" -> 0\n'
        self.assertIsNone(self.difference(f"{power_on}{line} -> {right}"))
        for part, other in (("9cc6", "9cc7"), ("3738", "3739"), (" 3d", " 3c"), (" 3d", ""), (" 3d", " 3d80")):
            self.assertIsNotNone(self.difference(f"{power_on}{line} -> {right.replace(part, other)}"))

    def test_the_name_is_shown_in_text_or_in_bytes(self):
        names = ('"Küche"', '"Küche"'), ("4bc3bc", '"Kü"'), ("00", "00"), ("e282ac", "e282ac"), ("612c20", "612c20")
        for name, shown in names:
            self.assertIsNone(self.difference(f"power-on  keys 1, name {name} -> 0\nname  -> {shown}"))
        self.assertIsNone(self.difference("power-on  keys 1 -> 0\nname  -> no name"))
        found = self.difference('power-on  keys 1, name "a" -> 0\nname  -> "b"')
        self.assertEqual(found.words(), 'the text says: "b"; found: "a"')

    def test_a_byte_of_a_packet_is_changed(self):
        text = 'power-on  keys 1 -> 0\nbrought to asked  link 0, clock 0, with key 1, salt 0000000000000001 -> 0\n'
        write = 'name write  link 0, clock 0, with key 1, name "a"'
        self.assertIsNone(self.difference(f"{text}{write} -> 0"))
        self.assertIsNone(self.difference(f"{text}{write}, changed byte 16 -> 15"))

    def test_the_key_of_the_second_secret_is_an_account_key(self):
        text = "power-on  keys 0 -> 0\npairing mode on  clock 0 -> 0\n"
        request = "key-based write  link 0, clock 0, with {}, names public, salt 000000000000000{}"
        writes = "named public, writes 6b30ac739f3cc47bb04335234f102e5d"
        for number, key in enumerate(("second secret", "key 0")):
            self.assertIsNone(self.difference(f"{text}{request.format(key, number)} -> 0, tried 1, {writes}"))
        found = self.difference(f"{text}{request.format('shared secret', 2)} -> 0, tried 1, {writes}")
        self.assertIn("found: 0, tried 1, named public, writes fbead8", found.words())

    def test_missing_result(self):
        found = self.difference("power-on  keys 1")
        self.assertEqual(found.words(), "the text has no result; found: 0")

    def test_every_time_counts(self):
        failure = "key-based write  link 0, clock 0, with key 9, names BLE 1, salt 0000000000000001"
        text = f"power-on  keys 1 -> 0\n{failure}, times "
        self.assertIsNone(self.difference(f"{text}10 -> 7, tried 1"))
        found = self.difference(f"{text}11 -> 7, tried 1")
        self.assertEqual(found.words(), "the text says: 7, tried 1; found: 5")

    def test_each_step_to_a_stage_has_to_be_taken(self):
        found = self.difference(RIGHT.replace("keys 1", "keys 2"))
        self.assertEqual(found.words(), "the text says: 0; found: 7")

    def test_the_steps_name_the_public_address_unless_the_line_says_otherwise(self):
        begin = "power-on  keys 1 -> 0\n"
        brought = "brought to asked  link {0}, clock 0, with key 1{1}, salt 000000000000000{0} -> 0\n"
        self.assertIsNone(self.difference(begin + brought.format(0, "") + brought.format(1, "")))
        found = self.difference(begin + brought.format(0, ", names BLE 1") + brought.format(1, ""))
        self.assertEqual(found.words(), "the text says: 0; found: 16")


class OfTheLibrary(Texts):
    def found(self, named, rotate):
        """The difference of a library whose replies have these, or None."""

        class Answering:
            def off(self):
                return None

            def step(self, device, event):
                return device, reply_of(FpReply(named=named, rotate=rotate))

        return first_difference(self.text("power-on  keys 1 -> 0"), BuiltLibrary(Answering(), None))

    def test_the_named_address_counts(self):
        self.assertIsNone(self.found(0, 0))
        self.assertEqual(self.found(1, 1).words(), "the text says: 0; found: 0, named BLE")
        self.assertEqual(self.found(2, 0).words(), "the text says: 0; found: 0, named public")

    def test_a_rotation_is_asked_for_exactly_with_the_ble_address(self):
        for named, rotate in ((0, 1), (1, 0), (2, 1), (1, 2), (3, 0)):
            self.assertEqual(self.found(named, rotate).words(), f"named {named}, rotate {rotate}")


class Errors(Texts):
    def test_in_words(self):
        self.assertIn("'link upp' is no event", self.error("link upp  link 0, clock 0"))
        self.assertIn("'lnk 0' is no field", self.error("link up  lnk 0, clock 0"))
        self.assertIn("'clock' is missing", self.error("link up  link 0"))
        self.assertIn("can't have: capability", self.error("link up  link 0, clock 0, capability 1"))
        self.assertIn("clock 'x' is no number", self.error("link up  link 0, clock x"))
        self.assertIn("stands twice", self.error("link up  link 0, link 0, clock 0"))
        self.assertIn("is not hexadecimal", self.error("power-on  list 0x"))
        self.assertIn("is no result", self.error("power-on  keys 1 -> 0, tired 1"))
        self.assertIn("named 'BLE 1' is neither BLE nor public", self.error("power-on  keys 1 -> 0, named BLE 1"))
        self.assertIn("either 'success' or 'failure'", self.error("pairing ended  link 0, clock 0"))
        self.assertIn("link 256 is above 255", self.error("link up  link 256, clock 0"))
        self.assertIn("there is no 'key 16'", self.error("power-on  keys 16"))
        self.assertIn("only an event can be repeated", self.error("stored list  times 2"))
        self.assertIn("only an event can be repeated", self.error("name  times 2"))
        self.assertIn("name 'Küche' is not hexadecimal", self.error("power-on  keys 1, name Küche"))
        self.assertIn("'name' is missing", self.error("name write  link 0, clock 0, with key 1"))
        no_byte = "name write  link 0, clock 0, with key 1, no name, changed byte 16"
        self.assertIn("no byte 16 to change", self.error(no_byte))
        self.assertIn("has to have 8 bytes", self.error(no_byte.replace("changed byte 16", "nonce 01")))

    def test_they_name_the_file_and_the_line(self):
        with self.assertRaises(TextError) as caught:
            self.text("\n\nlink upp  link 0")
        self.assertIn("texts/sample.txt:3: ", str(caught.exception))

    def test_no_such_text(self):
        with self.assertRaises(TextError) as caught:
            read_all(["lockoutt"])
        self.assertIn("there is no text lockoutt", str(caught.exception))

    def test_no_device_yet(self):
        with self.assertRaises(TextError) as caught:
            first_difference(self.text("link up  link 0, clock 0 -> 0"), SecondProgram())
        self.assertIn("texts/sample.txt:1: no power-on", str(caught.exception))


class Writing(Texts):
    def test_missing_results_are_filled_in(self):
        lines = [line.partition("->")[0] for line in RIGHT.splitlines()]
        self.assertEqual(write(self.text("\n".join(lines))), 3)
        self.assertEqual(self.path.read_text(), RIGHT)

    def test_results_that_are_there_stay(self):
        wrong = RIGHT.replace("capability 1                  -> 0", "capability 1                  -> 9")
        self.assertEqual(write(self.text(wrong)), 0)
        self.assertEqual(self.path.read_text(), wrong)

    def test_texts_stand_as_they_are_written(self):
        for text in read_all([]):
            self.assertEqual(rows(text), text.raw, text.path.name)


if __name__ == "__main__":
    unittest.main()
