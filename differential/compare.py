"""The same events through the reference and the library, compared after every one."""

from dataclasses import dataclass, fields
from random import Random

from reference import older_stored_list
from reference.rules.advertising import advertisement
from reference.rules.events import PowerOn, Reply
from reference.rules.lent_output import put_or_refuse
from reference.rules.model import step
from reference.rules.stored_list import stored_list

from .expected_device import expected_values
from .guarded_memory import InterfaceViolation
from .struct_values import differing, values
from .structs import STORED_LIST_MAX

REPLY = tuple(field.name for field in fields(Reply))


@dataclass(frozen=True)
class Difference:
    """What differs after an event, and both sides' results."""

    what: str
    reference: object
    library: object


class Pair:
    """Both devices, which get the same events."""

    def __init__(self, library, seed=0):
        self.library = library
        self.random = Random(seed)
        self.reference = None
        self.device = library.off()

    def send(self, event):
        """The reference's reply and the first difference, or None for no difference."""
        self.reference, expected = step(self.reference, event)
        try:
            self.device, found = self.library.step(self.device, event)
            difference = reply(expected, found) or self.state(expected, found) or self.questions()
        except InterfaceViolation as violation:
            difference = Difference("memory or reply", expected, str(violation))
        return expected, difference

    def state(self, *replies):
        """Every field of fp_device; next.stored is among them. The replies are shown beside it."""
        expected, found = expected_values(self.reference), values(self.device)
        if expected == found:
            return None
        sides = zip(differing(expected, found), replies or ("", ""))
        return Difference("state", *sides)

    def questions(self):
        """The stored list and both forms of the payload, of a device that power-on has made."""
        if self.reference is None:
            return None
        return self.compare_list() or self.compare_payload(0) or self.compare_payload(self.hide())

    def hide(self):
        """ "any other number to hide it": by the clock, so that a shortened list gets the same."""
        return (1, 2, 128, 255)[self.reference.clock % 4]

    def compare_list(self):
        text = stored_list(self.reference)
        return self.compare_output("stored list", text, self.library.stored_list) or self.older_firmware()

    def older_firmware(self):
        """ "Old firmware given a 0x02 list answers 14": its reader, given what the library wrote."""
        _, length, out = self.library.stored_list(self.device, bytes(STORED_LIST_MAX))
        read = older_stored_list.read_stored_list(out[:length])
        return None if read is None else Difference("older firmware", "14", f"0, {len(read)} keys")

    def compare_payload(self, hide):
        text = advertisement(self.reference, bool(hide))
        return self.compare_output(f"payload, hide {hide}", text, self.library.advertisement, hide)

    def compare_output(self, what, text, ask, *arguments):
        """The text into outputs that have room for it, and into one that lacks a byte."""
        for size in (len(text) + self.random.randrange(40), len(text) - 1, self.too_short(text)):
            out = self.random.randbytes(size)
            answer, left = put_or_refuse(text, out)
            expected = answer, 0 if answer else len(text), left
            found = ask(self.device, *arguments, out)
            if expected != found:
                return Difference(f"{what}, output of {size}", expected, found)
        return None

    def too_short(self, text):
        """Any size below the one needed, often none at all."""
        return self.random.choice((0, self.random.randrange(len(text))))


def reply(expected, found):
    """The first part of a reply that differs."""
    if expected == found:
        return None
    parts = [name for name in REPLY if getattr(expected, name) != getattr(found, name)]
    return Difference("reply: " + ", ".join(parts), expected, found)


def first_difference(library, events, seed=0):
    """The place and the first difference of a list, or None."""
    pair = Pair(library, seed)
    for place, event in enumerate(events):
        # A shortened list may have lost its power-on; then there is nothing to compare.
        if pair.reference is None and not isinstance(event, PowerOn):
            return None
        _, difference = pair.send(event)
        if difference:
            return place, difference
    return None
