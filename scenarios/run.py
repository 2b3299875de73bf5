"""A text through one side, and the first line whose result is another one."""

from dataclasses import dataclass

from differential.guarded_memory import InterfaceViolation

from .fields import TextError
from .results import in_words
from .texts import Line


@dataclass(frozen=True)
class Difference:
    """A line, and the result that it got instead of its own."""

    line: Line
    found: object

    def words(self):
        if isinstance(self.found, InterfaceViolation):
            return str(self.found)
        found = in_words(self.found, self.line.asked)
        if self.line.result is None:
            return f"the text has no result; found: {found}"
        expected = in_words(self.line.result, self.line.asked)
        if expected == found:
            return f"{found}, but {outputs(self.found.reply)}"
        return f"the text says: {expected}; found: {found}"


def outputs(reply):
    """What the lent outputs hold, in words."""
    first = f"the lent output holds {reply.out.hex()}"
    return f"{first} and the second one {reply.packet.hex()}" if reply.packet else first


def first_difference(text, side):
    """The first difference of a text, or None."""
    for line in text.lines:
        found = result(text, line, side)
        if found != line.result:
            return Difference(line, found)
    return None


def result(text, line, side):
    """The result of a line on this side; what broke the interface takes its place."""
    try:
        return side.result(line.asked)
    except InterfaceViolation as violation:
        return violation
    except TextError as error:
        raise TextError(f"{text.place(line.number)}: {error}") from None
