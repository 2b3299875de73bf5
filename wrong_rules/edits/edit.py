"""One wrong rule: a text of a file, and what stands in its place."""

from dataclasses import dataclass


class EditError(Exception):
    """A wrong rule that can't be made, or does not answer."""


@dataclass(frozen=True)
class Edit:
    file: str
    name: str
    right: str
    wrong: str

    def applied(self, text):
        """The file's text with the wrong rule; the right one has to stand there once."""
        count = text.count(self.right)
        if count != 1:
            raise EditError(f"{self.file}: {self.name}: the text to change stands there {count} times")
        return text.replace(self.right, self.wrong)
