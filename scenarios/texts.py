"""The text files: comments, blank lines, and lines of an event or a question with its result."""

import pathlib
from dataclasses import dataclass

from .fields import TextError
from .lines import asked
from .results import from_words

FOLDER = pathlib.Path(__file__).resolve().parent / "texts"
ARROW = "->"


@dataclass(frozen=True)
class Line:
    """One line: its number, its words left of the arrow, what they ask and the result, if it has one."""

    number: int
    words: str
    asked: object
    result: object


@dataclass(frozen=True)
class Text:
    """A file: every line of it as it stands, and those that hold an event or a question."""

    path: pathlib.Path
    raw: list
    lines: list

    def place(self, number):
        """The file and the line's number, for messages."""
        return f"{self.path.parent.parent.name}/{self.path.parent.name}/{self.path.name}:{number}"


def read_all(names):
    """The texts of these names, or all of them."""
    paths = [FOLDER / f"{name.removesuffix('.txt')}.txt" for name in names]
    return [read(path) for path in paths or sorted(FOLDER.glob("*.txt"))]


def read(path):
    if not path.is_file():
        raise TextError(f"there is no text {path.stem}; there are: {', '.join(names_there())}")
    text = Text(path, path.read_text().splitlines(), [])
    for number, raw in enumerate(text.raw, start=1):
        if holds_line(raw):
            text.lines.append(read_line(text, number, raw))
    return text


def names_there():
    return sorted(path.stem for path in FOLDER.glob("*.txt"))


def holds_line(raw):
    return bool(raw.strip()) and not raw.startswith("#")


def read_line(text, number, raw):
    """The line; an error names the file and the number."""
    words, arrow, result = (part.strip() for part in raw.partition(ARROW))
    try:
        found = asked(words)
        return Line(number, words, found, from_words(result, found) if arrow else None)
    except TextError as error:
        raise TextError(f"{text.place(number)}: {error}") from None
