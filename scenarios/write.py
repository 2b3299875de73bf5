"""Results for new lines, from the second program and never from the library."""

from .lines import KINDS, kind_and_fields
from .results import in_words
from .run import result
from .sides import SecondProgram
from .texts import ARROW, holds_line

# The fields begin in this column, behind the longest kind and two spaces.
FIELDS = max(map(len, KINDS)) + 2


def results(text):
    """The result of each line by its number: the one that it has, or that of the second program."""
    side, found = SecondProgram(), {}
    for line in text.lines:
        computed = result(text, line, side)
        found[line.number] = in_words(line.result or computed, line.asked)
    return found


def rows(text):
    """The file with its results, the fields in one column and the arrows of neighbouring lines in another."""
    words = {line.number: in_columns(line.words) for line in text.lines}
    found, written, block = results(text), [], []
    for number, raw in enumerate([*text.raw, ""], start=1):
        if holds_line(raw):
            block.append(number)
            continue
        width = max((len(words[n]) for n in block), default=0)
        written += [f"{words[n]:<{width}} {ARROW} {found[n]}" for n in block]
        written.append(raw.rstrip())
        block = []
    return written[:-1]


def in_columns(words):
    kind, fields = kind_and_fields(words)
    return f"{kind:<{FIELDS}}{fields}".rstrip()


def write(text):
    """Write the file anew; the number of results that were filled in."""
    text.path.write_text("".join(f"{row}\n" for row in rows(text)))
    return sum(line.result is None for line in text.lines)
