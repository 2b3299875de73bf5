"""What docs/RECORDING.md shows: its table of kinds, its example of each kind, and the lines of its replay."""

import pathlib
import re

PAGE = pathlib.Path(__file__).resolve().parents[2] / "docs" / "RECORDING.md"
ROW = re.compile(r"^\| `([0-9A-F]{2})` \| `([\w-]+)` \| (.*) \| (\d+)( and more)? \|$", re.MULTILINE)
FIELD_SIZE = re.compile(r"\((\d+|that many|\.\.)\)")
EXAMPLE = re.compile(r"^`([\w-]+)`[^\n]*(?:\n[^\n]+)*\n\n((?:    [^\n]+\n)+)", re.MULTILINE)
LINES = re.compile(r"replay as\n\n((?:    [^\n]+\n)+)")


def rows():
    """Each row of the table: kind, name, sizes of the fields as written there, length, and whether it may be more."""
    found = ROW.findall(PAGE.read_text())
    return [
        (int(kind, 16), name, FIELD_SIZE.findall(fields), int(length), bool(more))
        for kind, name, fields, length, more in found
    ]


def examples():
    """The record of each kind, by the kind's name."""
    section = PAGE.read_text().partition("## Examples\n")[2]
    return {name: bytes.fromhex(block) for name, block in EXAMPLE.findall(section)}


def replayed_lines():
    """What power-on and marker replay as."""
    return [line.strip() for line in LINES.search(PAGE.read_text()).group(1).splitlines()]
