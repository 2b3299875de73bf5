"""Run the scenarios of scenarios/texts on the built library and on the second program, and compare each result."""

import argparse
import sys

from differential.build import build_program
from differential.library import load
from differential.library_replay import LibraryReplay
from differential.replay_program import ReplayProgram
from differential.report import archive, program
from differential.setup_error import SetupError

from .fields import TextError
from .run import first_difference
from .sides import BuiltLibrary, SecondProgram
from .texts import read_all
from .write import write


def arguments():
    parser = argparse.ArgumentParser(prog="python3 -m scenarios", description=__doc__)
    parser.add_argument("names", nargs="*", metavar="NAME", help="texts to run, as lockout (default: all)")
    parser.add_argument(
        "--write", action="store_true", help="fill in missing results from the second program; needs no archive"
    )
    parser.add_argument(
        "--without-library", action="store_true", help="run the second program alone; needs no archive"
    )
    return parser.parse_args()


def sides(options):
    """What makes a fresh side of each, for each text."""
    if options.write or options.without_library:
        return [SecondProgram]
    library, replay_program = load(), ReplayProgram(build_program())
    library_replay = LibraryReplay(library.functions)
    print(f"{archive()}\n{program()}")
    return [SecondProgram, lambda: BuiltLibrary(library, replay_program, library_replay)]


def compare(texts, makers):
    """The number of texts that differ on a side."""
    differing = 0
    for text in texts:
        for make in makers:
            side = make()
            difference = first_difference(text, side)
            if difference:
                differing += 1
                print(f"{text.place(difference.line.number)}: {side.name}: {difference.words()}")
    return differing


def main():
    """The exit code: 1 for a difference."""
    options = arguments()
    texts = read_all(options.names)
    makers = sides(options)
    if options.write:
        filled = sum(write(text) for text in texts)
        print(f"{filled} results filled in from the second program")
        texts = read_all(options.names)
    if compare(texts, makers):
        return 1
    lines = sum(len(text.lines) for text in texts)
    names = " and ".join(make().name for make in makers)
    print(f"{len(texts)} scenarios, {lines} lines: {names} as the texts say")
    return 0


if __name__ == "__main__":
    try:
        sys.exit(main())
    except (TextError, SetupError) as error:
        sys.exit(str(error))
