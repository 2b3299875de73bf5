"""What keeps a command from running, told in words."""

import sys


class SetupError(Exception):
    """The library is not there, can't be linked, or is not the one that the header describes."""


def exit_in_words(main):
    """Run the command; a SetupError ends it with its words."""
    try:
        sys.exit(main())
    except SetupError as error:
        sys.exit(str(error))
