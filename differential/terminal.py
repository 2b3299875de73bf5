"""A terminal that hands over bytes as they are, and an end of input. It keeps 4,095 bytes of one line."""

import contextlib
import os
import termios

# Places in what tcgetattr gives.
INPUT, OUTPUT, LOCAL, CHARACTERS = 0, 1, 3, 6
# No character has a meaning but the one that ends the input.
NO_CHARACTER = b"\0"
# It closes a line, whatever else it is set to mean.
LINE_END = 0x0A


def end_character(recording):
    """A byte that the recording does not hold, neither zero nor a line end; None if it holds them all."""
    return next((bytes([byte]) for byte in range(1, 256) if byte not in recording and byte != LINE_END), None)


@contextlib.contextmanager
def terminal(end):
    """Both sides of a terminal on which this character ends the input: ours, and the program's."""
    ours, theirs = os.openpty()
    try:
        attributes = termios.tcgetattr(theirs)
        attributes[INPUT] = attributes[OUTPUT] = 0
        # Lines, which only a line end and the end character close, and no echo.
        attributes[LOCAL] = termios.ICANON
        attributes[CHARACTERS] = [NO_CHARACTER] * len(attributes[CHARACTERS])
        attributes[CHARACTERS][termios.VEOF] = end
        termios.tcsetattr(theirs, termios.TCSANOW, attributes)
        yield ours, theirs
    finally:
        os.close(ours)
        os.close(theirs)
