"""The options of every command that runs random events."""

import argparse


def add_run_options(parser, events):
    """How many events, and which ones."""
    many = f"how many random events (default: {events:,})"
    parser.add_argument("--events", metavar="N", type=above_zero, default=events, help=many)
    same = "the same seed gives the same events (default: 1)"
    parser.add_argument("--seed", metavar="N", type=int, default=1, help=same)


def above_zero(text):
    """A number above 0."""
    if not text.isdecimal() or int(text) == 0:
        raise argparse.ArgumentTypeError(f"'{text}' is no number above 0")
    return int(text)
