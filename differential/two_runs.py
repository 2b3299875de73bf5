"""The two runs of demand 3 on the built library, over random events with overflow markers added at random."""

import argparse
import time

from reference.generator.options import add_run_options
from reference.rules.events import KINDS_ON_A_LINK

from .library import load
from .marked_lists import breach, run_pairs, shortest
from .report import archive
from .run_pair import DURING_WAIT, WRITTEN, after_marker, compared_after, parting_by
from .setup_error import exit_in_words

# What has to be seen, or the test could not have failed.
NEEDED = (
    *map(parting_by, WRITTEN),
    *map(compared_after, WRITTEN),
    "only the second got 9",
    *DURING_WAIT,
    *map(after_marker, KINDS_ON_A_LINK),
)


def unseen(counts):
    return [name for name in NEEDED if not counts[name]]


def failed(library, failure):
    """The shortest entries as Python; an added marker is True behind its event."""
    entries = shortest(library, failure)
    _, what = breach(library, entries)
    lines = ["DEMAND 3 BROKEN", "from reference.rules.events import *", "entries = ["]
    lines += [f"    {entry!r}," for entry in entries]
    return "\n".join([*lines, "]", what])


def arguments():
    parser = argparse.ArgumentParser(prog="python3 -m differential.two_runs", description=__doc__)
    add_run_options(parser, 40_000)
    return parser.parse_args()


def main():
    """The exit code: 1 for a breach, or if something needed was never seen."""
    options = arguments()
    library = load()
    print(archive())
    begin = time.perf_counter()
    counts, failure = run_pairs(library, options.seed, options.events)
    for name, times in sorted(counts.items()):
        print(f"{times:>9}  {name}")
    print(f"seed {options.seed}, {time.perf_counter() - begin:.1f} s")
    if failure:
        print(failed(library, failure))
        return 1
    print(f"never seen: {unseen(counts)}" if unseen(counts) else "demand 3 held")
    return 1 if unseen(counts) else 0


if __name__ == "__main__":
    exit_in_words(main)
