"""Feed recordings in parts to the built library beside the second program, and compare after every call."""

import argparse
import faulthandler
import time

from reference.generator.divided_recordings import divided_recordings
from reference.generator.division_coverage import DivisionCoverage
from reference.generator.options import above_zero
from reference.generator.shrink import shrink

from .any_replays import AnyReplays
from .divided import Divided
from .library import load
from .library_replay import LibraryReplay
from .report import archive
from .setup_error import exit_in_words

RUNS = 4


def first_difference(divided, made):
    """The first of these recordings in parts that differs, with its difference, or None."""
    for parts in made:
        difference = divided.check(parts)
        if difference:
            return parts, difference
    return None


def shortest(library, parts):
    """The fewest parts that still differ; all of them if only any bytes show it."""

    def fails(kept):
        return Divided(library).check(kept) is not None

    return shrink(parts, fails) if fails(parts) else parts


def missed(divided):
    """The situations and the corrupted replays that were not reached."""
    return [*divided.coverage.missed(), *divided.any_replays.never_tried()]


def report(divided, found):
    """The exit code: 1 for a difference, or for a situation that was not reached."""
    if found:
        parts, difference = found
        print(f"DIFFERENCE, {difference.what}\nsecond program: {difference.reference}\nlibrary: {difference.library}")
        print(f"parts: {[part.hex() for part in shortest(divided.library, parts)]}")
        return 1
    if missed(divided):
        print(f"not reached: {missed(divided)}")
        return 1
    print("no difference")
    return 0


def reached(divided):
    counts = {**divided.coverage.counts}
    counts |= {f"any bytes: {name}": times for name, times in sorted(divided.any_replays.tried.items())}
    return "\n".join(f"{times:>7}  {name}" for name, times in counts.items())


def main():
    """The exit code: 1 for a difference, for a situation that was not reached, or for a mistake that was not found."""
    # A read past a part ends the process; this tells where it was called.
    faulthandler.enable()
    options = arguments()
    if options.selftest:
        # Imported here, because it runs the functions of this file.
        from .parts_selftest import selftest

        return selftest()
    return compare(options)


def compare(options):
    begin, library = time.perf_counter(), LibraryReplay(load().functions)
    print(f"{archive()}; seed {options.seed}, {options.runs} runs", flush=True)
    divided = Divided(library, AnyReplays(library, options.seed), DivisionCoverage())
    found = first_difference(divided, divided_recordings(options.seed, options.runs))
    print(reached(divided))
    seconds = time.perf_counter() - begin
    print(f"{divided.recordings} recordings in {divided.parts} parts, {divided.calls} calls, {seconds:.1f} s")
    return report(divided, found)


def arguments():
    parser = argparse.ArgumentParser(prog="python3 -m differential.parts", description=__doc__)
    many = f"how many random runs to make recordings of (default: {RUNS})"
    parser.add_argument("--runs", metavar="N", type=above_zero, default=RUNS, help=many)
    same = "the same seed gives the same recordings and parts (default: 1)"
    parser.add_argument("--seed", metavar="N", type=int, default=1, help=same)
    mistakes = "put mistakes into the replay, which have to be found; this needs no library"
    parser.add_argument("--selftest", action="store_true", help=mistakes)
    return parser.parse_args()


if __name__ == "__main__":
    exit_in_words(main)
