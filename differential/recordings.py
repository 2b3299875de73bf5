"""Run fp_replay on random recordings beside the second program, and compare every line that it prints."""

import argparse
import time

from reference.generator.options import above_zero
from reference.generator.recording_coverage import RecordingCoverage
from reference.generator.recordings import every_recording
from reference.generator.shrink import shrink

from .build import build_program
from .library import load
from .library_recordings import library_recording
from .paths import FOLDER, ROOT
from .replay_program import ReplayProgram
from .replays import Replays
from .report import archive, program
from .setup_error import exit_in_words

RUNS = 10
# A recording with a difference, for a look at its bytes.
DIFFERING = FOLDER / "differing.recording"


def first_difference(replays, made):
    """The first of these recordings that differs, with its difference, or None."""
    for recording in made:
        difference = replays.check(recording)
        if difference:
            return recording, difference
    return None


def library_difference(replays, library, seed, runs):
    """The same of recordings that the library wrote, beside what it answered."""
    for run in range(runs):
        recording, lines = library_recording(library, f"{seed}.{run}")
        difference = replays.check_answers(recording, lines)
        if difference:
            return recording, difference
    return None


def shortest(replays, recording):
    """The shortest recording that still differs; the same one if only another way of handing it over shows it."""
    records, place = [], 0
    while place < len(recording):
        end = place + 2 + int.from_bytes(recording[place : place + 2], "big")
        records.append(recording[place:end])
        place = end

    def fails(kept):
        return replays.check(b"".join(kept)) is not None

    return b"".join(shrink(records, fails) if fails(records) else records)


def report(replays, found):
    """The exit code: 1 for a difference, or for a situation that was not reached."""
    if found:
        recording, difference = found
        print(f"DIFFERENCE, {difference.what}\nsecond program: {difference.reference}\nprogram: {difference.library}")
        DIFFERING.write_bytes(shortest(replays, recording))
        print(f"{DIFFERING.relative_to(ROOT)} is a recording that shows it")
        return 1
    if replays.missed():
        print(f"not reached: {replays.missed()}")
        return 1
    print("no difference")
    return 0


def main():
    """The exit code: 1 for a difference, for a situation that was not reached, or for a mistake that was not found."""
    options = arguments()
    if options.selftest:
        # Imported here, because it runs the functions of this file.
        from .recordings_selftest import selftest

        return selftest()
    return compare(options)


def compare(options):
    begin = time.perf_counter()
    replays, library = Replays(ReplayProgram(build_program()), options.seed, RecordingCoverage()), load()
    print(f"{program()}\n{archive()}; seed {options.seed}, {options.runs} runs", flush=True)
    found = first_difference(replays, every_recording(options.seed, options.runs))
    found = found or library_difference(replays, library, options.seed, options.runs)
    print(replays.reached())
    print(f"{replays.recordings} recordings, {replays.lines} lines, {time.perf_counter() - begin:.1f} s")
    return report(replays, found)


def arguments():
    parser = argparse.ArgumentParser(prog="python3 -m differential.recordings", description=__doc__)
    many = f"how many random runs to make recordings of (default: {RUNS})"
    parser.add_argument("--runs", metavar="N", type=above_zero, default=RUNS, help=many)
    same = "the same seed gives the same recordings (default: 1)"
    parser.add_argument("--seed", metavar="N", type=int, default=1, help=same)
    mistakes = "put mistakes into the replay, which have to be found; this needs no program"
    parser.add_argument("--selftest", action="store_true", help=mistakes)
    return parser.parse_args()


if __name__ == "__main__":
    exit_in_words(main)
