"""Run the built library beside the second program on random events, and compare after each event."""

import argparse
import faulthandler
import time

from reference.generator.options import above_zero, add_run_options

from . import two_keys_fit
from .any_bytes import AnyBytes
from .library import load
from .records import Records
from .report import archive, failed, reached
from .runs import Failure, runs
from .selftest import selftest
from .setup_error import exit_in_words


def arguments():
    parser = argparse.ArgumentParser(prog="python3 -m differential", description=__doc__)
    add_run_options(parser, 20_000)
    length = "how many of them in each run, which begins without a device (default: 500)"
    parser.add_argument("--list-length", metavar="N", type=above_zero, default=500, help=length)
    mistakes = "put mistakes into the library's results, which have to be found"
    parser.add_argument("--selftest", action="store_true", help=mistakes)
    return parser.parse_args()


def compare(library, options):
    """The exit code: 1 for a difference, or for something that had to be reached and was not."""
    begin = time.perf_counter()
    any_bytes = AnyBytes(library, options.seed)
    records = Records(library, options.seed)
    tally, failure = runs(library, options.seed, options.events, options.list_length, any_bytes, records)
    print(reached(tally))
    seconds = time.perf_counter() - begin
    print(f"{tally.events} events in {tally.runs} runs, {seconds:.1f} s")
    failure = failure or requests_of_two(library, options.seed)
    if failure:
        print(failed(library, failure))
        return 1
    if tally.missed():
        print(f"not reached: {tally.missed()}")
        return 1
    print("no difference")
    return 0


def requests_of_two(library, seed):
    """A Failure of requests that two keys fit, or None."""
    found = two_keys_fit.difference(library, seed)
    print(f"{two_keys_fit.LISTS:>7}  lists with a request that two keys fit")
    return Failure(f"{seed}, two keys fit", *found) if found else None


def main():
    # A crash inside the library then tells where it was called.
    faulthandler.enable()
    options = arguments()
    library = load()
    print(f"{archive()}; seed {options.seed}, {options.events} events", flush=True)
    return selftest(library) if options.selftest else compare(library, options)


if __name__ == "__main__":
    exit_in_words(main)
