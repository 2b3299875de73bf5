"""Run random events through the second program alone, and print what they reached."""

import argparse
import sys
import time

from ..rules.model import step
from .coverage import Coverage, not_reached, table
from .generate import Generator
from .options import add_run_options
from .rare_cases import RareCases


def run(count, seed):
    """The coverage and the rare cases of a run, and the seconds that it took."""
    generator, coverage, rare_cases, device = Generator(seed), Coverage(), RareCases(), None
    begin = time.perf_counter()
    for _ in range(count):
        event = generator.next_event(device)
        after, reply = step(device, event)
        coverage.note(device, event, after, reply)
        rare_cases.note(device, event, after, reply)
        device = after
    return coverage, rare_cases, time.perf_counter() - begin


def arguments():
    parser = argparse.ArgumentParser(prog="python3 -m reference.generator", description=__doc__)
    add_run_options(parser, 30_000)
    return parser.parse_args()


def main():
    """The exit code: 1 if an answer, a stage or a situation was not reached."""
    options = arguments()
    coverage, rare_cases, seconds = run(options.events, options.seed)
    answers, stages, situations = not_reached(coverage)
    print(table(coverage))
    for name, times in rare_cases.counts.items():
        print(f"{times:>7}  {name}")
    print(f"answers not reached: {answers}; stages not reached: {stages}; situations not reached: {situations}")
    print(f"{options.events} events, seed {options.seed}: {seconds:.1f} s")
    return 1 if answers or stages or situations else 0


if __name__ == "__main__":
    sys.exit(main())
