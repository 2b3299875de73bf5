"""Make one rule of the second program wrong at a time, and show what finds it: the scenarios' texts, and random events beside
the right rules. It fails if a wrong rule is found by neither."""

import argparse
import sys
import tempfile
import time
from dataclasses import dataclass

from reference.generator.options import add_run_options
from scenarios.fields import TextError
from scenarios.texts import read_all

from .copies import wrong_rules
from .edits import UNCHANGED, all_edits
from .edits.edit import Edit, EditError
from .find import (
    OF_PARTS,
    OF_RECORDINGS,
    by_random_events,
    by_random_parts,
    by_random_recordings,
    by_scenarios,
    random_recordings,
    random_runs,
)

# Events of a run, as in the differential test.
LENGTH = 500


@dataclass(frozen=True)
class Found:
    """Where the scenarios find a wrong rule, and after how many random events it is found."""

    edit: Edit
    place: str | None
    events: int | None

    def words(self, random):
        words = f"{self.edit.file}: {self.edit.name}: {self.place or 'NOT BY THE SCENARIOS'}"
        after = f"after {self.events} random events" if self.events else "NOT BY RANDOM EVENTS"
        return f"{words}, {after}" if random else words

    def missed(self, random):
        """Whether one of those that looked did not find it."""
        return self.place is None or (random and self.events is None)

    def by_neither(self):
        return self.place is None and self.events is None


def arguments():
    parser = argparse.ArgumentParser(prog="python3 -m wrong_rules", description=__doc__)
    parser.add_argument(
        "--scenarios-only", action="store_true", help="no random events: the scenarios have to find every wrong rule"
    )
    add_run_options(parser, 20_000)
    parser.add_argument(
        "--missed", action="store_true", help="print a line only for a wrong rule that one of the two does not find"
    )
    return parser.parse_args()


def look(edit, number, folder, texts, runs, recordings):
    """What finds this wrong rule."""
    rules = wrong_rules(edit, folder, number)
    try:
        return Found(edit, by_scenarios(rules, texts, edit.file), by_random(edit, rules, runs, recordings))
    except Exception as error:
        raise EditError(f"{edit.file}: {edit.name}: a wrong rule has to answer, and raises {error!r}") from error


def by_random(edit, rules, runs, recordings):
    """After how many random events it is found; nothing else than recordings shows some of them."""
    if edit.file == OF_PARTS:
        return by_random_parts(rules, recordings)
    if edit.file in OF_RECORDINGS:
        return by_random_recordings(rules, runs, recordings)
    return by_random_events(rules, runs)


def look_for_all(texts, runs, recordings, options):
    """What finds each wrong rule; nothing may find a copy without one."""
    found, random = [], not options.scenarios_only
    with tempfile.TemporaryDirectory() as folder:
        for number, edit in enumerate(UNCHANGED):
            if not look(edit, f"none_{number}", folder, texts, runs, recordings).by_neither():
                raise EditError("the unchanged copy differs from the right rules or from the texts")
        for number, edit in enumerate(all_edits()):
            found.append(look(edit, number, folder, texts, runs, recordings))
            if not options.missed or found[-1].missed(random):
                print(found[-1].words(random), flush=True)
    return found


def report(found, options, seconds):
    places = [one.place for one in found if one.place]
    counts = [one.events for one in found if one.events]
    print(f"{len(found)} wrong rules, {len(places)} found by the scenarios")
    if not options.scenarios_only:
        by = f"{options.events} random events of seed {options.seed}"
        print(f"{len(counts)} found by {by}, the slowest after {max(counts, default=0)}")
    print(f"{sum(one.by_neither() for one in found)} found by neither; {seconds:.1f} s")


def main():
    """The exit code: 1 if a wrong rule was found by neither."""
    options, begin = arguments(), time.perf_counter()
    runs = [] if options.scenarios_only else random_runs(options.seed, options.events, LENGTH)
    recordings = random_recordings(options.seed, len(runs))
    found = look_for_all(read_all([]), runs, recordings, options)
    report(found, options, time.perf_counter() - begin)
    return 1 if any(one.by_neither() for one in found) else 0


if __name__ == "__main__":
    try:
        sys.exit(main())
    except (TextError, EditError) as error:
        sys.exit(str(error))
