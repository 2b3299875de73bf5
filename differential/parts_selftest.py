"""Whether recordings in parts find a wrong replay: each mistake stands in for the library and has to be found."""

import tempfile

from reference.generator.divided_recordings import at_limits, divided
from reference.generator.division_coverage import DivisionCoverage
from reference.generator.recordings import of_a_run
from wrong_rules.copies import wrong_rules
from wrong_rules.edits import of_files, parts

from . import parts_mistakes
from .any_replays import AnyReplays
from .divided import Divided
from .parts import first_difference, missed
from .stand_in_replay import StandIn


def of_calls():
    """The wrong rules that show in calls: all but those of feeding a whole part, which the library leaves to C."""
    feeding = {name for name, _, _ in parts.FEEDING}
    return [edit for edit in of_files("parts") if edit.name not in feeding]


def stand_ins(folder):
    """Each mistake by its name: in what the library gives back, and in the rules."""
    yield from parts_mistakes.stand_ins()
    for number, edit in enumerate(of_calls()):
        yield edit.name, StandIn(wrong_rules(edit, folder, number).parts)


def found(stand_in, recordings):
    """How the mistake is found, or None."""
    compared = Divided(stand_in, AnyReplays(stand_in, 1))
    difference = first_difference(compared, recordings)
    return f"found in recording {compared.recordings}, {difference[1].what[:60]}" if difference else None


def nothing_found(recordings):
    """Whether the stand-in without a mistake shows no difference, and every situation is reached."""
    right = StandIn()
    compared = Divided(right, AnyReplays(right, 1), DivisionCoverage())
    return first_difference(compared, recordings) is None and not missed(compared)


def selftest():
    """The exit code: 1 if a mistake was not found, or something without a mistake was."""
    recordings = [*at_limits(1), *divided(1, of_a_run("1.0"))]
    right = nothing_found(recordings)
    print(f"no mistake: {'nothing found' if right else 'FOUND, or something was not reached'}", flush=True)
    not_found = 0 if right else 1
    with tempfile.TemporaryDirectory() as folder:
        for name, stand_in in stand_ins(folder):
            words = found(stand_in, recordings)
            not_found += words is None
            print(f"{name}: {words or 'NOT FOUND'}", flush=True)
    print(f"{not_found} mistakes not found")
    return 1 if not_found else 0
