"""Whether random recordings find a wrong replay: each mistake stands in for fp_replay and has to be found."""

import tempfile

from reference.generator.recording_coverage import RecordingCoverage
from reference.generator.recordings import every_recording
from wrong_rules.copies import wrong_rules
from wrong_rules.edits import of_files, record_layout, recording

from .recordings import first_difference
from .replay_mistakes import MISTAKES, StandIn
from .replays import NEEDED_OF_THE_LIBRARY, Replays

RUNS = 6


def of_replays():
    """The wrong rules that show in a replay: all of recordings but those of the writer alone."""
    writers = {name for name, _, _ in record_layout.WRITING + recording.WRITING}
    return [edit for edit in of_files("record_layout", "recording", "replay") if edit.name not in writers]


def stand_ins(folder):
    """Each mistake by its name."""
    for mistake in MISTAKES:
        yield mistake.__name__, mistake()
    for number, edit in enumerate(of_replays()):
        yield edit.name, StandIn(wrong_rules(edit, folder, number).replay)


def found(stand_in, recordings):
    """How the mistake is found, or None."""
    replays = Replays(stand_in, 1)
    difference = first_difference(replays, recordings)
    return f"found in recording {replays.recordings}, {difference[1].what}" if difference else None


def selftest():
    """The exit code: 1 if a mistake was not found, or something without a mistake was."""
    right, recordings = Replays(StandIn(), 1, RecordingCoverage()), list(every_recording(1, RUNS))
    missed = first_difference(right, recordings) is not None or right.missed() != [NEEDED_OF_THE_LIBRARY]
    print(f"no mistake: {'FOUND, or something was not reached' if missed else 'nothing found'}", flush=True)
    with tempfile.TemporaryDirectory() as folder:
        for name, stand_in in stand_ins(folder):
            words = found(stand_in, recordings)
            missed += words is None
            print(f"{name}: {words or 'NOT FOUND'}", flush=True)
    print(f"{missed} mistakes not found")
    return 1 if missed else 0
