"""What a run prints."""

import hashlib

from reference.generator.coverage import table
from reference.generator.shrink import shrink

from .compare import first_difference
from .paths import ARCHIVE, PROGRAM, ROOT


def archive():
    """The archive that is tested."""
    return f"archive {told(ARCHIVE)}"


def program():
    """The program that is tested."""
    return f"program {told(PROGRAM)}"


def told(path):
    digest = hashlib.sha256(path.read_bytes()).hexdigest()
    return f"{path.relative_to(ROOT)}, SHA-256 {digest[:16]}"


def reached(tally):
    """Answers, stages, rare cases, records and corrupted devices, counted."""
    lines = [table(tally.coverage)]
    lines += [f"{times:>7}  {name}" for name, times in tally.rare_cases.counts.items()]
    rarest, times = min(tally.records.counts.items(), key=lambda found: found[1])
    lines.append(f"{times:>7}  times the rarest record was compared: {rarest}")
    corrupted = sorted(tally.any_bytes.tried.items())
    lines += [f"{times:>7}  any bytes: {name}" for name, times in corrupted]
    return "\n".join(lines)


def shortest(library, failure):
    """The shortest list that still differs; empty if a corrupted device or a record shows it."""
    def fails(events):
        return first_difference(library, events) is not None

    return shrink(failure.events, fails) if fails(failure.events) else []


def failed(library, failure):
    """The shortest failing list as Python, and both sides' results."""
    events = shortest(library, failure)
    difference = first_difference(library, events)[1] if events else failure.difference
    lines = [f"DIFFERENCE in run {failure.seed} at event {len(failure.events)}"]
    if events:
        listed = [f"    {event!r}," for event in events]
        lines += ["from reference.rules.events import *", "events = [", *listed, "]"]
    lines.append(f"differs: {difference.what}")
    lines.append(f"reference: {difference.reference}")
    lines.append(f"library:   {difference.library}")
    return "\n".join(lines)
