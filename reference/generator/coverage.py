"""Counts what a run has reached: answers, answers of each kind of event, stages, and situations by name."""

from collections import Counter

from ..rules.device import Stage
from ..rules.events import KINDS
from .filters import Filters
from .list_versions import ListVersions
from .uses import Uses
from .waits import Waits

ANSWERS = range(17)


class Coverage:
    """Takes note of every step of a run."""

    def __init__(self):
        self.answers = Counter()
        self.pairs = Counter()
        self.stages = Counter()
        self.uses = Uses()
        self.filters = Filters()
        self.list_versions = ListVersions()
        self.waits = Waits()

    def note(self, before, event, after, reply):
        """One event, the states around it, and its reply."""
        self.answers[reply.answer] += 1
        self.pairs[type(event).__name__, reply.answer] += 1
        for stage in stages_entered(before, after):
            self.stages[stage] += 1
        for situations in self.situations():
            situations.note(before, event, after, reply)

    def situations(self):
        """Uses of keys, kept filters, lists' versions and waits for a rotation."""
        return self.uses, self.filters, self.list_versions, self.waits


def stages_entered(before, after):
    """The stages that links have come into by this step."""
    if before is None or after is None:
        return []
    links = zip(before.links, after.links)
    return [new.stage for old, new in links if new is not None and new is not old]


def not_reached(coverage):
    """The answers, the stages and the situations that the run has not reached."""
    answers = [answer for answer in ANSWERS if not coverage.answers[answer]]
    stages = [stage.value for stage in Stage if not coverage.stages[stage]]
    return answers, stages, [name for situations in coverage.situations() for name in situations.missed()]


def table(coverage):
    """The counts as text: a row for each kind of event, a column for each answer."""
    rows = ["event".ljust(20) + "".join(f"{answer:>7}" for answer in ANSWERS)]
    for kind in KINDS:
        counts = [coverage.pairs[kind.__name__, answer] for answer in ANSWERS]
        rows.append(kind.__name__.ljust(20) + "".join(f"{n or '.':>7}" for n in counts))
    totals = "".join(f"{coverage.answers[answer]:>7}" for answer in ANSWERS)
    rows.append("all".ljust(20) + totals)
    stages = ", ".join(f"{stage.value} {coverage.stages[stage]}" for stage in Stage)
    rows.append("stages entered: " + stages)
    for situations in coverage.situations():
        rows += [f"{times:>7}  {name}" for name, times in situations.counts.items()]
    return "\n".join(rows)
