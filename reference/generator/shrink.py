"""Shortens a list of events that shows a difference."""


def shrink(events, still_fails):
    """A shorter list that still fails: halves and smaller parts go first, then single events."""
    events = list(events)
    size = len(events) // 2
    while size > 1:
        events = without_parts(events, size, still_fails)
        size //= 2
    return without_single_events(events, still_fails)


def without_parts(events, size, still_fails):
    """The list without every part of this size that it can do without."""
    # From the end, because later events depend on earlier ones and not the other way round.
    start = max(0, len(events) - size)
    while True:
        shorter = events[:start] + events[start + size :]
        if len(shorter) < len(events) and still_fails(shorter):
            events = shorter
        if start == 0:
            return events
        start = max(0, start - size)


def without_single_events(events, still_fails):
    """The list from which no single event can be left out any more."""
    while True:
        shorter = without_parts(events, 1, still_fails)
        if len(shorter) == len(events):
            return events
        events = shorter
