"""The clock step of document 01."""

from .device import Stage

# "Pairing and proved have no timer."
TIMED = (Stage.ASKED, Stage.CONFIRMING, Stage.PAIRED)
STAGE_LASTS = 10_000
FAILURE_LASTS = 300_000


def clock_step(device, clock):
    """The device after an event passed the checks 1, 2, 3, 13 and 4."""
    # "the clock is stored; then any K .. whose stage began 10,000 ms or more ago is dropped"
    links = tuple(None if is_over(session, clock) else session for session in device.links)
    # "then, if the last counted failure is 300,000 ms or more old, the failure count becomes 0"
    forgotten = clock - device.failed_at >= FAILURE_LASTS
    failures = 0 if forgotten else device.failures
    return device.copy(clock=clock, links=links, failures=failures)


def is_over(session, clock):
    """Whether a session is in a timed stage that has lasted too long."""
    # "(9,999 is in time)"
    if session is None or session.stage not in TIMED:
        return False
    return clock - session.began >= STAGE_LASTS
