"""The moments that a generated event carries."""

from ..rules.clock import FAILURE_LASTS, STAGE_LASTS, TIMED
from ..rules.key_based import MOST_FAILURES
from .random_values import weighted

LAST_CLOCK = 2**64 - 1
# From here on the clock can hardly go forward, and only power-on ends that.
LATE = LAST_CLOCK - 2**20
# Both sides of each limit.
STAGE_LIMITS = (STAGE_LASTS - 1, STAGE_LASTS - 1, STAGE_LASTS, STAGE_LASTS, STAGE_LASTS + 1)
FAILURE_LIMITS = (FAILURE_LASTS - 1, FAILURE_LASTS, FAILURE_LASTS, FAILURE_LASTS + 1)
# Where a clock or a difference of clocks kept in fewer bits would wrap.
WIDTHS = (2**31, 2**32, 2**53, 2**63)
WRAPS = (2**16, 2**32, 2**32 + 9_999)
# How far before the last clock the late phases begin or go on.
BEFORE_LAST = (0, 1, 9_999, 10_000, 10_001, 20_001, 299_999, 300_000, 300_001, 700_000)


def random_clock(random, device, rates, link=None):
    """A clock for the next event; the rates name the ways to choose it."""
    way = weighted(random, rates)
    # A locked device is unlocked by the end of its five minutes alone.
    if device.failures == MOST_FAILURES and random.random() < 0.14:
        way = "failure limit"
    return min(WAYS[way](random, device, link), LAST_CLOCK)


def small_step(random, device, link):
    """A little later, or the same moment again."""
    return device.clock + random.choice((0, 0, 1, 2, random.randrange(40), random.randrange(300)))


def stage_limit(random, device, link):
    """The moment before or at which a stage is over; of this link, if it has a timer."""
    session = device.links[link] if link is not None else None
    if session is None or session.stage not in TIMED:
        timed = [s for s in device.links if s is not None and s.stage in TIMED]
        if not timed:
            return small_step(random, device, link)
        session = random.choice(timed)
    limits = WRAPS if random.random() < 0.03 else STAGE_LIMITS
    return limit_ahead(random, device, session.began, limits)


def failure_limit(random, device, link):
    """The moment before or at which the failure count becomes 0."""
    if device.failures == 0:
        return small_step(random, device, link)
    limits = WRAPS if random.random() < 0.05 else FAILURE_LIMITS
    return limit_ahead(random, device, device.failed_at, limits)


def limit_ahead(random, device, start, limits):
    """One of the limits after the start that still lies ahead."""
    ahead = [start + limit for limit in limits if start + limit >= device.clock]
    return random.choice(ahead) if ahead else device.clock


def earlier(random, device, link):
    """Before the stored clock; at clock 0 there is no such moment."""
    if device.clock == 0:
        return 0
    lower = (device.clock - 1, device.clock - 1, 0, random.randrange(device.clock))
    return random.choice(lower)


def far_ahead(random, device, link):
    """Far ahead."""
    return device.clock + random.choice((10_000, 20_000, 299_999, 300_000, 3_600_000))


def integer_width(random, device, link):
    """Around a moment where a narrower clock would wrap."""
    ahead = [w for w in WIDTHS if w - 20_000 > device.clock]
    if not ahead:
        return small_step(random, device, link)
    return random.choice(ahead) - random.choice((0, 1, 5_000, 9_999, 20_000))


def last_clocks(random, device, link):
    """Close to the last clock that there is."""
    ahead = [LAST_CLOCK - b for b in BEFORE_LAST if LAST_CLOCK - b >= device.clock]
    return random.choice(ahead) if ahead else LAST_CLOCK


WAYS = {
    "small step": small_step,
    "stage limit": stage_limit,
    "failure limit": failure_limit,
    "earlier": earlier,
    "far ahead": far_ahead,
    "integer width": integer_width,
    "last clocks": last_clocks,
}
