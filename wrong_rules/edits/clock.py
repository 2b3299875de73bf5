"""The clock step: stage timers, and the time after which the failure count is 0."""

FORGOTTEN = "    failures = 0 if forgotten else device.failures\n"
LINKS = "    links = tuple(None if is_over(session, clock) else session for session in device.links)\n"
STEPPED = "    return device.copy(clock=clock, links=links, failures=failures)\n"

EDITS = (
    ("a stage is over at 9,999 ms", "STAGE_LASTS = 10_000", "STAGE_LASTS = 9_999"),
    ("a stage is in time at 10,000 ms", "STAGE_LASTS = 10_000", "STAGE_LASTS = 10_001"),
    ("asked has no timer", "(Stage.ASKED, Stage.CONFIRMING, Stage.PAIRED)", "(Stage.CONFIRMING, Stage.PAIRED)"),
    ("confirming has no timer", "(Stage.ASKED, Stage.CONFIRMING, Stage.PAIRED)", "(Stage.ASKED, Stage.PAIRED)"),
    ("paired has no timer", "(Stage.ASKED, Stage.CONFIRMING, Stage.PAIRED)", "(Stage.ASKED, Stage.CONFIRMING)"),
    ("pairing has a timer", "(Stage.ASKED, ", "(Stage.PAIRING, Stage.ASKED, "),
    ("proved has a timer", "(Stage.ASKED, ", "(Stage.PROVED, Stage.ASKED, "),
    (
        "a stage that is over drops every K",
        LINKS,
        LINKS + "    if links.count(None) > device.links.count(None):\n        links = (None,) * 8\n",
    ),
    ("a stage's time is kept in 32 bits", "clock - session.began >=", "(clock - session.began) % 2**32 >="),
    ("a stage's time is kept in 16 bits", "clock - session.began >=", "(clock - session.began) % 2**16 >="),
    ("the lock is over at 299,999 ms", "FAILURE_LASTS = 300_000", "FAILURE_LASTS = 299_999"),
    ("the lock lasts at 300,000 ms", "FAILURE_LASTS = 300_000", "FAILURE_LASTS = 300_001"),
    ("the count never becomes 0 by time", FORGOTTEN, "    failures = device.failures\n"),
    (
        "the count becomes 0 by time only when it is 10",
        FORGOTTEN,
        FORGOTTEN.replace("if forgotten", "if forgotten and device.failures == 10"),
    ),
    ("the count loses one by time", FORGOTTEN, FORGOTTEN.replace("0 if", "max(0, device.failures - 1) if")),
    (
        "the failure's age is kept in 32 bits",
        "clock - device.failed_at >=",
        "(clock - device.failed_at) % 2**32 >=",
    ),
    *(
        (
            f"the wait for a rotation ends {words}",
            STEPPED,
            STEPPED.replace("=failures)", f"=failures, rotation_awaited=device.rotation_awaited and {goes_on})"),
        )
        for words, goes_on in (
            ("when a stage is over", "links == device.links"),
            ("when no link holds a K", "any(links)"),
            ("after 10,000 ms without an event", "clock - device.clock < STAGE_LASTS"),
            ("after 300,000 ms without an event", "clock - device.clock < FAILURE_LASTS"),
        )
    ),
    ("the clock is not stored", "device.copy(clock=clock, ", "device.copy("),
    ("the clock is kept in 32 bits", "device.copy(clock=clock, ", "device.copy(clock=clock % 2**32, "),
)
