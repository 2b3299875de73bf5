"""How often the generator does what: its phases, their actions and their clocks."""

# How often each phase comes, and how many events it has.
PHASES = {
    "pairings": 10,
    "uses": 4,
    "failures": 3.5,
    "lockouts": 3.5,
    "salts": 4,
    "timers": 4,
    "mixed": 3,
    "late pairings": 0.7,
    "late failures": 0.5,
}
LENGTHS = {
    "pairings": (20, 80),
    "uses": (40, 80),
    "failures": (20, 45),
    "lockouts": (25, 50),
    "salts": (30, 60),
    "timers": (10, 40),
    "mixed": (10, 30),
    "late pairings": (15, 40),
    "late failures": (20, 40),
}

# What is sent in each phase; the actions are methods of the generator.
ACTIONS = {
    "pairings": {
        "fitting_request": 16, "expected_event": 64, "failing_event": 7, "any_pairing_event": 7,
        "event_after_drop": 2, "nonfitting_request": 3, "replayed_request": 2, "wrong_size_request": 2,
        "name_write": 16, "device_event": 7,
    },
    "uses": {
        "furthest_event": 80, "fitting_request": 12, "replayed_request": 4, "public_key_request": 2, "device_event": 2,
    },
    "failures": {
        "nonfitting_request": 70, "replayed_request": 6, "public_key_request": 4, "fitting_request": 3,
        "expected_event": 6, "name_write": 4, "wrong_size_request": 2, "device_event": 5,
    },
    "lockouts": {"request_before_lockout": 90, "device_event": 4, "expected_event": 4, "name_write": 3},
    "salts": {
        "fitting_request": 46, "replayed_request": 34, "expected_event": 12, "nonfitting_request": 3,
        "name_write": 3, "device_event": 3,
    },
    "timers": {
        "fitting_request": 20, "expected_event": 70, "failing_event": 3, "event_after_drop": 3,
        "name_write": 20, "device_event": 5,
    },
    "mixed": {
        "fitting_request": 15, "expected_event": 15, "failing_event": 15, "any_pairing_event": 20,
        "event_after_drop": 10, "nonfitting_request": 10, "replayed_request": 10,
        "public_key_request": 5, "wrong_size_request": 5, "name_write": 15, "device_event": 25,
    },
    "late pairings": {
        "fitting_request": 25, "expected_event": 50, "nonfitting_request": 4, "failing_event": 2,
        "name_write": 5, "device_event": 6,
    },
    "late failures": {
        "nonfitting_request": 80, "expected_event": 8, "fitting_request": 2, "device_event": 2,
    },
}

# How the clock moves in each phase; the ways are those of clocks.py.
STEADY = {"small step": 985, "earlier": 8, "stage limit": 5}
CLOCKS = {
    "pairings": {"small step": 950, "stage limit": 20, "earlier": 8, "far ahead": 3},
    "uses": STEADY,
    "failures": {"small step": 850, "failure limit": 70, "earlier": 8},
    "lockouts": {"small step": 980, "earlier": 16, "stage limit": 5},
    "salts": STEADY,
    "timers": {"small step": 600, "stage limit": 380, "earlier": 10, "far ahead": 15},
    "mixed": {
        "small step": 800, "stage limit": 50, "failure limit": 30, "earlier": 40, "far ahead": 20,
        "integer width": 10,
    },
    "late pairings": {"small step": 650, "stage limit": 150, "earlier": 10, "last clocks": 150},
    "late failures": {"small step": 800, "failure limit": 60, "earlier": 10, "last clocks": 80},
}

# Events of the whole device; those that drop every K are rare.
DEVICE_EVENTS = {
    "link up": 8, "link down": 8, "mode on": 10, "mode off": 7, "rotation": 13, "overflow": 13,
    "reset": 3, "power-on": 10, "malformed list": 24, "bad name": 6, "refused rotation": 0.5, "refused reset": 1,
}

# What is sent while a rotation is awaited: most often the phase goes on, and the rotation comes soon.
DURING_WAIT = {
    "by_phase": 50, "device_event_during_wait": 32, "furthest_event": 8, "fitting_request": 3, "replayed_request": 3,
    "nonfitting_request": 2, "public_key_request": 2,
}
DEVICE_EVENTS_DURING_WAIT = {
    "rotation": 25, "refused rotation": 1, "refused reset": 0.6, "overflow": 1, "link up": 1.5, "link down": 1.5,
    "mode on": 1.5, "mode off": 0.8, "reset": 0.3, "power-on": 0.4, "malformed list": 1, "bad name": 0.4,
}

# Chances of one event, whatever the phase.
POWER_ON_WHEN_LATE = 0.04
EXPECTED_EVENT_AFTER_DROP = 0.25
EARLIER_CLOCK_AGAIN = 0.25
RESET_WHEN_LOCKED = 0.015
POWER_ON_WHEN_LOCKED = 0.01
WRONG_LINK = 0.008
SEVERAL_FAULTS = 0.02
SAME_SALT = 0.1
SAME_ADDRESS = 0.1
# The public address is named more often: behind a request that named the BLE address the others wait for a rotation.
BLE_NAMED = 0.25
# The address that power-on or a rotation brings is the public one.
EQUAL_ADDRESSES = 0.05
