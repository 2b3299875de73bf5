"""Every function of include/fastpair.h with the types of its arguments."""

import re
from ctypes import CDLL, c_size_t, c_uint8, c_uint32, c_uint64, c_void_p

from .layout import WrongLayout
from .paths import HEADER
from .structs import FpAddress, FpDevice, FpElement, FpFed, FpOutcome, FpReplay, FpReport, FpStart

LINK, CLOCK, NUMBER = c_uint8, c_uint64, c_uint8
FIXED = (c_void_p,)
SLICE = (c_void_p, c_size_t)

# The arguments behind the device, and what is given back.
EVENTS = {
    "fp_power_on": (*SLICE, *SLICE, FpStart),
    "fp_overflow": (),
    "fp_pairing_mode": (NUMBER, CLOCK),
    "fp_address_rotated": (FpAddress, *FIXED, CLOCK),
    "fp_factory_reset": (CLOCK,),
    "fp_link_up": (LINK, CLOCK),
    "fp_link_down": (LINK, CLOCK),
    "fp_key_based_write": (LINK, CLOCK, *SLICE, FpElement, *FIXED, *FIXED, *SLICE, *SLICE),
    "fp_pairing_started": (LINK, CLOCK, NUMBER),
    "fp_confirmation_needed": (LINK, CLOCK, c_uint32),
    "fp_passkey_write": (LINK, CLOCK, *SLICE, *FIXED, *SLICE),
    "fp_pairing_ended": (LINK, CLOCK, NUMBER),
    "fp_account_key_write": (LINK, CLOCK, *SLICE),
    "fp_name_write": (LINK, CLOCK, *SLICE),
}
QUESTIONS = {
    "fp_advertisement": (NUMBER, *SLICE),
    "fp_stored_list": SLICE,
}
# A writer of records has its event's arguments, but of lent outputs the lengths alone; then the record's output.
WRITERS = {
    **EVENTS,
    "fp_key_based_write": (LINK, CLOCK, *SLICE, FpElement, *FIXED, *FIXED, c_size_t, c_size_t),
    "fp_passkey_write": (LINK, CLOCK, *SLICE, *FIXED, c_size_t),
}
# All arguments of a replay's functions, and what they give back.
REPLAYS = {
    "fp_replay_start": ((), FpReplay),
    "fp_replay_feed": ((FpReplay, *SLICE, c_size_t), FpFed),
    "fp_replay_end": ((FpReplay,), FpFed),
}


def writer(event):
    """The name of the writer of records that belongs to an event's function."""
    return event.replace("fp_", "fp_record_", 1)


def functions_in_header():
    """The functions that the header declares."""
    return set(re.findall(r"^fp_\w+ (fp_\w+)\(", HEADER.read_text(), re.MULTILINE))


def bind(path):
    """The functions of the shared object, by name."""
    if functions_in_header() != {"fp_off", *EVENTS, *QUESTIONS, *map(writer, WRITERS), *REPLAYS}:
        raise WrongLayout(f"other functions: {sorted(functions_in_header())}")
    shared = CDLL(str(path))
    bound = {"fp_off": typed(shared.fp_off, (), FpDevice)}
    for name, arguments in EVENTS.items():
        bound[name] = typed(getattr(shared, name), (FpDevice, *arguments), FpOutcome)
    for name, arguments in QUESTIONS.items():
        bound[name] = typed(getattr(shared, name), (FpDevice, *arguments), FpReport)
    for name, arguments in WRITERS.items():
        bound[writer(name)] = typed(getattr(shared, writer(name)), (*arguments, *SLICE), FpReport)
    for name, (arguments, result) in REPLAYS.items():
        bound[name] = typed(getattr(shared, name), arguments, result)
    return bound


def typed(function, arguments, result):
    function.argtypes = arguments
    function.restype = result
    return function
