"""Mistakes put into the versions of stored lists and the most keys of a list, to see that the comparison finds them."""

from ctypes import c_uint8, string_at

from reference.older_stored_list import MOST_KEYS as OLDER_MOST
from reference.rules.device import MOST_KEYS
from reference.rules.stored_list import pack

from .result_mistakes import answers
from .struct_values import KEYS_FROM, keys
from .use_mistakes import is_held


def handed_in(arguments):
    """Version and count of the list that power-on was given; nothing of one that has none."""
    return tuple(string_at(arguments[1], arguments[2])[2:KEYS_FROM])


def older_refused(arguments, result):
    """A full list of version 1 gets 14."""
    if answers(result, 0) and handed_in(arguments) == (1, OLDER_MOST):
        result.reply.answer, result.next = 14, arguments[0]


def older_with_six_taken(arguments, result):
    if answers(result, 14) and handed_in(arguments) == (1, OLDER_MOST + 1):
        result.reply.answer = 0


def eleven_taken(arguments, result):
    if answers(result, 14) and handed_in(arguments) == (2, MOST_KEYS + 1):
        result.reply.answer = 0


def full_list_refused(arguments, result):
    if answers(result, 0) and handed_in(arguments) == (2, MOST_KEYS):
        result.reply.answer, result.next = 14, arguments[0]


def older_stays_older(arguments, result):
    """A list of version 1 is kept as it was read."""
    if answers(result, 0):
        result.next.stored.bytes[2] = handed_in(arguments)[0]


def evicts_at(most):
    """A new key removes the first of so many."""

    def mistake(arguments, result):
        held = keys(arguments[0])
        if answers(result, 0) and len(held) == most and not is_held(arguments, result):
            text = pack([bytes(key) for key in keys(result.next)[1:]])
            result.next.stored.length = len(text)
            result.next.stored.bytes[:] = list(text.ljust(len(result.next.stored.bytes), b"\0"))

    mistake.__name__ = f"evicts_at_{most}"
    return mistake


def short_list_written_as_older(arguments, report):
    """A list that has room in version 1 is written so."""
    if report.answer == 0 and report.length <= KEYS_FROM + 16 * OLDER_MOST:
        c_uint8.from_address(arguments[-2] + 2).value = 1


def older_device_refused(arguments, result):
    """A device whose list is of version 1 gets 255."""
    if arguments[0].stored.bytes[2] == 1:
        result.reply.answer, result.next = 255, arguments[0]


def older_device_kept(arguments, result):
    """It comes back with that version."""
    if arguments[0].stored.bytes[2] == 1:
        result.next.stored.bytes[2] = 1
