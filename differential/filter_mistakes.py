"""Mistakes put into the filter that the library's devices keep, to see that the comparison finds them."""

from ctypes import string_at

from reference.rules.advertising import account_key_filter, filter_size
from reference.rules.device import MOST_KEYS

from .result_mistakes import answers
from .struct_values import keys
from .use_mistakes import is_held


def filter_before(arguments, result):
    """The filter as it was before the event."""
    result.next.filter = arguments[0].filter


def kept_when_taken(arguments, result):
    """A power-on, a rotation or a reset that builds nothing."""
    if answers(result, 0):
        filter_before(arguments, result)


def changed_on_4(arguments, result):
    """A rotation that is refused builds with its salt, though the salt stays."""
    if answers(result, 4):
        put(result.next, account_key_filter(key_bytes(result.next), string_at(arguments[2], 2)))


def kept_with_a_new_key(arguments, result):
    if answers(result, 0) and not is_held(arguments, result) and len(keys(arguments[0])) < MOST_KEYS:
        filter_before(arguments, result)


def kept_on_eviction(arguments, result):
    if answers(result, 0) and not is_held(arguments, result) and len(keys(arguments[0])) == MOST_KEYS:
        filter_before(arguments, result)


def evicted_bits_stay(arguments, result):
    """The new key's bits are added to those that were there."""
    if answers(result, 0) and len(keys(arguments[0])) == MOST_KEYS:
        both = zip(arguments[0].filter, result.next.filter)
        result.next.filter[:] = [old | new for old, new in both]


def emptied_by_mode(arguments, result):
    """In pairing mode no filter is shown."""
    if result.next.pairing:
        put(result.next, b"")


def emptied(arguments, result):
    put(result.next, b"")


def bit_of_order(arguments, result):
    """A use shows in the filter."""
    if answers(result, 0) and keys(arguments[0]) != keys(result.next):
        result.next.filter[0] ^= 1


def behind_filter(arguments, result):
    """An unused byte is not zero."""
    size = filter_size(len(keys(result.next)))
    if size < len(result.next.filter):
        result.next.filter[size] = 1


def mended(arguments, result):
    """A filter that was handed in with other bytes is built anew by an event that has no need to."""
    put(result.next, account_key_filter(key_bytes(result.next), bytes(result.next.salt)))


def key_bytes(device):
    return [bytes(key) for key in keys(device)]


def put(device, data):
    device.filter[:] = list(data.ljust(len(device.filter), b"\0"))
