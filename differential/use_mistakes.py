"""Mistakes put into the order of the library's key list, to see that the comparison finds them."""

from reference.rules.device import MOST_KEYS

from .result_mistakes import answers
from .run_pair import HELD_KEY, parts
from .struct_values import KEYS_FROM, keys


def put_keys(device, listed):
    """The same number of keys in another order, or with others among them."""
    stored = device.stored
    stored.bytes[KEYS_FROM : stored.length] = [byte for key in listed for byte in key]


def move_to_end(device, place):
    listed = keys(device)
    put_keys(device, listed[:place] + listed[place + 1 :] + listed[place : place + 1])


def accepted_16_bytes(arguments, result):
    return answers(result, 0) and arguments[4] == 16


def other_links_busy(arguments, result):
    """How many links but the event's hold a K."""
    link = arguments[1]
    return sum(session.stage > 0 for place, session in enumerate(result.next.sessions) if place != link)


def stored_before(arguments, result):
    """The list as it was before the event."""
    result.next.stored = arguments[0].stored


# ---- a key-based write


def request_uses_no_key(arguments, result):
    if answers(result, 0):
        stored_before(arguments, result)


def request_moves_to_front(arguments, result):
    if accepted_16_bytes(arguments, result):
        listed = keys(result.next)
        put_keys(result.next, listed[-1:] + listed[:-1])


def request_swaps_with_last(arguments, result):
    if accepted_16_bytes(arguments, result):
        place, listed = result.reply.tried - 1, keys(arguments[0])
        listed[place], listed[-1] = listed[-1], listed[place]
        put_keys(result.next, listed)


def place_after_the_move(arguments, result):
    if accepted_16_bytes(arguments, result):
        result.reply.tried = len(keys(result.next))


def used_with_8(arguments, result):
    if answers(result, 8) and arguments[4] == 16:
        move_to_end(result.next, result.reply.tried - 1)


def used_with_7(arguments, result):
    if answers(result, 7):
        move_to_end(result.next, 0)


def used_by_80_bytes(arguments, result):
    """K is moved if it equals a held key."""
    key, listed = result.next.sessions[arguments[1] % 8].key[:], keys(result.next)
    if answers(result, 0) and arguments[4] == 80 and key in listed:
        move_to_end(result.next, listed.index(key))


def request_uses_no_key_beside_others(arguments, result):
    if answers(result, 0) and other_links_busy(arguments, result):
        stored_before(arguments, result)


# ---- an account key write


def is_held(arguments, result):
    """Whether the key that was taken had been in the list: none is new."""
    return answers(result, 0) and sorted(keys(arguments[0])) == sorted(keys(result.next))


def held_key_not_used(arguments, result):
    if is_held(arguments, result):
        stored_before(arguments, result)


def held_key_placed_by_links(arguments, result):
    """So many places before the end as other links hold a K: markers change their number, though both runs take the write."""
    if is_held(arguments, result):
        *others, key = keys(result.next)
        place = max(0, len(others) - other_links_busy(arguments, result))
        put_keys(result.next, [*others[:place], key, *others[place:]])


def last_evicted(arguments, result):
    """The first key is kept, and the last one is removed."""
    before = keys(arguments[0])
    if answers(result, 0) and len(before) == MOST_KEYS and not is_held(arguments, result):
        put_keys(result.next, before[:-1] + keys(result.next)[-1:])


def used_with_12(arguments, result):
    if answers(result, 12):
        move_to_end(result.next, 0)


def used_with_9(arguments, result):
    if answers(result, 9):
        move_to_end(result.next, 0)


# ---- events that use no key


def list_reversed(arguments, result):
    if answers(result, 0):
        put_keys(result.next, keys(result.next)[::-1])


def first_key_used(arguments, result):
    move_to_end(result.next, 0)


# ---- two runs that part at a wrong place


def parts_by_no_held_key(what, second):
    """They go on past a held key's write that only the first takes."""
    return what != HELD_KEY and parts(what, second)


def parts_by_every_write(what, second):
    """They stop at a write that both take."""
    return what is not None
