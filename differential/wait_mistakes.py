"""Mistakes put into the named address and the wait for a rotation, to see that the comparison finds them."""

from .result_mistakes import answers, flip, output
from .structs import FpSession

NEITHER, BLE, PUBLIC = range(3)
AWAITED = 16


def names(result, named):
    """The reply with this address, and with the request to rotate that belongs to it."""
    result.reply.named, result.reply.rotate = named, named == BLE


# ---- the address that an accepted request named


def named_lost(arguments, result):
    names(result, NEITHER)


def named_exchanged(arguments, result):
    if result.reply.named:
        names(result, BLE + PUBLIC - result.reply.named)


def named_public_if_equal(arguments, result):
    before = arguments[0]
    if result.reply.named and bytes(before.ble) == bytes(before.identity.public_address):
        names(result, PUBLIC)


def named_with_8(arguments, result):
    if answers(result, 8):
        names(result, PUBLIC)


def named_with_16(arguments, result):
    if answers(result, AWAITED):
        names(result, BLE)


def unknown_address(arguments, result):
    if answers(result, 0):
        result.reply.named = 3


def rotation_not_asked(arguments, result):
    result.reply.rotate = 0


def rotation_asked_for_public(arguments, result):
    if result.reply.named == PUBLIC:
        result.reply.rotate = 1


def rotation_asked_with_2(arguments, result):
    result.reply.rotate *= 2


# ---- a key-based write and the wait


def wait_not_begun(arguments, result):
    if answers(result, 0):
        result.next.rotation_awaited = 0


def wait_begun_by_public(arguments, result):
    if answers(result, 0):
        result.next.rotation_awaited = 1


def wait_begun_by_8(arguments, result):
    if answers(result, 8):
        result.next.rotation_awaited = 1


def awaited_as(answer):
    """16 is told as another answer."""

    def mistake(arguments, result):
        if answers(result, AWAITED):
            result.reply.answer = answer

    mistake.__name__ = f"awaited_as_{answer}"
    return mistake


def six_before_awaited(arguments, result):
    if answers(result, AWAITED) and arguments[4] == 80 and not arguments[0].pairing:
        result.reply.answer = 6


def tried_with_16(arguments, result):
    result.reply.tried += answers(result, AWAITED)


def written_with_16(arguments, result):
    if answers(result, AWAITED):
        flip(output(arguments)[0], 15)


def counted_with_16(arguments, result):
    if answers(result, AWAITED):
        result.next.failures, result.next.failed_at = 1, arguments[2]


def no_clock_with_16(arguments, result):
    if answers(result, AWAITED):
        result.next.clock = arguments[0].clock


def key_dropped_with_16(arguments, result):
    if answers(result, AWAITED):
        result.next.sessions[arguments[1]] = FpSession()


def lifted_with_16(arguments, result):
    if answers(result, AWAITED):
        result.next.rotation_awaited = 0


# ---- other events and the wait


def lifted(arguments, result):
    result.next.rotation_awaited = 0


def lifted_if_refused(arguments, result):
    if not answers(result, 0):
        result.next.rotation_awaited = 0


def begun(arguments, result):
    if not result.next.failures:
        result.next.rotation_awaited = 1


def not_lifted(arguments, result):
    if answers(result, 0):
        result.next.rotation_awaited = arguments[0].rotation_awaited


def not_lifted_by_the_same_address(arguments, result):
    if bytes(result.next.ble) == bytes(arguments[0].ble):
        not_lifted(arguments, result)


# ---- corrupted devices


def unknown_wait_taken(arguments, result):
    if answers(result, 255) and arguments[0].rotation_awaited > 1:
        result.reply.answer = 0


def wait_with_failures_taken(arguments, result):
    if answers(result, 255) and arguments[0].rotation_awaited == 1 and arguments[0].failures:
        result.reply.answer = 0
