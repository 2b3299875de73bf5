"""Mistakes put into the library's results, to see that the comparison finds them."""

from ctypes import c_uint8

from .library import Library
from .structs import FpName, FpSession


def with_mistakes(library, changes):
    """The library with some functions whose results are changed after each call."""
    functions = dict(library.functions)
    for name, change in changes.items():
        functions[name] = changed(library.functions[name], change)
    return Library(functions)


def changed(function, change):
    def call(*arguments):
        result = function(*arguments)
        change(arguments, result)
        return result

    return call


def flip(address, place):
    """Change the lowest bit of a byte in lent memory."""
    c_uint8.from_address(address + place).value ^= 1


def output(arguments):
    """The address and the length of the response's output; in a key-based write the packet's stands behind it."""
    return arguments[8:10] if len(arguments) == 12 else arguments[-2:]


def second_output(arguments):
    return arguments[10:12]


def answers(result, answer):
    return result.reply.answer == answer


def another_answer(arguments, result):
    if answers(result, 8):
        result.reply.answer = 7


def one_more_tried(arguments, result):
    result.reply.tried += answers(result, 7)


def bond_withheld(arguments, result):
    result.reply.bond.wanted = 0
    result.reply.bond.address.bytes[:] = [0] * 6


def bond_not_zero(arguments, result):
    if answers(result, 0):
        result.reply.bond.wanted = 0
        result.reply.bond.address.bytes[0] = 1


def confirm_inverted(arguments, result):
    if result.reply.confirm:
        result.reply.confirm ^= 3


def response_byte(arguments, result):
    if answers(result, 0):
        flip(output(arguments)[0], 15)


def behind_response(arguments, result):
    address, length = output(arguments)
    if answers(result, 0) and length > 16:
        flip(address, 16)


def behind_output(arguments, result):
    if answers(result, 0):
        flip(*output(arguments))


def before_output(arguments, result):
    if answers(result, 0):
        flip(output(arguments)[0], -1)


def tag_byte(arguments, result):
    if result.reply.packet_length:
        flip(second_output(arguments)[0], 0)


def packet_byte(arguments, result):
    """The last byte that the packet has."""
    if result.reply.packet_length > 16:
        flip(second_output(arguments)[0], result.reply.packet_length - 1)


def behind_packet(arguments, result):
    address, length = second_output(arguments)
    if 0 < result.reply.packet_length < length:
        flip(address, result.reply.packet_length)


def packet_unasked(arguments, result):
    if answers(result, 0) and not result.reply.packet_length:
        flip(second_output(arguments)[0], 0)


def packet_on_refusal(arguments, result):
    if answers(result, 8):
        flip(second_output(arguments)[0], 0)


def behind_second_output(arguments, result):
    if answers(result, 0):
        flip(*second_output(arguments))


def packet_length_more(arguments, result):
    result.reply.packet_length += result.reply.packet_length > 0


def packet_length_unasked(arguments, result):
    if answers(result, 0) and not result.reply.packet_length:
        result.reply.packet_length = 16


def packet_length_on_refusal(arguments, result):
    if answers(result, 7):
        result.reply.packet_length = 16


def nonce_written(arguments, result):
    flip(arguments[7], 0)


def written_on_refusal(arguments, result):
    if answers(result, 12):
        flip(arguments[-2], 0)


def written_on_9(arguments, result):
    if answers(result, 9):
        flip(arguments[-2], 0)


def input_written(arguments, result):
    if arguments[4] == 16:
        flip(arguments[3], 7)


def name_answer(arguments, result):
    if answers(result, 15):
        result.reply.answer = 12


def name_not_taken(arguments, result):
    if answers(result, 0):
        result.next.name = arguments[0].name


def name_taken_with_15(arguments, result):
    """As if it had been read: the ciphertext's length, and zeros."""
    if answers(result, 15):
        result.next.name.length = arguments[4] - 16
        result.next.name.bytes[:] = [0] * 64


def name_cut(arguments, result):
    """The length is right, and the last byte is lost."""
    if answers(result, 0) and result.next.name.length:
        result.next.name.bytes[result.next.name.length - 1] = 0


def behind_name(arguments, result):
    name = result.next.name
    if answers(result, 0) and name.length < 64:
        name.bytes[name.length] = 1


def key_dropped_on_15(arguments, result):
    if answers(result, 15):
        result.next.sessions[arguments[1]] = FpSession()


def moment_moved(arguments, result):
    if answers(result, 0):
        result.next.sessions[arguments[1]].since = arguments[2]


def name_kept(arguments, result):
    if answers(result, 0):
        result.next.name = arguments[0].name


def name_input_written(arguments, result):
    if arguments[4]:
        flip(arguments[3], 0)


def next_stored(arguments, result):
    if answers(result, 0):
        result.next.stored.bytes[19] ^= 1


def stored_list_byte(arguments, report):
    if report.length > 4:
        flip(arguments[-2], report.length - 1)


def stored_list_length(arguments, report):
    report.length += report.answer == 0


def short_list_written(arguments, report):
    if report.answer == 13 and arguments[-1]:
        flip(arguments[-2], 0)


def filter_bit(arguments, report):
    if report.length > 9:
        flip(arguments[-2], 6)


def prompt_shown(arguments, report):
    if report.length > 9 and arguments[1] == 255:
        c_uint8.from_address(arguments[-2] + 5).value &= 0xF0


def key_byte_kept(arguments, result):
    if answers(result, 0):
        result.next.sessions[arguments[1]].key[15] = 1


def marker_ignored(arguments, result):
    result.next = arguments[0]


def marker_keeps_link_7(arguments, result):
    result.next.sessions[7] = arguments[0].sessions[7]


def marker_clears_salts(arguments, result):
    spent = result.next.spent
    spent.count = 0


def marker_clears_count(arguments, result):
    result.next.failures = 0


def marker_empties_name(arguments, result):
    result.next.name = FpName()


def name_taken_on_idle(arguments, result):
    if answers(result, 9):
        result.reply.answer = 0


def name_changed_on_9(arguments, result):
    """The clock becomes the name, in digits."""
    if answers(result, 9):
        digits = str(result.next.clock).encode()
        result.next.name = FpName(len(digits), (c_uint8 * 64)(*digits))


def marker_empties_list(arguments, result):
    result.next.stored.length = 4
    result.next.stored.bytes[:4] = [0, 2, 1, 0]


def stores_a_key(arguments, result):
    """The last key of the list becomes one that was not there: it has the clock in it."""
    stored = result.next.stored
    if stored.length > 4:
        stored.bytes[stored.length - 8 : stored.length] = list(result.next.clock.to_bytes(8, "big"))


def salts_kept(arguments, result):
    if answers(result, 0):
        result.next.spent = arguments[0].spent


def no_device_taken(arguments, result):
    if answers(result, 255):
        result.reply.answer = 0


def no_device_changed(arguments, result):
    if answers(result, 255):
        result.next.clock ^= 1


def unused_key_kept(arguments, result):
    for before, after in zip(arguments[0].sessions, result.next.sessions):
        if not before.stage:
            after.key = before.key


def unused_name_bytes_kept(arguments, result):
    length = result.next.name.length
    if length == arguments[0].name.length:
        result.next.name.bytes[length:] = arguments[0].name.bytes[length:]
