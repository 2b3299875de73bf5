"""Mistakes put into the records that the library writes, to see that the comparison finds them."""

from ctypes import c_uint8, memmove

from .result_mistakes import flip

# The lengths of a block with which an account key write has a record of this length after its length field.
HEAD = 11
LIMIT = 1_024
# Where a key-based write's record has its secret, counted from the end.
SECRET = 65


def output(arguments):
    """The address and the length of the record's output."""
    return arguments[-2:]


def block_length(arguments):
    return arguments[3]


def last_byte(arguments, result):
    if result.answer == 0:
        flip(output(arguments)[0], result.length - 1)


def kind_byte(arguments, result):
    if result.answer == 0:
        flip(output(arguments)[0], 3)


def length_little_endian(arguments, result):
    if result.answer == 0:
        field = (c_uint8 * 2).from_address(output(arguments)[0])
        field[0], field[1] = field[1], field[0]


def behind_record(arguments, result):
    address, room = output(arguments)
    if result.answer == 0 and room > result.length:
        flip(address, result.length)


def behind_output(arguments, result):
    address, room = output(arguments)
    if room:
        flip(address, room)


def written_on_13(arguments, result):
    address, room = output(arguments)
    if result.answer == 13 and room:
        flip(address, room - 1)


def written_on_2(arguments, result):
    address, room = output(arguments)
    if result.answer == 2 and room:
        flip(address, 0)


def length_without_its_field(arguments, result):
    if result.answer == 0:
        result.length -= 2


def length_on_refusal(arguments, result):
    if result.answer:
        result.length = 1


def thirteen_first(arguments, result):
    if result.answer == 2 and output(arguments)[1] < LIMIT + 2:
        result.answer = 13


def too_short_is_taken(arguments, result):
    if result.answer == 13 and output(arguments)[1]:
        result.answer = 0


def limit_1023(arguments, result):
    if HEAD + block_length(arguments) == LIMIT:
        result.answer, result.length = 2, 0


def limit_1025(arguments, result):
    if HEAD + block_length(arguments) == LIMIT + 1 and output(arguments)[1] > LIMIT + 2:
        result.answer, result.length = 0, LIMIT + 3


def length_in_two_bytes(arguments, result):
    """A length above 65,535 is taken for what two bytes hold of it."""
    length = HEAD + block_length(arguments)
    if length > 65_535 and length % 65_536 <= LIMIT < output(arguments)[1]:
        result.answer, result.length = 0, length % 65_536 + 2


def flag_as_it_came(arguments, result):
    if result.answer == 0:
        c_uint8.from_address(output(arguments)[0] + result.length - 1).value = arguments[0]


def secret_of_a_rejected_point(arguments, result):
    element = arguments[4]
    if result.answer == 0 and not element.accepted:
        memmove(output(arguments)[0] + result.length - SECRET, element.secret, 32)


def lengths_exchanged(arguments, result):
    if result.answer == 0:
        end = output(arguments)[0] + result.length
        first, second = (bytes((c_uint8 * 8).from_address(end - behind)) for behind in (16, 8))
        memmove(end - 16, second + first, 16)


def length_in_four_bytes(arguments, result):
    if result.answer == 0:
        memmove(output(arguments)[0] + result.length - 8, bytes(4), 4)


def input_written(arguments, result):
    if block_length(arguments):
        flip(arguments[2], 0)


def reserved_not_zero(arguments, result):
    result.reserved[6] = 1
