"""Stored lists that are malformed, one function for each way."""

from ..rules.stored_list import MOST_IN, pack
from .random_values import account_key, different_keys


def with_header(length, version, keys, count=None):
    """A list whose header says what it is told."""
    count = len(keys) if count is None else count
    return length.to_bytes(2, "big") + bytes([version, count]) + b"".join(keys)


def some_keys(random, least=0, below_most=0):
    """Keys that a list can have, and a version of it."""
    version = random.choice(tuple(MOST_IN))
    return different_keys(random, random.randrange(least, MOST_IN[version] + 1 - below_most)), version


def cut_in_header(random):
    return pack(*some_keys(random))[: random.randrange(4)]


def cut_in_keys(random):
    return pack(*some_keys(random, 1))[: -random.choice((1, 15, 16))]


def wrong_length(random):
    keys, version = some_keys(random)
    right = 2 + 16 * len(keys)
    wrong = random.choice((0, right - 1, right - 2, right + 1, right + 2, right + 16, right << 8))
    return with_header(wrong, version, keys)


def wrong_count(random):
    keys, version = some_keys(random)
    wrong = [n for n in (*range(MOST_IN[version] + 2), 255) if n != len(keys)]
    return with_header(2 + 16 * len(keys), version, keys, random.choice(wrong))


def wrong_count_and_length(random):
    keys, version = some_keys(random)
    wrong = random.choice([n for n in range(MOST_IN[version] + 1) if n != len(keys)])
    return with_header(2 + 16 * wrong, version, keys, wrong)


def wrong_version(random):
    keys, _ = some_keys(random)
    return pack(keys, random.choice((0, 0, 3, 3, 0x81, 0x82, 255)))


def too_many(random):
    version = random.choice(tuple(MOST_IN))
    return pack(different_keys(random, MOST_IN[version] + random.randrange(1, 7)), version)


def no_account_key(random):
    keys, version = some_keys(random, 1)
    place = random.randrange(len(keys))
    keys[place] = bytes([random.choice((0, 3, 5, 0x84, 255))]) + keys[place][1:]
    return pack(keys, version)


def key_twice(random):
    keys, version = some_keys(random, 2)
    first, second = random.sample(range(len(keys)), 2)
    keys[first] = keys[second]
    return pack(keys, version)


def trailing(random):
    return pack(*some_keys(random)) + random.randbytes(random.choice((1, 2, 16)))


def trailing_counted(random):
    keys, version = some_keys(random)
    more = random.choice((1, 2, 15, 16))
    return with_header(2 + 16 * len(keys) + more, version, keys) + random.randbytes(more)


def short_last_key(random):
    """The count says one key more, and the length a part of it."""
    keys, version = some_keys(random, below_most=1)
    part = account_key(random)[: random.choice((1, 2, 15))]
    length = 2 + 16 * len(keys) + len(part)
    return with_header(length, version, keys, len(keys) + 1) + part


# How often each comes; numbers of keys that are too many for one version and not for the other have to come up.
MALFORMED = {
    cut_in_header: 1,
    cut_in_keys: 1,
    wrong_length: 1,
    wrong_count: 1,
    wrong_count_and_length: 1,
    wrong_version: 2,
    too_many: 8,
    no_account_key: 1,
    key_twice: 1,
    trailing: 1,
    trailing_counted: 1,
    short_last_key: 1,
}
