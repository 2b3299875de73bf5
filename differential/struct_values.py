"""The values of an fp_device, an fp_replay and an fp_fed, field by field."""

import struct
from ctypes import Array, Structure, c_uint8, c_uint32, c_uint64, sizeof

from .structs import FpDevice, FpFed, FpReplay

# A stored list: a header of 4 bytes, and 16 for each key.
KEYS_FROM, KEY = 4, 16
CODES = {c_uint8: "B", c_uint32: "I", c_uint64: "Q"}


def places(kind, offset=0, name=""):
    """Each number and each array of bytes in a struct: its name, its place and its code."""
    if issubclass(kind, Structure):
        for field, inner in kind._fields_:
            place = getattr(kind, field).offset
            yield from places(inner, offset + place, f"{name}.{field}" if name else field)
    elif not issubclass(kind, Array):
        yield name, offset, CODES[kind]
    elif kind._type_ is c_uint8:
        yield name, offset, f"{kind._length_}s"
    else:
        for i in range(kind._length_):
            yield from places(kind._type_, offset + i * sizeof(kind._type_), f"{name}[{i}]")


def packing(kind):
    """The format that reads the struct, whatever stands between its fields."""
    codes, at = "=", 0
    for _, offset, code in places(kind):
        codes += f"{offset - at}x{code}"
        at = offset + struct.calcsize("=" + code)
    return struct.Struct(f"{codes}{sizeof(kind) - at}x")


def names(kind):
    return tuple(name for name, _, _ in places(kind))


NAMES = names(FpDevice)
PACKING = packing(FpDevice)
FED_NAMES = names(FpFed)
FED_PACKING = packing(FpFed)
REPLAY_PACKING = packing(FpReplay)


def values(device):
    """The values of an fp_device, in the order of NAMES."""
    return PACKING.unpack_from(device)


def keys(device):
    """The account keys of an fp_device, each as a list of its bytes."""
    stored = device.stored
    return [stored.bytes[place : place + KEY] for place in range(KEYS_FROM, stored.length, KEY)]


def replay_values(replay):
    """The values of an fp_replay; their names are the first of FED_NAMES."""
    return REPLAY_PACKING.unpack_from(replay)


def fed_values(fed):
    """The values of an fp_fed, in the order of FED_NAMES."""
    return FED_PACKING.unpack_from(fed)


def differing(ours, theirs, names=NAMES):
    """The places whose values differ, by name: those of the one, and those of the other."""
    rows = [row for row in zip(names, ours, theirs) if row[1] != row[2]]
    return {name: a for name, a, _ in rows}, {name: b for name, _, b in rows}
