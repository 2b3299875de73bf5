"""The structs of include/fastpair.h, field by field."""

from ctypes import Structure, c_uint8, c_uint32, c_uint64

LINKS = 8
MOST_SALTS = 16
STORED_LIST_MAX = 164
NAME_MAX = 64
FILTER_MAX = 15
RECORD_MAX = 1_026


class FpAddress(Structure):
    _fields_ = [("bytes", c_uint8 * 6)]


class FpSalt(Structure):
    _fields_ = [("length", c_uint8), ("bytes", c_uint8 * 8)]


class FpSpentSalts(Structure):
    _fields_ = [("salts", FpSalt * MOST_SALTS), ("count", c_uint64)]


class FpSession(Structure):
    _fields_ = [
        ("since", c_uint64),
        ("passkey", c_uint32),
        ("stage", c_uint8),
        ("key", c_uint8 * 16),
        ("reserved", c_uint8 * 3),
    ]


class FpStored(Structure):
    _fields_ = [
        ("length", c_uint64),
        ("bytes", c_uint8 * STORED_LIST_MAX),
        ("reserved", c_uint8 * 4),
    ]


class FpName(Structure):
    _fields_ = [("length", c_uint64), ("bytes", c_uint8 * NAME_MAX)]


class FpIdentity(Structure):
    _fields_ = [("public_address", FpAddress), ("model", c_uint8 * 3)]


class FpDevice(Structure):
    _fields_ = [
        ("clock", c_uint64),
        ("sessions", FpSession * LINKS),
        ("spent", FpSpentSalts),
        ("failed_at", c_uint64),
        ("stored", FpStored),
        ("name", FpName),
        ("identity", FpIdentity),
        ("ble", FpAddress),
        ("salt", c_uint8 * 2),
        ("filter", c_uint8 * FILTER_MAX),
        ("pairing", c_uint8),
        ("failures", c_uint8),
        ("rotation_awaited", c_uint8),
        ("reserved", c_uint8 * 5),
    ]


class FpStart(Structure):
    _fields_ = [("identity", FpIdentity), ("ble", FpAddress), ("salt", c_uint8 * 2)]


class FpBond(Structure):
    # A number and not a truth value, so that a 2 in this byte would be seen.
    _fields_ = [("wanted", c_uint8), ("address", FpAddress)]


class FpReply(Structure):
    _fields_ = [
        ("answer", c_uint8),
        ("tried", c_uint8),
        ("confirm", c_uint8),
        ("packet_length", c_uint8),
        ("named", c_uint8),
        # A number for the same reason.
        ("rotate", c_uint8),
        ("bond", FpBond),
    ]


class FpOutcome(Structure):
    _fields_ = [("next", FpDevice), ("reply", FpReply), ("reserved", c_uint8 * 3)]


class FpReport(Structure):
    _fields_ = [("length", c_uint64), ("answer", c_uint8), ("reserved", c_uint8 * 7)]


class FpElement(Structure):
    _fields_ = [("accepted", c_uint8), ("secret", c_uint8 * 32)]


class FpReplay(Structure):
    _fields_ = [
        ("device", FpDevice),
        ("number", c_uint64),
        ("held", c_uint64),
        ("skip", c_uint64),
        ("unfinished", c_uint8 * RECORD_MAX),
        ("started", c_uint8),
        ("reserved", c_uint8 * 5),
    ]


class FpLine(Structure):
    _fields_ = [
        ("number", c_uint64),
        ("keys", c_uint64),
        ("kind", c_uint8),
        ("answer", c_uint8),
        ("reserved", c_uint8 * 6),
    ]


class FpFed(Structure):
    _fields_ = [
        ("next", FpReplay),
        ("line", FpLine),
        ("at", c_uint64),
        ("status", c_uint8),
        ("reserved", c_uint8 * 7),
    ]


# Each struct under its name in the header.
BY_NAME = {
    "fp_address": FpAddress,
    "fp_salt": FpSalt,
    "fp_spent_salts": FpSpentSalts,
    "fp_session": FpSession,
    "fp_stored": FpStored,
    "fp_name": FpName,
    "fp_identity": FpIdentity,
    "fp_device": FpDevice,
    "fp_start": FpStart,
    "fp_bond": FpBond,
    "fp_reply": FpReply,
    "fp_outcome": FpOutcome,
    "fp_report": FpReport,
    "fp_element": FpElement,
    "fp_replay": FpReplay,
    "fp_line": FpLine,
    "fp_fed": FpFed,
}
