"""Whether the C compiler lays the header's structs out as the bindings do."""

import re
import subprocess
from ctypes import sizeof

from reference.rules.record_layout import LAYOUTS

from .c_compiler import compile_c
from .paths import FOLDER, HEADER
from .setup_error import SetupError
from .structs import BY_NAME

# The answers in the order of the table; their numbers are what the library is compared by.
ANSWERS = (
    "TAKEN UNKNOWN_LINK WRONG_LENGTH PASSKEY_TOO_LARGE CLOCK_WENT_BACK LOCKED_OUT NOT_IN_PAIRING_MODE NO_KEY_FITS"
    " SALT_SPENT LINK_IDLE WRONG_STAGE CAPABILITY_REFUSED BAD_BLOCK OUTPUT_TOO_SHORT LIST_MALFORMED NAME_REFUSED"
    " ROTATION_AWAITED"
).split()
STAGES = "IDLE ASKED PAIRING CONFIRMING PROVED PAIRED".split()
CONFIRM = "UNASKED YES NO".split()
NAMED = "NEITHER BLE PUBLIC".split()
STATUSES = {"PART_READ": 0, "LINE_SHOWN": 1, "NOT_A_REPLAY": 255}
# As docs/RECORDING.md names them, with the kind byte of each.
KINDS = {layout.name.upper().replace("-", "_"): layout.kind for layout in LAYOUTS}
NUMBERS = {
    **{f"FP_{name}": number for number, name in enumerate(ANSWERS)},
    **{f"FP_STAGE_{name}": number for number, name in enumerate(STAGES)},
    **{f"FP_CONFIRM_{name}": number for number, name in enumerate(CONFIRM)},
    **{f"FP_NAMED_{name}": number for number, name in enumerate(NAMED)},
    **{f"FP_{name}": number for name, number in STATUSES.items()},
    **{f"FP_KIND_{name}": number for name, number in KINDS.items()},
    "FP_LINKS": 8,
    "FP_MAX_KEYS": 10,
    "FP_MAX_SALTS": 16,
    "FP_RESPONSE_SIZE": 16,
    "FP_STORED_LIST_MAX": 164,
    "FP_NAME_MAX": 64,
    "FP_PACKET_MAX": 80,
    "FP_ADVERTISEMENT_MAX": 24,
    "FP_FILTER_MAX": 15,
    "FP_RECORD_MAX": 1026,
    "FP_NOT_A_DEVICE": 255,
}


class WrongLayout(SetupError):
    """The bindings and the header disagree."""


def expected():
    """Every size and place as the bindings have it, under the C expression that asks for it."""
    table = dict(NUMBERS)
    for name, struct in BY_NAME.items():
        table[f"sizeof({name})"] = sizeof(struct)
        for field, _ in struct._fields_:
            place = getattr(struct, field)
            table[f"offsetof({name}, {field})"] = place.offset
            table[f"sizeof((({name} *)0)->{field})"] = place.size
    return table


def program(expressions):
    """A C program that prints the number of each expression."""
    lines = [f'    printf("%zu\\n", (size_t)({expression}));' for expression in expressions]
    head = f'#include "{HEADER}"\n#include <stdio.h>\n\nint main(void)\n{{\n'
    return head + "\n".join(lines) + "\n    return 0;\n}\n"


def by_the_compiler(expressions):
    """The numbers that the C compiler gives."""
    source, binary = FOLDER / "layout.c", FOLDER / "layout"
    source.write_text(program(expressions))
    compile_c("-Wall", "-Werror", "-o", binary, source)
    printed = subprocess.run([binary], check=True, capture_output=True, text=True).stdout
    return [int(line) for line in printed.split()]


def names_in_header():
    """The structs that the header has."""
    return set(re.findall(r"^} (fp_\w+);", HEADER.read_text(), re.MULTILINE))


def with_padding():
    """The structs with bytes that belong to no field: what was dropped could stand in them."""
    sizes = {name: [field.size for field in fields(struct)] for name, struct in BY_NAME.items()}
    return [name for name, each in sizes.items() if sum(each) != sizeof(BY_NAME[name])]


def fields(struct):
    return [getattr(struct, field) for field, _ in struct._fields_]


def check_layout():
    """Raise if a struct is missing or has padding, or a size or a place is another one in C."""
    if names_in_header() != set(BY_NAME):
        raise WrongLayout(f"other structs: {names_in_header() ^ set(BY_NAME)}")
    if with_padding():
        raise WrongLayout(f"bytes that belong to no field: {with_padding()}")
    table = expected()
    for (expression, ours), theirs in zip(table.items(), by_the_compiler(table)):
        if ours != theirs:
            raise WrongLayout(f"{expression}: {theirs} in C, {ours} in the bindings")
