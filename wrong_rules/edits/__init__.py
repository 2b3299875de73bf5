"""The wrong rules: in each module those of the file of reference/rules that has its name.

Left out, because no events can tell them from the right rules:
- the clock step drops what is over on the event's link alone: any other K that is over is dropped at its link's next event;
- the clock step looks at the count before the stages: neither depends on the other;
- the failure's moment is kept, or set to 0, when the count becomes 0: it is not read while the count is 0;
- 5 is given from a count of ten on: the count is never above ten;
- 16 comes before 5, or moves the failure's moment: the request that begins a wait sets the count to 0;
- our passkey is kept when a link has left confirming, and the moment of a stage without timer: nothing reads them;
- a use leaves the last key of the list where it is: it stands at the end already;
- the filter is built anew where neither the keys nor the salt have changed: it gets the bytes that it had;
- a length of 0 or 1, or kind 0, is read as a marker record: it is shown as a marker and taken as one in any case;
- a row of the UTF-8 table gets a first byte whose characters are in another row, or are read by an earlier one (`utf8.py`).
"""

from . import (
    account_keys,
    advertising,
    aes,
    clock,
    control,
    device,
    key_based,
    lent_output,
    model,
    name,
    name_packet,
    pairing,
    parts,
    record_layout,
    recording,
    replay,
    stored_list,
    utf8,
)
from .edit import Edit

MODULES = (
    model,
    clock,
    control,
    device,
    key_based,
    pairing,
    account_keys,
    name,
    name_packet,
    utf8,
    stored_list,
    advertising,
    lent_output,
    aes,
    record_layout,
    recording,
    replay,
    parts,
)

# Copies with no wrong rule, which nothing may find; every other file uses one of these two.
UNCHANGED = (
    Edit("device", "no wrong rule", "LINKS = 8", "LINKS = 8"),
    Edit("record_layout", "no wrong rule", "BY_KIND =", "BY_KIND ="),
)


def all_edits():
    """Every wrong rule; the file is the module's name."""
    return [
        Edit(module.__name__.rpartition(".")[2], name, right, wrong)
        for module in MODULES
        for name, right, wrong in module.EDITS
    ]


def of_files(*files):
    """The wrong rules of some files."""
    return [edit for edit in all_edits() if edit.file in files]
