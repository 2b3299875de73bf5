"""Situations of the wait for a rotation by name, counted: a run has to reach each of them."""

from ..rules.clock import FAILURE_LASTS, STAGE_LASTS
from ..rules.events import (
    AccountKeyWrite,
    AddressRotated,
    FactoryReset,
    KeyBasedWrite,
    LinkDown,
    LinkUp,
    Named,
    NameWrite,
    Overflow,
    PairingMode,
    PowerOn,
)
from ..rules.model import step

AWAITED = 16
# What a request gets that is not refused before the wait is looked at.
LOOKED_AT = (0, 6, 7, 8)
# What a request is that gets 16, by its size, and by the answer and the address that it would get without the wait.
WITHOUT_WAIT = {
    (16, 0, Named.BLE): "16 bytes that name the BLE address",
    (16, 0, Named.PUBLIC): "16 bytes that name the public address",
    (16, 7, None): "16 bytes that no key fits",
    (16, 8, None): "16 bytes with a remembered salt",
    (80, 0, Named.BLE): "80 bytes that name the BLE address",
    (80, 0, Named.PUBLIC): "80 bytes that name the public address",
    (80, 6, None): "80 bytes with pairing mode off",
    (80, 7, None): "80 bytes that no key fits",
    (80, 8, None): "80 bytes with a remembered salt",
}
# What does not lift the wait, by the kind of event and its answer.
NOT_LIFTING = {
    (Overflow, 0): "a marker",
    (LinkUp, 0): "link up on its link",
    (LinkDown, 0): "link down on its link",
    (PairingMode, 0): "a pairing mode event",
    (AddressRotated, 4): "a refused rotation",
    (FactoryReset, 4): "a refused reset",
    (PowerOn, 14): "a refused power-on",
    (AccountKeyWrite, 0): "an account key write on its link",
    (NameWrite, 0): "a name write on its link",
}
TIMES = (STAGE_LASTS, FAILURE_LASTS)
ANOTHER, SAME = "a rotation to another address", "a rotation to the same address"
LIFTING = {PowerOn: "power-on", FactoryReset: "a reset"}
NAMES = (
    *(f"{size} bytes accepted, {named.value} address named" for size in (16, 80) for named in Named),
    *(f"accepted with both addresses equal since {since}" for since in ("power-on", "a rotation")),
    *(f"accepted after failures, {named.value} address named" for named in Named),
    *(f"16 for {what}" for what in WITHOUT_WAIT.values()),
    "16 for 80 bytes with a rejected point",
    *(f"16 on {which} link" for which in ("the same", "another")),
    *(f"16 after {what}" for what in NOT_LIFTING.values()),
    *(f"16 after {time:,} ms" for time in TIMES),
    *(f"{answer} for a request during the wait" for answer in (1, 2, 4, 13)),
    *(f"accepted after {what}" for what in (ANOTHER, SAME, *LIFTING.values())),
    *(f"{answer} for the first request after a wait" for answer in (6, 7, 8)),
    "tried after 8 for the BLE address",
)


class Waits:
    """Follows the request that began a wait, what came since, and what ended the last wait."""

    def __init__(self):
        self.counts = dict.fromkeys(NAMES, 0)
        self.forget()

    def forget(self):
        """Another run begins."""
        self.addresses_since = None
        self.begun_by = None
        self.came_since = set()
        self.lifted_by = None
        self.after_8 = False

    def note(self, before, event, after, reply):
        """One step of the run."""
        if before is None:
            self.forget()
        elif isinstance(event, KeyBasedWrite):
            self.request(before, event, reply)
        elif before.rotation_awaited:
            self.during_wait(before, event, after, reply)
        if isinstance(event, (PowerOn, AddressRotated, FactoryReset)) and reply.answer == 0:
            self.after_8 = False
        if isinstance(event, (PowerOn, AddressRotated)) and reply.answer == 0:
            self.addresses_since = "power-on" if isinstance(event, PowerOn) else "a rotation"

    def met(self, name, truth=True):
        self.counts[name] += bool(truth)

    def request(self, before, event, reply):
        if reply.answer == AWAITED:
            self.awaited(before, event)
        elif before.rotation_awaited:
            self.met(f"{reply.answer} for a request during the wait")
        elif reply.answer in LOOKED_AT:
            self.looked_at(before, event, reply)

    def awaited(self, before, event):
        """A request that gets 16."""
        _, otherwise = step(before.copy(rotation_awaited=False), event)
        size = len(event.data)
        self.met(f"16 for {WITHOUT_WAIT[size, otherwise.answer, otherwise.named]}")
        self.met("16 for 80 bytes with a rejected point", size == 80 and not event.accepted and before.pairing_mode)
        self.met("16 on the same link" if event.link == self.begun_by.link else "16 on another link")
        for what in self.came_since:
            self.met(f"16 after {what}")
        for time in TIMES:
            self.met(f"16 after {time:,} ms", event.clock - self.begun_by.clock >= time)

    def looked_at(self, before, event, reply):
        """A request while nothing is awaited."""
        self.met("tried after 8 for the BLE address", self.after_8 and reply.answer != 6)
        if self.lifted_by and reply.answer != 0:
            self.met(f"{reply.answer} for the first request after a wait")
        if reply.answer == 0:
            self.accepted(before, event, reply)
        # Without remembered salts it is accepted, and tells what it names.
        self.after_8 = reply.answer == 8 and step(before.copy(spent=()), event)[1].named is Named.BLE
        self.lifted_by = None

    def accepted(self, before, event, reply):
        named = f"{reply.named.value} address named"
        self.met(f"{len(event.data)} bytes accepted, {named}")
        counted = before.failures and event.clock - before.failed_at < FAILURE_LASTS
        self.met(f"accepted after failures, {named}", counted)
        if before.ble == before.public:
            self.met(f"accepted with both addresses equal since {self.addresses_since}")
        if self.lifted_by:
            self.met(f"accepted after {self.lifted_by}")
        self.begun_by, self.came_since = event, set()

    def during_wait(self, before, event, after, reply):
        """Another event than a request."""
        if not after.rotation_awaited:
            rotated = SAME if after.ble == before.ble else ANOTHER
            self.lifted_by = LIFTING.get(type(event), rotated)
            return
        what = NOT_LIFTING.get((type(event), reply.answer))
        if what and getattr(event, "link", self.begun_by.link) == self.begun_by.link:
            self.came_since.add(what)

    def missed(self):
        return [name for name in NAMES if not self.counts[name]]
