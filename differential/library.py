"""The built library, called with the events of the reference."""

import fcntl
from ctypes import c_uint8

from reference.rules import events
from reference.rules.events import Named, Reply
from reference.rules.recording import LENT

from .bindings import bind, writer
from .build import build
from .guarded_memory import GuardedMemory, InterfaceViolation
from .paths import FOLDER
from .structs import FpAddress, FpElement, FpIdentity, FpStart

CONFIRM = {0: None, 1: True, 2: False}
NAMED = {0: None, 1: Named.BLE, 2: Named.PUBLIC}
NO_ADDRESS = bytes(6)
# For events whose record is too long, and lengths that do not fit into two bytes.
LONG = 70_000


class Library:
    """Every event is one call of an fp_ function; no call keeps anything for the next."""

    def __init__(self, functions):
        self.functions = functions
        self.input = GuardedMemory("request, block, list or packet", LONG)
        self.name = GuardedMemory("name", LONG)
        self.salt = GuardedMemory("salt")
        self.nonce = GuardedMemory("nonce")
        self.outputs = GuardedMemory("output"), GuardedMemory("second output")
        self.written = GuardedMemory("output of a question or a record", LONG)

    def off(self):
        """The value before any device."""
        return self.functions["fp_off"]()

    def step(self, device, event):
        """The next fp_device and the reply; raises if memory was written that was not lent."""
        name, inputs, arguments = CALLS[type(event)]
        lent = lent_outputs(event)
        addresses = (memory.lend(out) for memory, out in zip(self.outputs, lent))
        slices = [part for address, out in zip(addresses, lent) for part in (address, len(out))]
        outcome = self.functions[name](device, *arguments(self, event), *slices)
        self.check_kept(inputs)
        check_zero(outcome.reserved)
        outputs = [memory.bytes_after() for memory, _ in zip(self.outputs, lent)]
        return outcome.next, reply_of(outcome.reply, *outputs)

    def record(self, event, out, lengths=None):
        """The answer, the number of bytes written and the output afterwards, with these lengths of the lent outputs."""
        name, inputs, arguments = CALLS[type(event)]
        lengths = map(len, lent_outputs(event)) if lengths is None else lengths
        lent = self.written.lend_slice(out)
        report = self.functions[writer(name)](*arguments(self, event), *lengths, *lent)
        self.check_kept(inputs)
        return self.report(report)

    def stored_list(self, device, out):
        """The answer, the number of bytes written and the output afterwards."""
        return self.report(self.functions["fp_stored_list"](device, *self.written.lend_slice(out)))

    def advertisement(self, device, hide, out):
        """The same; `hide` is a number."""
        return self.report(self.functions["fp_advertisement"](device, hide, *self.written.lend_slice(out)))

    def report(self, report):
        check_zero(report.reserved)
        return report.answer, report.length, self.written.bytes_after()

    def check_kept(self, inputs):
        for name in inputs:
            getattr(self, name).check_kept()


def load():
    """The library, built from the archive; by one process at a time, so that two can be run side by side."""
    FOLDER.mkdir(parents=True, exist_ok=True)
    with open(FOLDER / "lock", "w") as lock:
        fcntl.flock(lock, fcntl.LOCK_EX)
        return Library(bind(build()))


def lent_outputs(event):
    """The outputs that the event lends, as they were beforehand."""
    return [getattr(event, name) for name in LENT.get(type(event), ())]


def check_zero(reserved):
    """What is reserved holds nothing, and so nothing that was dropped."""
    if any(reserved):
        raise InterfaceViolation(f"reserved bytes {bytes(reserved).hex()}")


def reply_of(reply, out=b"", packet=b""):
    """The reply in the reference's form; values that the header doesn't know raise InterfaceViolation."""
    bond = bytes(reply.bond.address.bytes)
    wanted = reply.bond.wanted
    if wanted > 1 or reply.confirm > 2 or (not wanted and bond != NO_ADDRESS):
        raise InterfaceViolation(f"wanted {wanted}, bond {bond.hex()}, confirm {reply.confirm}")
    # "a request that named the BLE address asks the radio to rotate", and nothing else does
    if reply.named > 2 or reply.rotate != (reply.named == 1):
        raise InterfaceViolation(f"named {reply.named}, rotate {reply.rotate}")
    handed_out = reply.tried, bond if wanted else None, CONFIRM[reply.confirm]
    return Reply(reply.answer, *handed_out, out, reply.packet_length, packet, NAMED[reply.named])


def array(data):
    """Bytes as an array of C."""
    return (c_uint8 * len(data))(*data)


def flag_byte(flag, clock):
    """ "any other number for on": each of them comes by, and a replay gets the same."""
    return 1 + clock % 255 if flag else 0


def power_on(library, event):
    identity = FpIdentity(FpAddress(array(event.public)), array(event.model))
    start = FpStart(identity, FpAddress(array(event.ble)), array(event.salt))
    return *library.input.lend_slice(event.stored), *library.name.lend_slice(event.name), start


def overflow(library, event):
    return ()


def link_and_clock(library, event):
    return event.link, event.clock


def pairing_mode(library, event):
    return flag_byte(event.on, event.clock), event.clock


def address_rotated(library, event):
    return FpAddress(array(event.ble)), library.salt.lend(event.salt), event.clock


def factory_reset(library, event):
    return (event.clock,)


def key_based_write(library, event):
    element = FpElement(flag_byte(event.accepted, event.clock), array(event.secret))
    salt, nonce = library.salt.lend(event.salt), library.nonce.lend(event.nonce)
    return event.link, event.clock, *library.input.lend_slice(event.data), element, salt, nonce


def pairing_started(library, event):
    return event.link, event.clock, event.capability


def confirmation_needed(library, event):
    return event.link, event.clock, event.passkey


def passkey_write(library, event):
    return event.link, event.clock, *library.input.lend_slice(event.block), library.salt.lend(event.salt)


def pairing_ended(library, event):
    return event.link, event.clock, flag_byte(event.success, event.clock)


def account_key_write(library, event):
    return event.link, event.clock, *library.input.lend_slice(event.block)


def name_write(library, event):
    return event.link, event.clock, *library.input.lend_slice(event.packet)


# The function of each event, the inputs that it lends, and its arguments but for the device and the outputs.
CALLS = {
    events.PowerOn: ("fp_power_on", ("input", "name"), power_on),
    events.Overflow: ("fp_overflow", (), overflow),
    events.LinkUp: ("fp_link_up", (), link_and_clock),
    events.LinkDown: ("fp_link_down", (), link_and_clock),
    events.PairingMode: ("fp_pairing_mode", (), pairing_mode),
    events.AddressRotated: ("fp_address_rotated", ("salt",), address_rotated),
    events.FactoryReset: ("fp_factory_reset", (), factory_reset),
    events.KeyBasedWrite: ("fp_key_based_write", ("input", "salt", "nonce"), key_based_write),
    events.PairingStarted: ("fp_pairing_started", (), pairing_started),
    events.ConfirmationNeeded: ("fp_confirmation_needed", (), confirmation_needed),
    events.PasskeyWrite: ("fp_passkey_write", ("input", "salt"), passkey_write),
    events.PairingEnded: ("fp_pairing_ended", (), pairing_ended),
    events.AccountKeyWrite: ("fp_account_key_write", ("input",), account_key_write),
    events.NameWrite: ("fp_name_write", ("input",), name_write),
}
