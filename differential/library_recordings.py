"""Recordings that the library wrote, with the lines that tell what it answered."""

from reference.generator.generate import Generator
from reference.rules.model import step
from reference.rules.record_layout import BY_EVENT

EVENTS = 100
# FP_RECORD_MAX: long enough for every record.
ROOM = bytes(1_026)
# Where a stored list has its count.
COUNT = 3


def library_recording(library, seed):
    """ "If the writer took every event from a taken power-on on, replay by the same build gives the answers" """
    # The second program's state leads the generator.
    generator, state, device = Generator(seed), None, library.off()
    recording, lines = b"", []
    while len(lines) < EVENTS:
        event = generator.next_event(state)
        state, _ = step(state, event)
        device, reply = library.step(device, event)
        if state is not None:
            _, length, out = library.record(event, ROOM)
            recording += out[:length]
            keys = device.stored.bytes[COUNT]
            lines.append(f"{len(lines) + 1} {BY_EVENT[type(event)].name} {reply.answer} {keys}")
    return recording, lines
